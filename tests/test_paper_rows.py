"""Tries the comparing of the proved tables: as they should be, and with a row changed, left out or added."""

import sys

sys.dont_write_bytecode = True  # leave no .pyc behind

import io
import unittest
from contextlib import redirect_stdout
from dataclasses import replace
from itertools import product
from pathlib import Path
from tempfile import TemporaryDirectory

sys.path.insert(0, str(Path(__file__).resolve().parent))

import paper_rows
from reckoning.column import ask_list
from reckoning.paper import PAPER_ROWS
from reckoning.proved import (
    Unreadable,
    complaints_of_examples,
    complaints_of_figures,
    complaints_of_pastes,
    complaints_of_pins,
    complaints_of_refusing,
    complaints_of_writes,
    examples_of,
    paper_examples,
    reckoned,
    written,
)
from reckoning.reduction import reduced_load, uncapped_load
from reckoning.trial_column import Script, enter_by_lot
from reckoning.trial_reduction import Lot

JOINED_BY = "\N{PROPORTION}"


def list_text(name, items):
    """A list's definition: the name on a line, one item a line, and the empty list last."""
    return f"{name} =\n" + "".join(f"  {item} {JOINED_BY}\n" for item in items) + "  []\n"


# ---- Rows of figures ------------------------------------------------------

PROVED = [row for row in PAPER_ROWS if row.is_proved]


def figures_text(rows):
    """A file with rows as its table, and other definitions before it and after it."""
    other = list_text("others", ["row 2000 1 1 (at 6401) 1643"])
    table = f"figures : List Row\n{list_text('figures', rows)}"
    return f"-- Figures.\n\n{other}\n{table}\nlast : Row\nlast = row 1 2 3 any 1\n"


PROVED_TEXT = figures_text(written(row) for row in PROVED)


def other_rows(row):
    """Rows that are as true as this one, but with another X, or where X is 'any' with some X, or with another load."""
    for influence in (6_401,) if row.influence is None else (row.influence - 1, row.influence + 1):
        r = uncapped_load(row.load, influence) if row.is_uncapped else load_of(row, influence=influence)
        yield replace(row, influence=influence, r=r)
    load = row.load - 1
    r = uncapped_load(load, row.influence) if row.is_uncapped else load_of(row, load=load)
    yield replace(row, load=load, r=r)


def load_of(row, **changed):
    """R of a row with some of its numbers changed; X of 1 where it is 'any'."""
    row = replace(row, **changed)
    return reduced_load(row.load, row.cls, row.floors, 1 if row.influence is None else row.influence).value


class Figures(unittest.TestCase):
    """The proved rows are the paper's with P, no more and no fewer."""

    def test_as_it_should_be(self):
        """The paper's rows with P are nothing to complain of, in any order."""
        self.assertEqual(complaints_of_figures(PROVED_TEXT), [])
        self.assertEqual(complaints_of_figures(figures_text(written(row) for row in reversed(PROVED))), [])

    def test_printed_form(self):
        """The three forms of a row."""
        rows = [written(row) for row in PROVED]
        for row in ("row 2000 1 1 (at 3700) 2000", "row 2000 1 1 (uncapped 3700) 2003", "row 5001 1 2 any 4001"):
            self.assertIn(row, rows)

    def test_layouts(self):
        """The sign at the line's end or its beginning, several rows to a line, blanks, comments and empty lines."""
        rows = [written(row) for row in PROVED]
        for text in (
            f"figures = {f' {JOINED_BY} '.join(rows)} {JOINED_BY} []",
            f"figures =\n    {f'{chr(10)}  {JOINED_BY} '.join(rows)}\n  {JOINED_BY} []\nmore = 1\n",
            PROVED_TEXT.replace("row 2000 1 1 (at 6400)", "row  2000 1\n    1 (at 6400)"),
            PROVED_TEXT.replace("row 5001", "-- heavy, row 1 1 1 any 1\n\n  row 5001"),
        ):
            self.assertEqual(complaints_of_figures(text), [], text)

    def test_left_out(self):
        """A table without one of its rows, or with one of them in a comment only."""
        for row in PROVED:
            rows = [written(each) for each in PROVED if each != row]
            self.assertEqual(complaints_of_figures(figures_text(rows)), [f"missing: {written(row)}"])
            said = complaints_of_figures(PROVED_TEXT.replace(f"  {written(row)}", f"--  {written(row)}"))
            self.assertEqual(said, [f"missing: {written(row)}"])
        self.assertEqual(len(complaints_of_figures(figures_text([]))), 13)

    def test_changed_into_another_true_row(self):
        """X 6,401 for 6,400, whose R is the same, and every other row with a neighbouring X or load and its R."""
        changed = figures_text(written(row) for row in PROVED).replace("(at 6400) 1643", "(at 6401) 1643")
        self.assertEqual(reduced_load(2_000, 1, 1, 6_401).value, 1_643)
        self.assertEqual(len(complaints_of_figures(changed)), 2)
        for row in PROVED:
            for other in other_rows(row):
                rows = [written(other if each == row else each) for each in PROVED]
                self.assertIn(f"missing: {written(row)}", complaints_of_figures(figures_text(rows)), other)

    def test_changed_number(self):
        """Any number of any row one higher, and any kind of X exchanged for another."""
        for row in PROVED:
            words = written(row).split()
            for at, word in enumerate(words):
                digits = word.strip("()")
                if digits.isdigit():
                    other = [*words[:at], word.replace(digits, str(int(digits) + 1)), *words[at + 1 :]]
                    text = PROVED_TEXT.replace(f"  {written(row)}", f"  {' '.join(other)}")
                    self.assertEqual(len(complaints_of_figures(text)), 2, other)
        for kinds in (("(at 3700)", "(uncapped 3700)"), ("(at 6400)", "any"), ("5001 1 1 any", "5001 1 1 (at 1)")):
            self.assertEqual(len(complaints_of_figures(PROVED_TEXT.replace(*kinds))), 2, kinds)

    def test_added(self):
        """One row more: true ones without P or not of the paper, and each of the table's own for a second time."""
        rows = [written(row) for row in PROVED]
        more = [written(row) for row in PAPER_ROWS if not row.is_proved] + rows
        more += [written(other) for row in PROVED for other in other_rows(row)] + ["row 1 1 1 any 1"]
        self.assertEqual(more[:3], ["row 2000 1 1 (at 3699) 2000", "row 2500 2 1 any 2500", "row 2500 2 2 any 2000"])
        for row in more:
            self.assertEqual(len(complaints_of_figures(figures_text([*rows, row]))), 1, row)
            self.assertEqual(len(complaints_of_figures(figures_text([row, *rows]))), 1, row)

    def test_unreadable(self):
        """A table of another form is not passed over."""
        for old, new in (
            ("\nfigures =", "\nother ="),
            ("\nfigures =", "\nfigures = []\n\nfigures ="),
            ("  []\n\nlast", "  [] ++ others\n\nlast"),
            ("  []\n\nlast", "  others\n\nlast"),
            ("  []\n\nlast", "  []\n  more\n\nlast"),
            ("row 5000", "{- row 5000 -} row 5000"),
            ("row 5000", "line 5000"),
            ("row 5000", "row 5_000"),
            ("row 5000", "(row 5000"),
            ("(at 10000)", "(at 10000 + 0)"),
            ("(at 10000)", "at 10000"),
            ("(at 10000)", "(under 10000)"),
            ("(at 10000) 3535", "(at 10000)"),
            ("(at 10000) 3535", "(at 10000) 3535 3535"),
            (f"3535 {JOINED_BY}", "3535"),
        ):
            self.assertIn(old, PROVED_TEXT)
            self.assertRaises(Unreadable, complaints_of_figures, PROVED_TEXT.replace(old, new))


# ---- Examples of columns --------------------------------------------------


def examples_text(examples):
    """A file with examples as its table; each has its list of lines under a name of its own."""
    lists, rows = [], []
    for at, (code, numbers, floor, asked) in enumerate(examples):
        lists.append(list_text(f"lines{at}", numbers))
        rows.append(" ".join(str(word) for word in ("example", code, f"lines{at}", floor, *asked)))
    return "\n".join(lists) + f"\nexamples : List Example\n{list_text('examples', rows)}"


class Examples(unittest.TestCase):
    """The proved examples are as reckoned, and the paper's two columns are among them."""

    def test_as_it_should_be(self):
        """The paper's four figures, and further columns by lot with other codes and floors."""
        self.assertEqual(complaints_of_examples(examples_text(paper_examples())), [])
        self.assertEqual(len(paper_examples()), 4)
        by_lot = list(self.by_lot(150))
        self.assertEqual(complaints_of_examples(examples_text([*by_lot, *paper_examples()])), [])
        self.assertEqual({code for code, *_rest in by_lot}, set(range(1, 13)))
        self.assertGreaterEqual(len({floor for _code, _numbers, floor, _asked in by_lot}), 30)

    def test_figures_of_the_paper(self):
        """60,000,000 and 48,200,000, and what the sheet's two floors have."""
        figures = [asked for _code, _numbers, _floor, asked in paper_examples()]
        sheet = [(1, 6_400, 2_628_800), (2, 12_800, 4_185_600)]
        self.assertEqual(figures, [(1, 0, 60_000_000), (2, 400, 48_200_000), *sheet])

    def test_layouts(self):
        """A list over several lines of text, and one that two examples share."""
        interior, sheet = (
            f"6000and2000 = 1 {JOINED_BY} 1 {JOINED_BY} 6000 {JOINED_BY} 10000 {JOINED_BY}  -- a line\n"
            f"  2 {JOINED_BY} 1 {JOINED_BY} 2000\n  {JOINED_BY} 100 {JOINED_BY} []\n",
            f"sheet = {f' {JOINED_BY} '.join(map(str, paper_examples()[2][1]))} {JOINED_BY} []\n",
        )
        rows = ["1 6000and2000 1 1 0 60000000", "1 6000and2000 2 2 400 48200000"]
        rows += ["1 sheet 1 1 6400 2628800", "1 sheet 2 2 12800 4185600"]
        text = list_text("examples", [f"example {row}" for row in rows])
        self.assertEqual(complaints_of_examples(interior + sheet + text), [])
        self.assertEqual(complaints_of_examples(text + interior + sheet), [])

    def test_left_out(self):
        """Each of the paper's examples left out, or with its second line or its code another."""
        for example in paper_examples():
            others = [each for each in paper_examples() if each != example]
            self.assertEqual(complaints_of_examples(examples_text(others)), [f"missing: example {example}"])
            code, numbers, floor, asked = example
            for other in (2, numbers), (code, (*numbers, *numbers[-4:])):
                answer = ask_list(*other, floor)
                true_one = (*other, floor, (answer.floors, answer.influence, answer.figure))
                said = complaints_of_examples(examples_text([*others, true_one]))
                self.assertEqual(said, [f"missing: example {example}"])

    def test_changed_number(self):
        """n, X or the figure one higher or lower, in each example."""
        for code, numbers, floor, asked in (*paper_examples(), *self.by_lot(40)):
            for part, step in product(range(3), (1, -1)):
                wrong = tuple(number + step * (place == part) for place, number in enumerate(asked))
                if min(wrong) >= 0:
                    text = examples_text([*paper_examples(), (code, numbers, floor, wrong)])
                    self.assertEqual(len(complaints_of_examples(text)), 1, (code, numbers, floor, wrong))

    def test_refused(self):
        """An example that the reckoning refuses is wrong: a code, and a floor that no line has."""
        code, numbers, floor, asked = paper_examples()[0]
        for wrong in ((0, numbers, floor), (13, numbers, floor), (code, numbers, 3), (code, (), floor)):
            self.assertEqual(len(complaints_of_examples(examples_text([*paper_examples(), (*wrong, asked)]))), 1)

    def test_unreadable(self):
        """A table, or a list of lines, of another form is not passed over."""
        text = examples_text(paper_examples())
        for old, new in (
            ("examples =", "rows ="),
            ("lines0 =", "lines9 ="),
            ("lines1 =", "lines0 ="),
            (f"  10000 {JOINED_BY}\n", ""),
            (f"  10000 {JOINED_BY}", f"  10000 + 0 {JOINED_BY}"),
            ("example 1 lines0 1 1", "example 1 lines0 1"),
            ("example 1 lines0 1", "row 1 lines0 1"),
        ):
            self.assertIn(old, text)
            self.assertRaises(Unreadable, complaints_of_examples, text.replace(old, new, 1))

    def by_lot(self, count):
        """Examples by lot, some with refused lines, each with the answer of the reckoning."""
        lot = Lot(64)
        while count > 0:
            script = Script()
            script.open(lot.between(1, 12))
            enter_by_lot(script, lot, lot.between(1, 8), lot.one_of((0, 3)))
            if script.floors():
                count -= 1
                floor = lot.one_of(script.floors())
                answer = script.ask(floor)
                yield script.code, tuple(script.numbers), floor, (answer.floors, answer.influence, answer.figure)


class OtherForms(unittest.TestCase):
    """Examples whose answer stands in brackets, and lists that another file defines."""

    LISTS = "few =\n    1 ∷ 1 ∷ 2000 ∷ 1600 ∷ []\n"

    def examples(self, *answers):
        """What is read of examples with these floors and answers, all of one list."""
        rows = "".join(f"    example 1 few {floor} {answer} ∷\n" for floor, answer in answers)
        return examples_of("examples =\n" + rows + "    []\n", self.LISTS)

    def test_forms(self):
        """Numbers bare or in brackets, and 7; nothing else is read."""
        few = 1, 1, 2000, 1600
        read = self.examples((1, "1 6400 2628800"), (1, "(working 1 6400 2628800)"), (2, "(refused 7 nothing)"))
        self.assertEqual(read, [(1, few, 1, (1, 6400, 2628800))] * 2 + [(1, few, 2, None)])
        for answer in "(refused 6 nothing)", "(working 1 6400)", "working 1 6400 2628800", "(refused 7 0)":
            self.assertRaises(Unreadable, self.examples, (1, answer))
        self.assertRaises(Unreadable, examples_of, "examples =\n    example 1 few 1 1 6400 2628800 ∷ []\n")


# Entries that tell every other reading from the paper's: two lines on a floor, a garage, an assembly area, a floor skipped.
TELLING = 1, 1, 2_000, 8_000, 1, 2, 2_501, 4_000, 5, 1, 3_000, 6_000, 5, 3, 4_000, 500


class Pins(unittest.TestCase):
    """Which other readings of n, X and K the examples rule out."""

    def rows(self, codes, numbers, floors):
        """Examples with the reckoned answers."""
        return [(code, numbers, floor, reckoned(code, numbers, floor)) for code in codes for floor in floors]

    def test_all_told(self):
        """Rows of one code of each K rule out every other reading."""
        self.assertEqual(complaints_of_pins(examples_text(self.rows((1, 3, 4, 7), TELLING, (1, 5)))), [])

    def test_one_left(self):
        """The paper's own rows alone rule out none but another K than 4; without a floor 5 n may be the floor's number."""
        said = complaints_of_pins(examples_text(paper_examples()))
        self.assertEqual(len(said), 7)
        self.assertNotIn("no example rules out: another K than 4", said)
        said = complaints_of_pins(examples_text(self.rows((1, 3, 4, 7), TELLING[:8], (1,))))
        left = "assembly areas in X", "n as the floor's number"
        self.assertEqual(said, [f"no example rules out: {name}" for name in left])
        said = complaints_of_pins(examples_text(self.rows((1, 3, 7), TELLING, (1, 5))))
        self.assertEqual(said, ["no example rules out: another K than 2"])


class RefusingRows(unittest.TestCase):
    """Rows about refused entries."""

    LISTS = "few =\n    1 ∷ 4 ∷ 2000 ∷ 1600 ∷ []\n"

    def said(self, *rows):
        """What is said of these rows, all of one list."""
        text = "".join(f"    refusing {row} ∷\n" for row in rows)
        return complaints_of_refusing("refusing_examples =\n" + text + "    []\n", self.LISTS)

    def test_refusing(self):
        """Right rows, wrong ones, and those of another form."""
        self.assertEqual(self.said("1 few 1 4 1", "13 few 0 0 0"), [])
        for wrong in "1 few 0 4 1", "1 few 1 5 1", "1 few 1 4 2", "13 few 1 4 1":
            self.assertEqual(len(self.said("1 few 1 4 1", wrong)), 1)
        self.assertRaises(Unreadable, self.said, "1 few 1 4")


# ---- Pastes ---------------------------------------------------------------


class Pastes(unittest.TestCase):
    """The proved pastes."""

    LISTS = "above =\n    1 ∷ 1 ∷ 2000 ∷ 1600 ∷ []\nwide =\n    1 ∷ 1 ∷ 2000 ∷ 200001 ∷ []\n"
    TEXT = LISTS + "examples =\n    example [] (above ++ (wide ++ above)) 6 1 above ∷ []\n"

    def test_right(self):
        """A row that is as reckoned, lists joined in brackets."""
        self.assertEqual(complaints_of_pastes(self.TEXT), [])

    def test_wrong(self):
        """Another number, another count of kept lines, other lines then, and other lines held or pasted."""
        for was, now in (("6 1", "5 1"), ("6 1", "6 2"), ("1 above", "1 []"), ("[] (", "above ("), ("wide ++ ", "")):
            self.assertEqual(len(complaints_of_pastes(self.TEXT.replace(was, now))), 1, now)

    def test_unreadable(self):
        """A row of another form, and a list that is not there."""
        for was, now in (("6 1", "6"), ("example [] ", "example "), ("6 1 above", "6 1 below")):
            with self.assertRaises(Unreadable):
                complaints_of_pastes(self.TEXT.replace(was, now))


# ---- Writes ---------------------------------------------------------------


class Writes(unittest.TestCase):
    """The proved writes."""

    LISTS = "one =\n    1 ∷ 1 ∷ 2000 ∷ 1600 ∷ []\n"
    PUT = "member=2|floor=1 class=1 load=2000 area=1600|dead=0|roof=-7|snow=3|rain=0|wind=0|quake=0|"
    SIX = "(six (whole 0) (uplift 7) (halves 6) (whole 0) (uplift 0) (whole 0))"
    TEXT = f'{LISTS}examples =\n    example 2 one {SIX} 100 (puts "{PUT}") ∷ example 2 one {SIX} 10 no_room ∷ []\n'
    REFUSED = "(refuses 8 4 (halves 7))"

    def refused(self, told):
        """A row whose fourth effect is a fraction, and that tells this."""
        six = self.SIX.replace("(halves 6) (whole 0)", "(halves 6) (halves 7)")
        return f"{self.LISTS}examples =\n    example 2 one {six} 0 {told} ∷ []\n"

    def test_right(self):
        """Rows that are as reckoned: a text, no room, and a refused effect with a buffer that is too short."""
        self.assertEqual(complaints_of_writes(self.TEXT), [])
        self.assertEqual(complaints_of_writes(self.refused(self.REFUSED)), [])

    def test_wrong(self):
        """Another text, effect, line, code or room; another number, place or double."""
        for was, now in (("snow=3", "snow=4"), ("(uplift 7)", "(whole 7)"), ("2 one", "2 []"), (" 10 ", " 100 ")):
            self.assertIn(len(complaints_of_writes(self.TEXT.replace(was, now))), (1, 2), now)
        for now in ("no_room", "(refuses 9 4 (halves 7))", "(refuses 8 5 (halves 7))", "(refuses 8 4 (halves 9))"):
            self.assertEqual(len(complaints_of_writes(self.refused(now))), 1, now)
        for double in "nan", "(inf true)", "(inf false)":
            six = self.refused(f"(refuses 8 4 {double})").replace("(halves 7) (uplift", f"{double} (uplift")
            self.assertEqual(complaints_of_writes(six), [], double)

    def test_unreadable(self):
        """A row of another form, a list that is not there, and a number that no double has."""
        for was, now in (("100", ""), ("2 one", "2 two"), ("(whole 0))", ")"), ("(halves 6)", f"(halves {2**60 + 1})")):
            with self.assertRaises(Unreadable):
                complaints_of_writes(self.TEXT.replace(was, now))


# ---- The script -----------------------------------------------------------


class Comparing(unittest.TestCase):
    """What the script says of a repository, and its exit status."""

    REFUSING = "refused =\n    1 ∷ 4 ∷ 2000 ∷ 1600 ∷ []\n" + (
        "refusing_examples =\n    refusing 13 refused 0 0 0 ∷ []\n"
    )

    def compared(self, figures, asked, examples, pastes=Pastes.TEXT.encode(), written=Writes.TEXT.encode()):
        """The exit status and the printed lines for a repository with these five files, None for no file."""
        with TemporaryDirectory() as folder:
            root = Path(folder)
            places = (paper_rows.FIGURES, paper_rows.ASKED, paper_rows.EXAMPLES, paper_rows.PASTES, paper_rows.WRITES)
            for place, text in zip(places, (figures, asked, examples, pastes, written)):
                (root / place).parent.mkdir(parents=True)
                if text is not None:
                    (root / place).write_bytes(text)
            printed = io.StringIO()
            with redirect_stdout(printed):
                status = paper_rows.compare(root)
            return status, printed.getvalue().splitlines()

    def test_status(self):
        """0 and one line where all tables are right; else 1, and each complaint with its file."""
        pins = [(code, TELLING, floor, reckoned(code, TELLING, floor)) for code in (1, 3, 4, 7) for floor in (1, 5)]
        figures, examples = PROVED_TEXT.encode(), (examples_text([*paper_examples(), *pins]) + self.REFUSING).encode()
        status, printed = self.compared(figures, examples, examples)
        self.assertEqual((status, len(printed)), (0, 1))
        self.assertIn("13 proved rows of figures", printed[0])
        self.assertIn("12 and 12 proved examples, 1 pastes and 2 writes", printed[0])
        changed = figures.replace(b"(at 6400)", b"(at 6401)"), examples.replace(b" 2628800", b" 2628801")
        for files, places in (
            ((changed[0], examples, examples), [paper_rows.FIGURES] * 2),
            ((figures, examples, changed[1]), [paper_rows.EXAMPLES] * 2),
            ((figures, changed[1], examples), [paper_rows.ASKED] * 2),
            ((changed[0], examples, changed[1]), [paper_rows.FIGURES] * 2 + [paper_rows.EXAMPLES] * 2),
            ((figures[:-60], examples, examples), [paper_rows.FIGURES]),
            ((figures, examples, examples.replace(b"refusing 13", b"refusing 12")), [paper_rows.EXAMPLES]),
            ((figures, examples, b"\xff"), [paper_rows.EXAMPLES] * 3),
            ((None, examples, examples), [paper_rows.FIGURES]),
            ((figures, examples, None), [paper_rows.EXAMPLES] * 3),
            ((figures, None, examples), [paper_rows.ASKED]),
            ((figures, examples, examples, Pastes.TEXT.replace("6 1", "6 0").encode()), [paper_rows.PASTES]),
            ((figures, examples, examples, None), [paper_rows.PASTES]),
            ((figures, examples, examples, Pastes.TEXT.encode(), None), [paper_rows.WRITES]),
        ):
            status, printed = self.compared(*files)
            self.assertEqual(status, 1)
            self.assertEqual([line.split(":")[0] for line in printed], places)


if __name__ == "__main__":
    unittest.main()
