"""Tries the second reckoning of the paste of CR 1: examples by hand, both ways, the cases, and wrong pastes."""

import sys

sys.dont_write_bytecode = True  # leave no .pyc behind

import re
import unittest
from collections import Counter
from functools import lru_cache
from itertools import product
from pathlib import Path

sys.path.insert(0, str(Path(__file__).resolve().parent))

from reckoning import trial_pastes
from reckoning.column import Column, Line, ask, conditions, entry_number
from reckoning.lists import CONDITIONS, numbers_and_column
from reckoning.pastes import Pasted, pasted, require_form
from reckoning.reduction import TABLE_4_2
from reckoning.trial_reduction import Lot
from reckoning.trial_whole import fresh_by_kind

# Lines whose part of the figure is told by hand, whatever X is: class 3 has share 1, class 2 and above 5,000 have 1 at
# one floor and 4/5, rounded up, at more. TOP adds 40,000, SECOND 20,000, GARAGE 10,000 or 8,000, FIFTH 10,002 or 8,002.
TOP, SECOND, GARAGE, FIFTH = (1, 3, 4_000, 10), (2, 3, 1_000, 20), (2, 2, 2_500, 4), (5, 1, 5_001, 2)
LAST = (64, 3, 50_000, 200_000)
# A line for each number 3 to 6, refused after TOP and SECOND and on a fresh column alike, and of no other fault.
BAD = {3: (65, 3, 1, 1), 4: (2, 4, 1, 1), 5: (2, 3, 50_001, 1), 6: (2, 3, 1, 200_001)}
SHEET = ((1, 1, 2_000, 1_600), (2, 1, 2_000, 1_600))
INTERIOR = ((1, 1, 6_000, 10_000), (2, 1, 2_000, 100))


def lent(lines):
    """Lines of four numbers as lines of the reckoning."""
    return tuple(Line(*line) for line in lines)


# ---- Examples worked by hand ------------------------------------------------

# Code, lines held, lines pasted; then how many are kept, the number, how many are held, and n, X and the figure.
EXAMPLES = (
    # Nothing refused: the list is kept whole, wherever the column is cut.
    (1, (), (), 0, 0, 0, None),
    (7, (TOP,), (), 0, 0, 1, (1, 0, 40_000)),
    (1, (), (TOP,), 1, 0, 1, (1, 0, 40_000)),
    (1, (), (TOP, SECOND), 2, 0, 2, (2, 0, 60_000)),
    (1, (TOP,), (SECOND,), 1, 0, 2, (2, 0, 60_000)),
    (4, (TOP,), (GARAGE, GARAGE), 2, 0, 3, (2, 0, 56_000)),
    (4, (TOP, GARAGE), (FIFTH, LAST), 2, 0, 4, (4, 0, 40_000 + 8_000 + 8_002 + 10_000_000_000)),
    # The paper's columns, and rows of its figures: X and n are of the lines held and pasted.
    (1, (), SHEET, 2, 0, 2, (2, 12_800, 4_185_600)),
    (1, SHEET[:1], SHEET[1:], 1, 0, 2, (2, 12_800, 4_185_600)),
    (1, (), SHEET[::-1], 1, 3, 1, (1, 6_400, 2_628_800)),
    (1, INTERIOR[:1], INTERIOR[1:], 1, 0, 2, (2, 400, 48_200_000)),
    (1, (), (*INTERIOR, BAD[6]), 2, 6, 2, (2, 400, 48_200_000)),
    (4, ((1, 1, 5_000, 1),), ((9, 1, 5_000, 4_999),), 1, 0, 2, (2, 10_000, 3_535 * 5_000)),
    (3, (), SHEET[:1], 1, 0, 1, (1, 4_800, 1_820 * 1_600)),  # 120,000 * 5,280^2 is not below 1,828,000^2, 5,276^2 is
    # 'The lines before that one are kept', and those below it are not looked at, good or not.
    *((1, (), (BAD[number], TOP), 0, number, 0, None) for number in BAD),
    *((1, (TOP,), (BAD[number],), 0, number, 1, (1, 0, 40_000)) for number in BAD),
    *((1, (TOP,), (SECOND, BAD[number], SECOND), 1, number, 2, (2, 0, 60_000)) for number in BAD),
    *((1, (TOP,), (SECOND, SECOND, BAD[number]), 2, number, 3, (2, 0, 80_000)) for number in BAD),
    (1, (TOP,), (SECOND, BAD[6], BAD[4]), 1, 6, 2, (2, 0, 60_000)),
    (1, (TOP,), (SECOND, BAD[4], BAD[6], SECOND), 1, 4, 2, (2, 0, 60_000)),
    # Of several conditions the first counts.
    (1, (TOP,), ((0, 0, 0, 0), SECOND), 0, 3, 1, (1, 0, 40_000)),
    (1, (TOP,), ((2, 0, 0, 0), SECOND), 0, 4, 1, (1, 0, 40_000)),
    (1, (TOP,), (SECOND, (2, 1, 0, 0)), 1, 5, 2, (2, 0, 60_000)),
    (1, (TOP,), (SECOND, (2, 1, 1, 0)), 1, 6, 2, (2, 0, 60_000)),
    (1, (SECOND,), ((1, 4, 0, 0),), 0, 3, 1, (1, 0, 20_000)),
    # 'A smaller number than the last accepted line's', be that held or pasted; an equal one is good.
    (1, (SECOND,), (TOP,), 0, 3, 1, (1, 0, 20_000)),
    (1, (SECOND,), (TOP, SECOND), 0, 3, 1, (1, 0, 20_000)),
    (1, (SECOND,), (SECOND,), 1, 0, 2, (1, 0, 40_000)),
    (1, (), (SECOND, TOP, SECOND), 1, 3, 1, (1, 0, 20_000)),
    (1, (TOP,), (FIFTH, SECOND, FIFTH), 1, 3, 2, (2, 0, 48_002)),
    # Forty lines, and '256 lines held'.
    (1, (), (TOP,) * 40, 40, 0, 40, (1, 0, 1_600_000)),
    (1, (TOP,) * 216, (TOP,) * 40, 40, 0, 256, (1, 0, 10_240_000)),
    (1, (TOP,) * 217, (TOP,) * 40, 39, 2, 256, (1, 0, 10_240_000)),
    (1, (TOP,) * 230, (TOP,) * 25 + (BAD[4],) * 15, 25, 4, 255, (1, 0, 10_200_000)),
    (1, (TOP,) * 230, (TOP,) * 26 + (BAD[4],) * 14, 26, 2, 256, (1, 0, 10_240_000)),
    (1, (), (TOP,) * 256, 256, 0, 256, (1, 0, 10_240_000)),
    (1, (), (TOP,) * 300, 256, 2, 256, (1, 0, 10_240_000)),
    (1, (), (TOP,) * 99 + (BAD[6],) + (TOP,) * 200, 99, 6, 99, (1, 0, 3_960_000)),
    (1, (TOP,), (LAST,) * 256, 255, 2, 256, (2, 0, 40_000 + 255 * 10_000_000_000)),
    (1, (TOP,) * 255, (LAST,), 1, 0, 256, (2, 0, 10_200_000 + 10_000_000_000)),
    (1, (TOP,) * 255, (BAD[3], TOP), 0, 3, 255, (1, 0, 10_200_000)),
    (1, (TOP,) * 256, (), 0, 0, 256, (1, 0, 10_240_000)),
    *((1, (TOP,) * 256, (line, TOP), 0, 2, 256, (1, 0, 10_240_000)) for line in (TOP, (0, 0, 0, 0), *BAD.values())),
    # Limits, and numbers that look right when cut.
    (12, (), ((1, 1, 1, 1),), 1, 0, 1, (1, 1, 1)),
    (1, (), (LAST, LAST), 2, 0, 2, (1, 0, 20_000_000_000)),
    *((1, (TOP,), ((cut + 1, 3, 1, 1), TOP), 0, 3, 1, (1, 0, 40_000)) for cut in (2**6, 2**8, 2**32, 2**63)),
    *((1, (TOP,), ((1, cut + 3, 1, 1), TOP), 0, 4, 1, (1, 0, 40_000)) for cut in (1, 2**8, 2**16, 2**63)),
    *((1, (TOP,), ((1, 3, cut + 1, 1), TOP), 0, 5, 1, (1, 0, 40_000)) for cut in (50_000, 2**16, 2**32, 2**64 - 2)),
    *((1, (TOP,), ((1, 3, 1, cut + 1), TOP), 0, 6, 1, (1, 0, 40_000)) for cut in (200_000, 2**18, 2**32, 2**63)),
)


class ByHand(unittest.TestCase):
    """What the paper's words give for small pastes, and for long ones of like lines."""

    def test_examples(self):
        """Kept, number, held and the lines then, and n, X and the figure at their lowest floor."""
        for code, held, lines, kept, number, count, lowest in EXAMPLES:
            right = Pasted(kept, number, count, lent(held + lines[:kept]), lowest)
            self.assertEqual(pasted(code, held, lines), right)


# ---- The two ways -----------------------------------------------------------


class TwoWays(unittest.TestCase):
    """Both ways of reckoning, and that their checks can fail."""

    SMALL = (TOP, SECOND, (2, 1, 5_000, 2_000), (0, 1, 1, 1), (3, 0, 1, 1), (2, 3, 0, 1), (1, 1, 1, 0))

    def test_every_small_paste(self):
        """All lists of up to three of seven lines on all columns of up to two of them: both ways agree."""
        columns = [(), (TOP,), (SECOND,), (TOP, TOP), (TOP, SECOND), (SECOND, SECOND)]
        met = Counter()
        for held, count in product(columns, range(4)):
            met.update(pasted(1, held, lines).number for lines in product(self.SMALL, repeat=count))
        self.assertEqual(set(met), {0, 3, 4, 5, 6})

    def test_one_paste_is_two(self):
        """A list pasted in two parts ends as pasted whole, where the first part is kept whole."""
        for code, held, lines in trial_pastes.cases_by_kind()["few_faults_by_lot"][:200]:
            whole = trial_pastes.answer((code, held, lines))
            for at in range(whole.kept + 1):
                then = pasted(code, held + lines[:at], lines[at:])
                self.assertEqual((then.kept + at, then.number, then.lines), (whole.kept, whole.number, whole.lines))

    def test_wrong_columns_stop_the_making(self):
        """A code not 1 to 12, a held line that is refused, and 257 held lines raise an error."""
        for code, held in ((0, ()), (13, ()), (1, (BAD[4],)), (1, (SECOND, TOP)), (1, (TOP,) * 257)):
            self.assertRaises(AssertionError, pasted, code, held, (TOP,))

    def test_disagreement_stops_the_making(self):
        """Where one way is made wrong, the other notices."""
        right = CONDITIONS[6]
        try:
            CONDITIONS[6] = lambda _place, _above, line: line.area > 200_001
            self.assertRaises(AssertionError, pasted, 1, (TOP,), (SECOND, BAD[6]))
        finally:
            CONDITIONS[6] = right
        self.assertEqual(pasted(1, (TOP,), (SECOND, BAD[6])).number, 6)

    def test_wrong_forms_stop_the_making(self):
        """Counts that do not fit, a number without a refused line, or the other way about, raise an error."""
        held, lines = lent((TOP,)), lent((SECOND, SECOND))
        require_form(held, lines, Pasted(1, 4, 2, held + lines[:1], (1, 0, 0)))
        for kept, number, count in ((1, 0, 2), (2, 4, 3), (1, 2, 2), (1, 7, 2), (1, 4, 1), (3, 0, 4)):
            wrong = Pasted(kept, number, count, held + lines[:kept], (1, 0, 0))
            self.assertRaises(AssertionError, require_form, held, lines, wrong)


# ---- The generated cases ----------------------------------------------------


@lru_cache(maxsize=None)
def pairs():
    """Every case with its answer."""
    return tuple((asked, trial_pastes.answer(asked)) for asked in trial_pastes.cases())


class Generated(unittest.TestCase):
    """What the generated cases hold."""

    def test_enough(self):
        """The making's own check holds; some 5,500 pastes, none twice; no kind is empty."""
        trial_pastes.require_enough()
        self.assertGreaterEqual(len(pairs()), 5_500)
        self.assertEqual(len(set(trial_pastes.cases())), len(pairs()))
        kinds = trial_pastes.cases_by_kind()
        self.assertEqual(len(kinds), len(trial_pastes.MAKERS))
        self.assertGreaterEqual(min(map(len, kinds.values())), 15)

    def test_counts_and_places(self):
        """Every count pasted on every count held; each of 3 to 6 at each place 1 to 256; 2 only where 256 are held."""
        counts = {(len(held), len(lines), min(found.number, 3)) for (_code, held, lines), found in pairs()}
        for held, count in product((0, 1, 100, 255, 256), (0, 1, 40, 256, 300)):
            self.assertIn((held, count, 0 if held + count <= 256 else 2), counts)
            self.assertTrue((held, count, 3) in counts or held == 256 or count == 0)
        places = {(found.number, found.kept + 1) for _asked, found in pairs()}
        self.assertLessEqual(set(product((3, 4, 5, 6), range(1, 257))), places)
        self.assertEqual({found.held for _asked, found in pairs() if found.number == 2}, {256})

    def test_a_lack_is_noticed(self):
        """Without a kind that brings what is to be met, the making stops."""
        everything, kinds = trial_pastes.cases, trial_pastes.cases_by_kind()
        for lacking in ("refused_at_each_place", "numbers_at_limits", "counts_with_refused_lines", "filled_columns"):
            rest = [asked for name, kind in kinds.items() if name != lacking for asked in kind]
            try:
                trial_pastes.cases = lambda: rest
                self.assertRaises(AssertionError, trial_pastes.require_enough)
            finally:
                trial_pastes.cases = everything

    def test_made_the_same_again(self):
        """The pastes come out the same when they are made anew; a few kinds stand for all."""
        again = fresh_by_kind(trial_pastes.MAKERS[:6], Lot(trial_pastes.SEED))
        self.assertEqual(again, dict(list(trial_pastes.cases_by_kind().items())[:6]))


class Text(unittest.TestCase):
    """The form of the text."""

    NUMBER = "(?:0|[1-9][0-9]{0,19})"
    FORM = "(?:[1-9]|1[0-2]) N(?: N N N N)* = kept N number [02-6] held (?:0 lowest none|[1-9][0-9]{0,2} lowest N N N)"

    @classmethod
    def setUpClass(cls):
        """Makes the text once."""
        cls.text = trial_pastes.text()
        cls.rows = cls.text.splitlines()

    def test_form(self):
        """One line a paste, each of the form and parted by one blank, in the order of the cases; below the size."""
        form = re.compile(self.FORM.replace("N", self.NUMBER))
        self.assertTrue(self.text.endswith("\n"))
        self.assertLess(len(self.text), 12_000_000)
        self.assertEqual(len(self.rows), len(pairs()))
        for row, ((code, held, lines), _found) in zip(self.rows, pairs()):
            self.assertTrue(form.fullmatch(row), row)
            numbers = [int(number) for number in row.split(" = ")[0].split(" ")]
            self.assertEqual(numbers, [code, len(held), *(number for line in held + lines for number in line)])

    def test_known_rows(self):
        """Rows written out by hand."""
        for row in (
            "1 0 = kept 0 number 0 held 0 lowest none",
            "12 0 = kept 0 number 0 held 0 lowest none",
            "1 0 1 1 6000 10000 2 1 2000 100 = kept 2 number 0 held 2 lowest 2 400 48200000",
            "1 1 1 1 6000 10000 2 1 2000 100 = kept 1 number 0 held 2 lowest 2 400 48200000",
            "1 1 1 1 6000 10000 = kept 0 number 0 held 1 lowest 1 0 60000000",
            "1 0 1 1 2000 1600 2 1 2000 1600 = kept 2 number 0 held 2 lowest 2 12800 4185600",
            "1 2 1 1 2000 1600 2 1 2000 1600 = kept 0 number 0 held 2 lowest 2 12800 4185600",
            "1 0 1 1 2000 1600 = kept 1 number 0 held 1 lowest 1 6400 2628800",
            "1 0 2 1 2000 1600 1 1 2000 1600 = kept 1 number 3 held 1 lowest 1 6400 2628800",
            "1 1 2 1 2000 1600 1 1 2000 1600 = kept 0 number 3 held 1 lowest 1 6400 2628800",
        ):
            self.assertIn(row, self.rows)

    def test_tally(self):
        """Pastes, those that keep every line and refusals are counted as the text has them."""
        counts = [sum(f" number {number} " in row for row in self.rows) for number in (0, 2, 3, 4, 5, 6)]
        refusals = [f"{count} refused under {number}" for number, count in enumerate(counts[1:], start=2)]
        self.assertEqual(trial_pastes.tally(), [f"{len(pairs())} pastes", f"{counts[0]} keep every line", *refusals])


# ---- Wrong pastes, told apart by the cases ----------------------------------


def going_on(held, lines, _found):
    """Later lines entered past the refused one."""
    numbers, column = numbers_and_column(Column(1, held), lines)
    return numbers.count(0), next(number for number in numbers if number != 0), column.lines


def last_number(held, lines, found):
    """The number of the last line that entering them all refuses."""
    numbers, _column = numbers_and_column(Column(1, held), lines)
    return found.kept, next(number for number in reversed(numbers) if number != 0), found.lines


def length_first(held, lines, found):
    """A list for which there is no room refused before any line is looked at."""
    return (0, 2, held) if len(held + lines) > 256 else (found.kept, found.number, found.lines)


# Where a line is refused: told of the lines held, those pasted and the right answer; kept, number and the lines then.
WRONG_REFUSALS = {
    "later lines entered": going_on,
    "number of the last refusal": last_number,
    "length checked first": length_first,
    "refused line counted as kept": lambda _held, _lines, found: (found.kept + 1, found.number, found.lines),
    "all or nothing": lambda held, _lines, found: (0, found.number, held),
    "column as before, lines called kept": lambda held, _lines, found: (found.kept, found.number, held),
    "kept counted from the column": lambda _held, _lines, found: (found.held, found.number, found.lines),
}


def in_order(*order):
    """The conditions looked at in another order."""
    return lambda held, kept, line: next((n for n in order if conditions(held + kept, line)[n]), 0)


def with_most(most, counted):
    """Number 2 where so many of the lines that are counted are held."""
    return lambda held, kept, line: 2 if len(counted(held, kept)) >= most else entry_number((held + kept)[-1:], line)


def floors_against(above):
    """Floors held against the last of other lines, if any."""
    return lambda held, kept, line: 2 if len(held + kept) >= 256 else entry_number(above(held, kept)[-1:], line)


# A line's number, told of the lines held before, those kept so far, and the line.
WRONG_NUMBERS = {
    "class before floor": in_order(2, 4, 3, 5, 6),
    "load before class": in_order(2, 3, 5, 4, 6),
    "area before load": in_order(2, 3, 4, 6, 5),
    "faults before a full column": in_order(3, 4, 5, 6, 2),
    "255 lines": with_most(255, lambda held, kept: held + kept),
    "257 lines": with_most(257, lambda held, kept: held + kept),
    "256 lines of the list": with_most(256, lambda _held, kept: kept),
    "256 lines before the list": with_most(256, lambda held, _kept: held),
    "floors not held against the column's last line": floors_against(lambda _held, kept: kept),
    "floors held against the column's last line only": floors_against(lambda held, _kept: held),
    "floors held against none": floors_against(lambda _held, _kept: ()),
}


def pasted_by(number_of, held, lines):
    """Kept, number and the lines then, where a line's number comes from another rule."""
    kept = ()
    for line in lines:
        number = number_of(held, kept, line)
        if number != 0:
            return len(kept), number, held + kept
        kept += (line,)
    return len(kept), 0, held + kept


def differs(code, wrong, found):
    """Whether a wrong paste says something else than the text does: a count, the number, or n, X and the figure."""
    kept, number, then = wrong
    if (kept, number, len(then)) != (found.kept, found.number, found.held):
        return True
    if then == found.lines:
        return False
    said = ask(Column(TABLE_4_2[code][1], then), max(line.floor for line in then))
    return (said.floors, said.influence, said.figure) != found.lowest


class WrongPastes(unittest.TestCase):
    """Wrong pastes say something else for at least ten of the cases of at most twelve lines pasted."""

    LEAST = 10

    @classmethod
    def setUpClass(cls):
        """The cases with few lines pasted, be the column full or not."""
        few = [(asked, found) for asked, found in pairs() if len(asked[2]) <= 12]
        cls.cases = [(code, lent(held), lent(lines), found) for (code, held, lines), found in few]

    def test_wrong_refusals(self):
        """Another end where a line is refused."""
        refused = [row for row in self.cases if row[3].number != 0]
        for name, wrong in WRONG_REFUSALS.items():
            met = [differs(code, wrong(held, lines, found), found) for code, held, lines, found in refused]
            self.assertGreaterEqual(sum(met), self.LEAST, name)

    def test_wrong_numbers(self):
        """Another rule for a line's number."""
        for name, rule in WRONG_NUMBERS.items():
            met = [differs(code, pasted_by(rule, held, lines), found) for code, held, lines, found in self.cases]
            self.assertGreaterEqual(sum(met), self.LEAST, name)

    def test_last_left_out(self):
        """The last line of the list left out; the right rule with all lines says nothing else."""
        rule, met = in_order(2, 3, 4, 5, 6), 0
        for code, held, lines, found in self.cases:
            self.assertFalse(differs(code, pasted_by(rule, held, lines), found))
            met += differs(code, pasted_by(rule, held, lines[:-1]), found)
        self.assertGreaterEqual(met, self.LEAST)


if __name__ == "__main__":
    unittest.main()
