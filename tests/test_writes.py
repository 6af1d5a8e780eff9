"""Tries the second reckoning of the writing of CR 2: examples by hand, both ways, the cases, and wrong writers."""

import sys

sys.dont_write_bytecode = True  # leave no .pyc behind

import re
import struct
import unittest
from dataclasses import replace
from functools import lru_cache
from itertools import product
from pathlib import Path

sys.path.insert(0, str(Path(__file__).resolve().parent))

from reckoning import trial_sheet, trial_writes, writes
from reckoning.column import Column, Line
from reckoning.combination import effect
from reckoning.sheet import MOST_BYTES, read
from reckoning.trial_reduction import Lot
from reckoning.trial_whole import fresh_by_kind
from reckoning.writes import Written, byte_count, require_form, require_read_back, text_from_end, written, written_back

# As the paper prints it.
SAMPLE = b"""member=1
floor=1 class=1 load=2000 area=1600
floor=2 class=1 load=2000 area=1600
dead=100000
roof=0
snow=0
rain=0
wind=0
quake=0
"""
SAMPLE_LINES = (Line(1, 1, 2_000, 1_600), Line(2, 1, 2_000, 1_600))
LIMIT = 1_000_000_000_000
INFINITE, MINUS = 0x7FF0_0000_0000_0000, 0x8000_0000_0000_0000


def bits(*doubles):
    """The patterns of doubles; a whole number among them is a pattern already."""
    packed = [struct.pack(">Q" if type(double) is int else ">d", double) for double in doubles]
    return tuple(int.from_bytes(eight, "big") for eight in packed)


def with_effect(place, double, others=1.0):
    """Six effects of which the one at a place, 1 to 6, is this one."""
    return bits(*(double if at == place else others for at in range(1, 7)))


def lines_of(text):
    """The text of a sheet with its lines parted by | instead."""
    return text.replace(b"|", b"\n")


ZEROS = bits(*[0.0] * 6)

# ---- Examples worked by hand ------------------------------------------------

TOP, LOWEST = Line(1, 1, 1, 1), Line(64, 3, 50_000, 200_000)
# Code, lines, the six doubles in the order of the sheet, and the text that they have.
TEXTS = (
    (1, SAMPLE_LINES, bits(100_000.0, 0.0, 0.0, 0.0, 0.0, 0.0), SAMPLE),
    (1, (), ZEROS, lines_of(b"member=1|dead=0|roof=0|snow=0|rain=0|wind=0|quake=0|")),
    (12, (), bits(1.0, 2.0, 3.0, 4.0, 5.0, 6.0), lines_of(b"member=12|dead=1|roof=2|snow=3|rain=4|wind=5|quake=6|")),
    # 'Minus zero counts as 0', and no minus sign stands before 0.
    (9, (), bits(*[-0.0] * 6), lines_of(b"member=9|dead=0|roof=0|snow=0|rain=0|wind=0|quake=0|")),
    (9, (), bits(-0.0, -1.0, 1.0, -0.0, 0.0, 9.0), lines_of(b"member=9|dead=0|roof=-1|snow=1|rain=0|wind=0|quake=9|")),
    # At the limits, with zeros within and at the end.
    (
        *(10, (TOP, LOWEST), bits(1e12, -1e12, 999_999_999_999.0, -999_999_999_999.0, 10.0, -100_200.0)),
        lines_of(
            b"member=10|floor=1 class=1 load=1 area=1|floor=64 class=3 load=50000 area=200000|dead=1000000000000|"
            b"roof=-1000000000000|snow=999999999999|rain=-999999999999|wind=10|quake=-100200|"
        ),
    ),
)
# A refused double, and its number: 'not a whole number (NaN and infinities too)' before 'beyond'.
REFUSED = (
    *((0.5, 8), (-0.5, 8), (1e12 + 0.5, 8), (-1e12 - 0.5, 8), (5e-324, 8), (-5e-324, 8), (2.0**52 - 0.5, 8)),
    *((bits(1e12)[0] + 1, 8), (bits(1e12)[0] - 1, 8), (bits(-1e12)[0] + 1, 8), (bits(-1e12)[0] - 1, 8)),
    *((INFINITE, 8), (INFINITE + MINUS, 8), (INFINITE + 1, 8), (0xFFF8_0000_0000_0001, 8), (2**64 - 1, 8)),
    *((1e12 + 1, 9), (-1e12 - 1, 9), (1e13, 9), (2.0**53, 9), (-(2.0**63), 9), (1.7976931348623157e308, 9)),
)


class ByHand(unittest.TestCase):
    """What the paper's words give."""

    def test_texts(self):
        """A buffer just as long as the text is enough; one that is shorter has 12, be it by a byte or empty."""
        for code, lines, effects, text in TEXTS:
            for room in (len(text), len(text) + 1, 32_768, 10**9):
                self.assertEqual(written(code, lines, effects, room), Written(0, text))
            for room in (0, 1, len(text) // 2, len(text) - 1):
                self.assertEqual(written(code, lines, effects, room), Written(12))

    def test_refused(self):
        """A refused effect comes back as it came, whatever its place; 12 is 'checked after the effects'."""
        for place, (double, number), room in product(range(1, 7), REFUSED, (0, 51, 10_371)):
            effects = with_effect(place, double)
            answer = Written(number, place=place, pattern=bits(double)[0])
            self.assertEqual(written(3, (TOP,), effects, room), answer)

    def test_first_decides(self):
        """Of two refused effects the first counts, be its number the greater or the smaller."""
        for first, second in ((a, b) for a, b in product(range(1, 7), repeat=2) if a < b):
            for (double, number), (other, _number) in product(((0.5, 8), (1e13, 9)), repeat=2):
                effects = [1.0] * 6
                effects[first - 1], effects[second - 1] = double, other
                answer = Written(number, place=first, pattern=bits(double)[0])
                self.assertEqual(written(3, (TOP,), bits(*effects), 0), answer)

    def test_good_at_each_place(self):
        """Every key has its own effect."""
        keys = "dead roof snow rain wind quake".split()
        for place, (number, said) in product(range(6), ((1e12, "1000000000000"), (-7.0, "-7"), (-0.0, "0"))):
            effects = with_effect(place + 1, number, 0.0)
            rows = [f"{key}={said if at == place else 0}" for at, key in enumerate(keys)]
            text = "".join(row + "\n" for row in ("member=4", *rows)).encode()
            self.assertEqual(written(4, (), effects, len(text)), Written(0, text))


class Lengths(unittest.TestCase):
    """The shortest text has 52 bytes and the longest 10,371, told from the length of each part."""

    @staticmethod
    def bounds(numbers):
        """The least and the greatest length of some numbers as they are written."""
        lengths = {len(str(number)) for number in numbers}
        return min(lengths), max(lengths)

    def test_bounds(self):
        """No text is shorter or longer, as each number has its shortest and its longest writing."""
        member, floor, cls = self.bounds(range(1, 13)), self.bounds(range(1, 65)), self.bounds(range(1, 4))
        load, area = self.bounds(range(1, 50_001)), self.bounds(range(1, 200_001))
        signed = [sign * (10**count + step) for sign in (1, -1) for count in range(13) for step in (-1, 0)]
        effects = self.bounds([number for number in signed if abs(number) <= LIMIT])
        words = len("member=\n") + len("dead=\nroof=\nsnow=\nrain=\nwind=\nquake=\n")
        least = words + member[0] + 6 * effects[0]
        line = len("floor= class= load= area=\n") + floor[1] + cls[1] + load[1] + area[1]
        most = words + member[1] + 6 * effects[1] + 256 * line
        self.assertEqual((least, line, most), (52, 40, 10_371))
        self.assertEqual((trial_writes.SHORTEST, trial_writes.LONGEST), (least, most))
        self.assertLess(most, MOST_BYTES)

    def test_reached(self):
        """Both are written, into a buffer just as long and not into a shorter one, and the longest is read again."""
        longest = (12, (LOWEST,) * 256, bits(*[-1e12] * 6))
        for row, length in (((1, (), ZEROS), 52), (longest, 10_371)):
            text = written(*row, length).text
            self.assertEqual((len(text), written(*row, length - 1)), (length, Written(12)))
        found = read(text)
        self.assertEqual((found.code, found.column.lines, found.effects), (12, (LOWEST,) * 256, (-LIMIT,) * 6))


# ---- The two ways, and sheets written back ----------------------------------


class TwoWays(unittest.TestCase):
    """Both ways of reckoning, and that their checks can fail."""

    def broken(self, name, wrong, *asked):
        """Asks while a function of the reckoning is another: an error must come, and none when it is itself again."""
        right = getattr(writes, name)
        try:
            setattr(writes, name, wrong)
            self.assertRaises(AssertionError, written, *asked)
        finally:
            setattr(writes, name, right)
        written(*asked)

    def test_disagreement_stops_the_making(self):
        """Where one way is made wrong, the other or the reader notices."""
        sample = (*TEXTS[0][:3], 129)
        self.broken("byte_count", lambda *row: byte_count(*row) + 1, *sample)
        self.broken("byte_count", lambda *row: byte_count(*row) - 1, *sample[:3], 128)
        self.broken("text_from_end", lambda *row: text_from_end(*row) + b"\n", *sample)
        self.broken("write", lambda *_row: SAMPLE.replace(b"=0", b"=-0"), *sample)
        refused = (1, (), with_effect(2, 0.5), 100)
        self.broken("refused_in_turn", lambda _patterns: None, *refused)
        self.broken("refused_from_last", lambda _patterns: Written(9, place=2, pattern=refused[2][1]), *refused)

    def test_wrong_texts_stop_the_making(self):
        """A text that says another code, column or effect, or none at all."""
        code, lines, effects, text = TEXTS[0]
        require_read_back(code, lines, effects, text)
        for old, new in ((b"member=1", b"member=2"), (b"=2000", b"=2001"), (b"wind=0", b"wind=1"), (b"=0", b"=-0")):
            self.assertRaises(AssertionError, require_read_back, code, lines, effects, text.replace(old, new))

    def test_wrong_questions_stop_the_making(self):
        """A code not 1 to 12, lines that are refused, 257 lines, five effects, and a buffer of no length."""
        for code, lines in ((0, ()), (13, ()), (1, (LOWEST, TOP)), (1, (Line(1, 4, 1, 1),)), (1, (TOP,) * 257)):
            self.assertRaises(AssertionError, written, code, lines, ZEROS, 100)
        self.assertRaises(AssertionError, written, 1, (), ZEROS[:5], 100)
        self.assertRaises(AssertionError, written, 1, (), ZEROS, -1)

    def test_wrong_forms_stop_the_making(self):
        """A text beside a refusal, a place that is none, another double, a number that writing does not give."""
        effects = with_effect(2, 0.5)
        half = effects[1]
        require_form(effects, 60, Written(8, place=2, pattern=half))
        wrong = [Written(8), Written(8, place=0, pattern=half), Written(8, place=7, pattern=half), Written(0)]
        wrong += [Written(8, place=2, pattern=half + 1), Written(12, b""), Written(12, place=0, pattern=0), Written(11)]
        wrong += [Written(8, b"", 2, half), Written(0, b" " * 61), Written(0, b"", 2, half), Written(3, None, 2, half)]
        for answer in wrong:
            self.assertRaises(AssertionError, require_form, effects, 60, answer)


class WrittenBack(unittest.TestCase):
    """'Every sheet that reads well is written back byte for byte.'"""

    def test_sheets(self):
        """Sheets that are read, with what the trial program is to print of them."""
        for _code, _lines, _effects, text in TEXTS:
            self.assertEqual(written_back(text, read(text)), text)
            self.assertEqual(trial_sheet.told_back(text, read(text)), b"written=%d same\n" % len(text))
        told = trial_sheet.told(SAMPLE, read(SAMPLE))
        self.assertTrue(told.endswith(b"\nstart=129 end=129 part=\nwritten=129 same\n"))

    def test_refused_sheets(self):
        """Nothing is printed of writing a sheet that is refused."""
        for text in (b"", SAMPLE[:-1], SAMPLE + b"\n", SAMPLE.replace(b"member=1\n", b"member=13\n")):
            self.assertEqual(trial_sheet.told_back(text, read(text)), b"")

    def test_others_stop_the_making(self):
        """Something else read than the sheet says raises an error, as does a sheet that is written otherwise."""
        found = read(SAMPLE)
        other_lines = Column(found.column.k, SAMPLE_LINES[:1])
        for wrong in (replace(found, code=2), replace(found, column=other_lines), replace(found, effects=(1,) * 6)):
            self.assertRaises(AssertionError, written_back, SAMPLE, wrong)
        self.assertRaises(AssertionError, written_back, SAMPLE.replace(b"dead=100000", b"dead=0100000"), found)


# ---- The generated cases ----------------------------------------------------


@lru_cache(maxsize=None)
def pairs():
    """Every case with its answer."""
    return tuple((asked, trial_writes.answer(asked)) for asked in trial_writes.cases())


class Generated(unittest.TestCase):
    """What the generated cases hold."""

    def test_enough(self):
        """The making's own check holds; some 5,800 writes, none twice; no kind is empty."""
        trial_writes.require_enough()
        self.assertGreaterEqual(len(pairs()), 5_800)
        self.assertEqual(len(set(trial_writes.cases())), len(pairs()))
        kinds = trial_writes.cases_by_kind()
        self.assertEqual(len(kinds), len(trial_writes.MAKERS))
        self.assertGreaterEqual(min(map(len, kinds.values())), 20)

    def test_doubles(self):
        """Doubles at the limit, beside it, huge, tiny, infinite and NaN, at each of the six places."""
        met = [set() for _ in range(6)]
        for (_code, _room, effects, _lines), found in pairs():
            for at in range(6 if found.place is None else found.place):
                met[at].add(effects[at])
        wanted = bits(0.0, -0.0, 1.0, -1.0, 1e12, -1e12, 1e12 - 1, 1 - 1e12, *(double for double, _number in REFUSED))
        for doubles in met:
            self.assertEqual([f"{double:016x}" for double in wanted if double not in doubles], [])
            nans = {(double >= MINUS, bool(double & 2**51)) for double in doubles if double % MINUS > INFINITE}
            self.assertEqual(len(nans), 4, "quiet and signalling NaNs of both signs")

    def test_a_lack_is_noticed(self):
        """Without a kind that brings what is to be met, the making stops."""
        everything, kinds = trial_writes.cases, trial_writes.cases_by_kind()
        for lacking in ("shortest_and_longest", "every_count", "signs", "refused_pairs"):
            rest = [asked for name, kind in kinds.items() if name != lacking for asked in kind]
            try:
                trial_writes.cases = lambda: rest
                self.assertRaises(AssertionError, trial_writes.require_enough)
            finally:
                trial_writes.cases = everything

    def test_made_the_same_again(self):
        """The writes come out the same when they are made anew; a few kinds stand for all."""
        again = fresh_by_kind(trial_writes.MAKERS[:4], Lot(trial_writes.SEED))
        self.assertEqual(again, dict(list(trial_writes.cases_by_kind().items())[:4]))


class Text(unittest.TestCase):
    """The form of the text."""

    NUMBER, BITS = "(?:0|[1-9][0-9]{0,5})", "[0-9a-f]{16}"
    WRITTEN = r"written N member=N\|(?:floor=N class=N load=N area=N\|)*(?:[a-z]+=-?[0-9]+\|){6}"
    FORM = f"N N(?: B){{6}}(?: N N N N)* = (?:{WRITTEN}|refused [89] place [1-6] double B|refused 12)"

    @classmethod
    def setUpClass(cls):
        """Makes the text once."""
        cls.text = trial_writes.text()
        cls.rows = cls.text.splitlines()

    def test_form(self):
        """One line a write, each of the form and parted by one blank, in the order of the cases; below the size."""
        form = re.compile(self.FORM.replace("N", self.NUMBER).replace("B", self.BITS))
        self.assertTrue(self.text.endswith("\n"))
        self.assertLess(len(self.text), 12_000_000)
        self.assertEqual(len(self.rows), len(pairs()))
        for row, ((code, room, effects, lines), found) in zip(self.rows, pairs()):
            self.assertTrue(form.fullmatch(row), row)
            asked, _, answer = row.partition(" = ")
            words = asked.split(" ")
            self.assertEqual([int(word, 16) for word in words[2:8]], list(effects))
            numbers = [code, room, *(number for line in lines for number in line)]
            self.assertEqual([int(word) for word in words[:2] + words[8:]], numbers)
            if found.number == 0:
                length, text = answer.removeprefix("written ").split(" ", 1)
                self.assertEqual((int(length), lines_of(text.encode())), (len(found.text), found.text))

    def test_known_rows(self):
        """Rows written out by hand."""
        zero, half = "0" * 16, "3fe" + "0" * 13
        sample = f"40f86a0000000000{f' {zero}' * 5} 1 1 2000 1600 2 1 2000 1600 ="
        lines = "floor=1 class=1 load=2000 area=1600|floor=2 class=1 load=2000 area=1600"
        for row in (
            f"1 129 {sample} written 129 member=1|{lines}|dead=100000|roof=0|snow=0|rain=0|wind=0|quake=0|",
            f"1 128 {sample} refused 12",
            f"1 0 {sample} refused 12",
            f"1 52{f' {zero}' * 6} = written 52 member=1|dead=0|roof=0|snow=0|rain=0|wind=0|quake=0|",
            f"1 51{f' {zero}' * 6} = refused 12",
        ):
            self.assertIn(row, self.rows)
        for place in range(1, 7):
            said = f" = refused 8 place {place} double {half}"
            self.assertTrue(any(row.endswith(said) for row in self.rows), said)

    def test_tally(self):
        """Writes, those that are written and refusals are counted as the text has them."""
        counts = [sum(f" = {word}" in row for row in self.rows) for word in ("written", "refused 8", "refused 9")]
        short = sum(row.endswith(" = refused 12") for row in self.rows)
        said = [f"{count} refused under {number}" for number, count in ((8, counts[1]), (9, counts[2]), (12, short))]
        self.assertEqual(trial_writes.tally(), [f"{len(self.rows)} writes", f"{counts[0]} written", *said])


# ---- Wrong writers, told apart by the cases ---------------------------------


def refusals(effects):
    """The refused effects of a case: place, number and pattern of each."""
    numbers = enumerate((effect(pattern).refused for pattern in effects), start=1)
    return [(place, number, effects[place - 1]) for place, number in numbers if number is not None]


def refused_as(chosen):
    """A writer that names another of the refused effects."""

    def wrong(_asked, found, bad):
        """The answer with that one."""
        if not bad:
            return found
        place, number, pattern = chosen(bad)
        return Written(number, place=place, pattern=pattern)

    return wrong


def renumbered(is_so, number):
    """A writer that gives the refused effects of a kind another number."""
    return lambda _asked, found, _bad: replace(found, number=number) if found.place and is_so(found.pattern) else found


def placed(change):
    """A writer that counts the places in another way."""
    return lambda _asked, found, _bad: replace(found, place=change(found.place)) if found.place else found


def nan_made_quiet(_asked, found, _bad):
    """A writer that hands a signalling NaN back as a quiet one."""
    is_nan = found.place is not None and size(found.pattern) > INFINITE
    return replace(found, pattern=found.pattern | 2**51) if is_nan else found


def with_text(change):
    """A writer whose text is another."""
    return lambda asked, found, _bad: Written(0, change(asked, found.text)) if found.number == 0 else found


def length_of(asked):
    """The length of the text of a case with good effects."""
    return trial_writes.least_length(asked[0], asked[3], asked[2])


def size(pattern):
    """The pattern without its sign."""
    return pattern % MINUS


def minus_zero_kept(asked, text):
    """The text with a minus sign before each zero that came with one."""
    rows = text.split(b"\n")
    for at, pattern in enumerate(asked[2]):
        if pattern == MINUS:
            rows[at - 7] = rows[at - 7].replace(b"=0", b"=-0")
    return b"\n".join(rows)


# A writer's answer, told of the case, the right answer, and the refused effects.
WRONG = {
    "buffer before effects": lambda asked, found, _bad: Written(12) if asked[1] < length_of(asked) else found,
    "buffer longer than the text": lambda asked, found, _bad: Written(12) if asked[1] == length_of(asked) else found,
    "room for any text wanted": lambda asked, found, _bad: Written(12) if asked[1] < 10_371 else found,
    "the last refused": refused_as(lambda bad: bad[-1]),
    "8 before any 9": refused_as(lambda bad: min(bad, key=lambda each: (each[1], each[0]))),
    "9 before any 8": refused_as(lambda bad: min(bad, key=lambda each: (-each[1], each[0]))),
    "place among seven": placed(lambda place: place + (place > 1)),
    "place from 0": placed(lambda place: place - 1),
    "9 before 8": renumbered(lambda pattern: bits(1e12)[0] < size(pattern) < INFINITE, 9),
    "infinity is beyond": renumbered(lambda pattern: size(pattern) == INFINITE, 9),
    "NaN is beyond": renumbered(lambda pattern: size(pattern) > INFINITE, 9),
    "2^53 and more not whole": renumbered(lambda pattern: bits(2.0**53)[0] <= size(pattern) < INFINITE, 8),
    "NaN made quiet": nan_made_quiet,
    "minus zero written -0": with_text(minus_zero_kept),
    "minus left out": with_text(lambda _asked, text: text.replace(b"-", b"")),
    "limit refused": with_text(lambda _asked, text: None if b"1000000000000\n" in text else text),
    "12 digits at most": with_text(lambda _asked, text: re.sub(b"([0-9]{12})[0-9]", rb"\1", text)),
    "rain before snow": with_text(lambda _asked, text: re.sub(rb"snow=(.*)\nrain=(.*)", rb"snow=\2\nrain=\1", text)),
    "last line left out": with_text(lambda _asked, text: re.sub(rb"floor=.*\ndead", b"dead", text)),
    "last newline left out": with_text(lambda _asked, text: text[:-1]),
}


class WrongWriters(unittest.TestCase):
    """Wrong writers say something else for at least ten of the cases."""

    def test_told_apart(self):
        """Each of them."""
        rows = [(asked, found, refusals(asked[2])) for asked, found in pairs()]
        for name, wrong in WRONG.items():
            met = sum(wrong(asked, found, bad) != found for asked, found, bad in rows)
            self.assertGreaterEqual(met, 10, name)


if __name__ == "__main__":
    unittest.main()
