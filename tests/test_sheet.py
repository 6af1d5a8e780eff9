"""Tries the second reckoning of sheets and of takedown: forms, order of checks, parts, reports, and the cases."""

import sys

sys.dont_write_bytecode = True  # leave no .pyc behind

import io
import re
import unittest
from collections import Counter
from contextlib import redirect_stdout
from fractions import Fraction
from functools import lru_cache
from itertools import combinations, permutations
from math import ceil
from pathlib import Path
from tempfile import TemporaryDirectory

sys.path.insert(0, str(Path(__file__).resolve().parent))

import make_sheets
from reckoning import trial_sheet, trial_sheet_damaged, trial_sheet_read
from reckoning.column import Column, Line, ask, conditions
from reckoning.combination import LIMIT, TABLE, combined, sums_by_table
from reckoning.reduction import reduced_load
from reckoning.sheet import (
    IN_FORM,
    Reading,
    live_effect,
    read,
    read_by_lines,
    read_by_pattern,
    report,
    report_of,
    require_part,
    require_written_back,
    seven_effects,
    signed_number,
    whole_number,
    write,
)
from reckoning.trial_reduction import Lot

# As the paper prints them.
SAMPLE = b"""member=1
floor=1 class=1 load=2000 area=1600
floor=2 class=1 load=2000 area=1600
dead=100000
roof=0
snow=0
rain=0
wind=0
quake=0
"""
SAMPLE_REPORT = b"""floor=1 floors=1 influence=6400 figure=2628800
floor=2 floors=2 influence=12800 figure=4185600
max=1869696 row=2
min=900000 row=22
"""

ENDING = ("dead=0", "roof=0", "snow=0", "rain=0", "wind=0", "quake=0")
KEYS = ("member", "floor", "class", "load", "area", "dead", "roof", "snow", "rain", "wind", "quake")


def text_of(*lines):
    """The text of lines, each ended by a newline."""
    return "".join(line + "\n" for line in lines).encode("latin-1")


def with_floors(*lines):
    """A sheet of an interior column with these lines and no other effects."""
    return text_of("member=1", *lines, *ENDING)


def answer(text):
    """Number, line K and the part itself."""
    found = read(text)
    return found.number, found.line, text[found.start : found.end]


def placed(text):
    """Number, line K, start and end."""
    found = read(text)
    return found.number, found.line, found.start, found.end


def with_number(key, digits):
    """A sheet of one line with the number of one key written as given; its refusal, if any, is at that line."""
    fields = dict.fromkeys(KEYS, "1") | {key: digits}
    line = " ".join(f"{name}={fields[name]}" for name in KEYS[1:5])
    return text_of(f"member={fields['member']}", line, *(f"{name}={fields[name]}" for name in KEYS[5:]))


LINE_OF = {key: 1 if at == 0 else 2 if at < 5 else at - 2 for at, key in enumerate(KEYS)}


# ---- The paper's sheet, and numbers ---------------------------------------


class Paper(unittest.TestCase):
    """The paper's sample and its other figures as sheets."""

    def test_sample(self):
        """The sample is read, and its report is the printed one, byte for byte."""
        self.assertEqual(report(SAMPLE), SAMPLE_REPORT)
        line_1, line_2 = Line(1, 1, 2_000, 1_600), Line(2, 1, 2_000, 1_600)
        column = Column(4, (line_1, line_2))
        self.assertEqual(read(SAMPLE), Reading(0, 9, 129, 129, 1, column, (100_000, 0, 0, 0, 0, 0)))
        self.assertEqual(trial_sheet_read.SAMPLE, SAMPLE)

    def test_stored_run(self):
        """The program takedown is run on the sample, and its stored output is the paper's."""
        stored = Path(__file__).resolve().parents[1] / "crates" / "takedown"
        self.assertEqual((stored / "stdin").read_bytes(), SAMPLE)
        self.assertEqual((stored / "stdout").read_bytes(), SAMPLE_REPORT)

    def test_interior_column(self):
        """Figures 60,000,000 and 48,200,000; the live effect is 482,000."""
        sheet = with_floors("floor=1 class=1 load=6000 area=10000", "floor=2 class=1 load=2000 area=100")
        first = b"floor=1 floors=1 influence=0 figure=60000000\n"
        second = b"floor=2 floors=2 influence=400 figure=48200000\n"
        self.assertEqual(report(sheet), first + second + b"max=7712000 row=2\nmin=0 row=1\n")

    def test_without_lines(self):
        """'Without floors only the last two lines are printed'; D = 100,000 and W = 60,000."""
        sheet = text_of("member=12", "dead=100000", "roof=0", "snow=0", "rain=0", "wind=60000", "quake=0")
        self.assertEqual(report(sheet), b"max=1800000 row=14\nmin=300000 row=23\n")
        self.assertEqual(placed(sheet), (0, 7, len(sheet), len(sheet)))

    def test_refused(self):
        """'A refused sheet prints only refused=N line=K.'"""
        self.assertEqual(report(SAMPLE.replace(b"member=1\n", b"member=13\n")), b"refused=1 line=1\n")
        self.assertEqual(report(SAMPLE[:-1]), b"refused=10 line=9\n")
        self.assertEqual(report(bytes(32_769)), b"refused=11 line=0\n")


class Numbers(unittest.TestCase):
    """'A number has 1 to 13 decimal digits and no needless leading zero.'"""

    def test_whole(self):
        """Numbers in form."""
        for digits, number in ((b"0", 0), (b"9", 9), (b"10", 10), (b"9" * 13, 10**13 - 1), (b"1" + b"0" * 12, LIMIT)):
            self.assertEqual((whole_number(digits), signed_number(digits)), (number, number))
        self.assertEqual([signed_number(digits) for digits in (b"-1", b"-" + b"9" * 13)], [-1, 1 - 10**13])

    def test_not_in_form(self):
        """No digit, a leading zero, 14 digits, signs, blanks and other bytes."""
        wrong = [b"", b"00", b"01", b"0" * 13, b"1" + b"0" * 13, b"+1", b" 1", b"1 ", b"1\n", b"1\r", b"1.", b"1e3"]
        wrong += [b"-", b"-0", b"--1", b"-01", b"-1" + b"0" * 13, b"\xb2", b"\xd9\xa1", b"1\0", b"a", b"/", b":"]
        for digits in wrong:
            self.assertIsNone(whole_number(digits), digits)
            self.assertIsNone(signed_number(digits), digits)
        self.assertIsNone(whole_number(b"-1"))

    def test_in_every_field(self):
        """Each wrong writing is 10 at its own line, in every field; a minus sign is right in the last six only."""
        for key in KEYS:
            for digits in ("", "01", "00", "-0", "+1", " 1", "1 ", "1" + "0" * 13, "-1" + "0" * 13, "1\0", "1\r"):
                self.assertEqual(answer(with_number(key, digits))[:2], (10, LINE_OF[key]), (key, digits))
            number = 0 if key in KEYS[5:] else 10
            self.assertEqual(read(with_number(key, "-1")).number, number, key)


# ---- Values and their limits ----------------------------------------------


class Limits(unittest.TestCase):
    """Each number at its limits, one beyond, and of 13 and 14 digits."""

    # Key, the number of the refusal, the least and the greatest good one.
    BOUNDS = (
        *(("member", 1, 1, 12), ("floor", 3, 1, 64), ("class", 4, 1, 3)),
        *(("load", 5, 1, 50_000), ("area", 6, 1, 200_000)),
    )

    def test_member_and_lines(self):
        """1 for the member; 3 to 6 for the line; 13 digits are a value, 14 are 10."""
        for key, refused, least, greatest in self.BOUNDS:
            for good in (least, greatest):
                self.assertEqual(read(with_number(key, str(good))).number, 0, (key, good))
            for wrong in (least - 1, greatest + 1, 2**32 + 1, 10**13 - 1):
                self.assertEqual(answer(with_number(key, str(wrong)))[:2], (refused, LINE_OF[key]), (key, wrong))
            self.assertEqual(answer(with_number(key, str(10**13)))[:2], (10, LINE_OF[key]), key)

    def test_effects(self):
        """9 beyond 10^12 with either sign, at the effect's own line; 14 digits are 10."""
        for key in KEYS[5:]:
            for good in (0, 1, -1, LIMIT, -LIMIT, LIMIT - 1):
                found = read(with_number(key, str(good)))
                self.assertEqual((found.number, found.effects[KEYS.index(key) - 5]), (0, good))
            for wrong in (LIMIT + 1, -LIMIT - 1, 10**13 - 1, 1 - 10**13):
                part = f"{key}={wrong}".encode()
                self.assertEqual(answer(with_number(key, str(wrong))), (9, LINE_OF[key], part))
            for wrong in (10**13, -(10**13)):
                self.assertEqual(answer(with_number(key, str(wrong)))[:2], (10, LINE_OF[key]))

    def test_falling_floor(self):
        """'A smaller number than the last accepted line's' is 3; an equal one is good."""
        lines = [f"floor={floor} class=1 load=1 area=1" for floor in (4, 4, 9, 8)]
        self.assertEqual(read(with_floors(*lines[:3])).number, 0)
        self.assertEqual(answer(with_floors(*lines)), (3, 5, lines[3].encode()))

    def test_full_column(self):
        """The 257th line is 2, whatever its values; with a wrong form it is 10; after 256 `dead` is good."""
        tiny = "floor=9 class=1 load=1 area=1"
        self.assertEqual(placed(with_floors(*[tiny] * 256))[:2], (0, 263))
        wrong = ("floor=8 class=1 load=1 area=1", "floor=0 class=0 load=0 area=0", "floor=9 class=1 load=1 area=0")
        for more in (tiny, *wrong):
            self.assertEqual(answer(with_floors(*[tiny] * 256, more)), (2, 258, more.encode()))
        for more in (tiny + " ", "floor=9 class=1 load=1", "floor=8 class=0 load=0 area=00", "dead=-0", ""):
            self.assertEqual(answer(with_floors(*[tiny] * 256, more)), (10, 258, more.encode()))
        early = [*[tiny] * 99, "floor=9 class=1 load=1 area=0", *[tiny] * 200]
        self.assertEqual(answer(with_floors(*early))[:2], (6, 101))

    def test_length(self):
        """32,768 bytes are looked at; one more is 11 with K = 0 and the empty part at the start."""
        rest = 32_768 - len(SAMPLE)
        self.assertEqual(placed(SAMPLE + b"x" * rest), (10, 10, 129, 32_768))
        self.assertEqual(placed(SAMPLE + b"x" * (rest - 1) + b"\n"), (10, 10, 129, 32_767))
        self.assertEqual(placed(SAMPLE + b"x" * (rest - 1)), (10, 10, 129, 32_767))
        for text in (SAMPLE + b"x" * (rest + 1), b"member=13\n" * 4_000, bytes(32_769), b"\n" * 70_000):
            self.assertEqual(placed(text), (11, 0, 0, 0))
        self.assertEqual(placed(b"member=13\n" + b"x" * 32_758), (1, 1, 0, 9))


# ---- The form of the sheet, and the part handed back ----------------------


class Form(unittest.TestCase):
    """Number 10: another form, a missing line, text left over."""

    def test_missing_lines(self):
        """Where the text has ended, the next line is missing: the empty part at the end."""
        lines = SAMPLE.splitlines(keepends=True)
        for count in range(9):
            text = b"".join(lines[:count])
            self.assertEqual(placed(text), (10, count + 1, len(text), len(text)))

    def test_left_out_lines(self):
        """A line that is left out in the middle is a wrong form of the one after it."""
        lines = SAMPLE.splitlines()
        expected = [1, None, None, 4, 5, 6, 7, 8, None]
        for at, line in enumerate(expected):
            text = b"".join(each + b"\n" for each in lines[:at] + lines[at + 1 :])
            if line is not None:
                self.assertEqual(answer(text), (10, line, lines[at + 1]))
        self.assertEqual(read(SAMPLE.replace(lines[1] + b"\n", b"")).number, 0)

    def test_no_last_newline(self):
        """A last line without its newline is 10 whatever its words; the part runs to the end of the text."""
        self.assertEqual(answer(SAMPLE[:-1]), (10, 9, b"quake=0"))
        for words in (b"m", b"member=1", b"member=13", b"\0", b"\r"):
            self.assertEqual(placed(words), (10, 1, 0, len(words)))
        wrong = b"floor=0 class=1 load=1 area=1"
        self.assertEqual(placed(b"member=1\n" + wrong), (10, 2, 9, 9 + len(wrong)))
        self.assertEqual(placed(b"member=1\n" + wrong + b"\n"), (3, 2, 9, 9 + len(wrong)))

    def test_left_over(self):
        """Text after `quake` is 10 at its first line."""
        rests = {b"\n": b"", b"\n\n": b"", b"\0": b"\0", b"quake=0\n": b"quake=0", b"a\nb\n": b"a", b"a": b"a"}
        for rest, part in rests.items():
            self.assertEqual(answer(SAMPLE + rest), (10, 10, part))
            self.assertEqual(read(SAMPLE + rest).start, 129)
        self.assertEqual(answer(SAMPLE + SAMPLE), (10, 10, b"member=1"))
        self.assertEqual(answer(SAMPLE + b"left over"), (10, 10, b"left over"))

    def test_empty_text(self):
        """An empty text lacks its first line; a newline alone is an empty first line."""
        self.assertEqual(placed(b""), (10, 1, 0, 0))
        self.assertEqual(placed(b"\n"), (10, 1, 0, 0))
        self.assertEqual(placed(b"member=1\n\ndead=0\n"), (10, 2, 9, 9))

    def test_newline_is_byte_10_only(self):
        """No other byte ends a line."""
        for ending in (b"\r\n", b"\r", b"\0", b"\x0b", b"\x0c", b"\x1c", b"\x85"):
            text = SAMPLE.replace(b"\n", ending)
            self.assertEqual(answer(text)[:2], (10, 1))
        self.assertEqual(answer(SAMPLE.replace(b"\n", b"\r\n")), (10, 1, b"member=1\r"))
        self.assertEqual(answer(SAMPLE.replace(b"\n", b"\r")), (10, 1, SAMPLE.replace(b"\n", b"\r")))

    def test_blanks_and_orders(self):
        """'The four parted by one blank', in their order; no blank elsewhere."""
        wrong = ["floor=1  class=1 load=1 area=1", "floor=1\tclass=1 load=1 area=1", " floor=1 class=1 load=1 area=1"]
        wrong += ["floor=1 class=1 load=1 area=1 ", "floor=1 class=1 load=1", "floor=1 class=1 load=1 area=1 part=0"]
        wrong += ["floor = 1 class=1 load=1 area=1", "floor=1class=1 load=1 area=1", "Floor=1 class=1 load=1 area=1"]
        wrong += ["floor=1 class=1 load=1 area=1\r", "floor=1,class=1,load=1,area=1", "floor 1 class 1 load 1 area 1"]
        fields = "floor=1 class=1 load=1 area=1".split()
        wrong += [" ".join(order) for order in permutations(fields) if list(order) != fields]
        for line in (*wrong, "roof=0", "member=1", "quake=0", "dead=1 ", "dead =1", "dead=1 roof=0", "span=10"):
            self.assertEqual(answer(with_floors(line)), (10, 2, line.encode()))
        self.assertEqual(read(with_floors(" ".join(fields))).number, 0)

    def test_lines_after_dead(self):
        """After `dead` no line of a floor may stand."""
        line = "floor=1 class=1 load=1 area=1"
        for at in range(1, 6):
            text = text_of("member=1", *ENDING[:at], line, *ENDING[at:])
            self.assertEqual(answer(text), (10, at + 2, line.encode()))


class OrderOfChecks(unittest.TestCase):
    """'Each is given where its condition is the first to hold.'"""

    def test_form_before_values_in_a_line(self):
        """A wrong form anywhere in a line comes before its values."""
        lines = ["floor=65 class=1 load=1 area=x", "floor=0 class=0 load=0 area=00", "floor=65 class=9 load=1 area=1 "]
        lines += ["floor=1 class=9 load=1", "floor=1 class=9 load=-1 area=1", f"floor=1 class=1 load=0 area={10**13}"]
        for line in lines:
            self.assertEqual(answer(with_floors(line)), (10, 2, line.encode()))
        self.assertEqual(answer(text_of("member=13 ", *ENDING)), (10, 1, b"member=13 "))
        self.assertEqual(answer(with_number("dead", "9999999999999 "))[:2], (10, 3))

    def test_values_in_a_line(self):
        """3, 4, 5, 6 in this order."""
        bad = ("floor=65", "class=4", "load=0", "area=0")
        for first, *others in (parts for size in (1, 2, 3, 4) for parts in combinations(range(4), size)):
            fields = "floor=1 class=1 load=1 area=1".split()
            for part in (first, *others):
                fields[part] = bad[part]
            self.assertEqual(answer(with_floors(" ".join(fields)))[:2], (3 + first, 2))

    def test_earlier_line_first(self):
        """An earlier line's value comes before a later line's form, and its form before a later value."""
        good = SAMPLE.splitlines()
        form = [b"member=x", b"floor=1 class=1", b"floor=2", b"dead=", b"roof=-0", b"snow=+1", b"rain", b"wind=01", b""]
        values = [b"member=13", b"floor=0 class=1 load=1 area=1", b"floor=2 class=1 load=1 area=0"]
        values += [line.split(b"=")[0] + b"=-1000000000001" for line in good[3:]]
        numbers = [1, 3, 6, 9, 9, 9, 9, 9, 9]
        for at, other in combinations(range(9), 2):
            for later in (form[other], values[other]):
                for first, number in ((form[at], 10), (values[at], numbers[at])):
                    lines = [*good[:at], first, *good[at + 1 : other], later, *good[other + 1 :]]
                    text = b"".join(line + b"\n" for line in lines)
                    for end in (text, text[:-1], text + b"x"):
                        self.assertEqual(answer(end), (number, at + 1, first))

    def test_length_first(self):
        """11 comes before all others, and nothing else with a text that is short enough."""
        for start in (SAMPLE, b"member=0\n", b"", b"member=1\nfloor=0 class=0 load=0 area=0\n"):
            self.assertEqual(placed(start + b"\n" * (32_769 - len(start))), (11, 0, 0, 0))
            self.assertNotEqual(read(start + b"\n" * (32_768 - len(start))).number, 11)


class Parts(unittest.TestCase):
    """The part handed back, over the cases of the trial."""

    def test_text_after_the_part(self):
        """What comes after the offending line and its newline does not matter, unless it makes the text too long."""
        lot, tried = Lot(3), 0
        for text, found in zip(trial_sheet.sheets(), trial_sheet.readings()):
            if found.number not in (0, 11) and found.end < len(text) < 2_000:
                kept = text[: found.end + 1]
                for rest in (b"", SAMPLE, b"\0\xff", bytes(lot.between(0, 255) for _ in range(9))):
                    self.assertEqual(read(kept + rest), found)
                tried += 1
        self.assertGreater(tried, 2_500)

    def test_text_before_the_part(self):
        """The lines before the offending one are in form and good: a missing line follows them."""
        for text, found in zip(trial_sheet.sheets(), trial_sheet.readings()):
            if found.number not in (0, 11):
                before = text[: found.start]
                again = read(before)
                if again.number == 0:  # text left over
                    self.assertEqual((found.number, found.line), (10, again.line + 1))
                else:
                    self.assertEqual(again, Reading(10, found.line, found.start, found.start))

    def test_kinds_of_part(self):
        """Empty parts at the end, empty lines, parts to the end of the text, and parts with a newline after."""
        kinds = Counter()
        for text, found in zip(trial_sheet.sheets(), trial_sheet.readings()):
            if found.number == 10:
                kinds[found.start == found.end, found.end == len(text)] += 1
        self.assertGreaterEqual(min(kinds[kind] for kind in ((True, True), (True, False))), 25)
        self.assertGreaterEqual(min(kinds[kind] for kind in ((False, True), (False, False))), 200)


# ---- The report -----------------------------------------------------------


class Report(unittest.TestCase):
    """The lines of a report."""

    def test_signs(self):
        """Negative sums have a minus sign; zero has none."""
        ending = ("roof=0", "snow=0", "rain=0", "wind=0", "quake=0")
        self.assertEqual(report(text_of("member=1", "dead=-1", *ending)), b"max=-9 row=22\nmin=-14 row=1\n")
        self.assertEqual(report(text_of("member=1", "dead=0", *ending)), b"max=0 row=1\nmin=0 row=1\n")
        every = text_of("member=1", *(f"{key}={-LIMIT}" for key in KEYS[5:]))
        self.assertEqual(report(every), b"max=1000000000000 row=23\nmin=-33000000000000 row=6\n")

    def test_live_effect(self):
        """The last floor's figure by 100, rounded up; 16 times it is the greatest sum where nothing else is there."""
        for area, live in ((1, 1), (50, 1), (99, 1), (100, 1), (101, 2), (150, 2), (199, 2), (200, 2), (201, 3)):
            found = report(with_floors(f"floor=1 class=3 load=1 area={area}"))
            row = f"floor=1 floors=1 influence=0 figure={area}\nmax={16 * live} row=2\nmin=0 row=1\n"
            self.assertEqual(found, row.encode())
        self.assertEqual(live_effect(Column(4)), 0)

    def test_last_floor_counts(self):
        """Where the figure falls, the live effect is the lower one; the floors that skip count once each."""
        sheet = with_floors("floor=9 class=2 load=1000 area=100", "floor=64 class=2 load=5 area=1")
        rows = b"floor=9 floors=1 influence=0 figure=100000\nfloor=64 floors=2 influence=0 figure=80004\n"
        self.assertEqual(report(sheet), rows + b"max=12816 row=2\nmin=0 row=1\n")

    def test_one_row_a_floor(self):
        """Several lines on a floor have one row; X is K times the area of the formula lines only."""
        lines = [f"floor=2 class=1 {rest}" for rest in ("load=5000 area=300", "load=5001 area=70", "load=1 area=1")]
        sheet = with_floors(*lines).replace(b"member=1\n", b"member=3\n")
        figure = 5_000 * 300 + 5_001 * 70 + 1
        row = f"floor=2 floors=1 influence=903 figure={figure}\n".encode()
        self.assertEqual(report(sheet), row + b"max=296016 row=2\nmin=0 row=1\n")

    def test_effects_in_their_places(self):
        """Each effect of a sheet stands for its own letter."""
        sheet = with_number("member", "1").replace(b"area=1\n", b"area=700\n")
        for at, key in enumerate(KEYS[5:]):
            sheet = sheet.replace(f"{key}=1\n".encode(), f"{key}={(-3) ** at}\n".encode())
        self.assertEqual(seven_effects(read(sheet)), (1, 7, -3, 9, -27, 81, -243))

    def test_written_back(self):
        """Any good sheet is written from its numbers; the sample again."""
        found = read(SAMPLE)
        self.assertEqual(write(found.code, found.column.lines, found.effects), SAMPLE)
        self.assertRaises(ValueError, write, 1, (), (0,) * 5)


@lru_cache(maxsize=None)
def texts():
    """The two texts of the trial; made once."""
    made = trial_sheet.files()
    return made[trial_sheet.STDIN], made[trial_sheet.STDOUT]


class LongestReport(unittest.TestCase):
    """No report is longer than 3,848 bytes, and one has as many."""

    WORDS = len("floor= floors= influence= figure=\n")
    LAST_ROWS = len("max=21000000000000 row=12\n") + len("min=-21000000000000 row=10\n")

    @staticmethod
    def most_digits(floor):
        """The most digits that X and the figure have together at one of 64 floors, all of which have a line.

        Each floor below has a line, so 192 + floor are carried at most. An X of so many digits wants so many formula
        lines at least; their R is at most that of the least such X. All other lines are ten times as heavy or more.
        """
        best = 0
        for digits in range(1, 10):
            least = 10 ** (digits - 1)
            r = reduced_load(5_000, 1, floor, least).value
            formula = ceil(Fraction(least, 4 * 200_000))
            figure = formula * r * 200_000 + (192 + floor - formula) * 50_000 * 200_000
            best = max(best, digits + len(str(figure)))
        return best

    def test_reached(self):
        """The longest report is that long, and its digits are the most there can be at each floor."""
        found = report(trial_sheet_read.longest_report())
        self.assertEqual(len(found), 3_848)
        for floor, row in enumerate(found.decode().splitlines()[:64], start=1):
            _floor, _floors, influence, figure = (field.partition("=")[2] for field in row.split())
            self.assertEqual(len(influence + figure), self.most_digits(floor))
        self.assertIn(found, texts()[1])

    def test_bound(self):
        """The bound for 64 floors is reached; with 63 floors or fewer even the longest rows make less."""
        rows = [self.WORDS + 2 * len(str(floor)) + self.most_digits(floor) for floor in range(1, 65)]
        self.assertEqual(sum(rows) + self.LAST_ROWS, 3_848)
        self.assertLess(63 * (self.WORDS + 2 * 2 + 9 + 13) + self.LAST_ROWS, 3_848)

    def test_bounds_of_the_last_rows(self):
        """max has 14 digits, or 13 and a minus sign as it is never below 9D; min has 14 digits and a minus sign."""
        self.assertIn((9, 0, 0, 0, 0, 10, 0), TABLE)
        self.assertIn((9, 0, 0, 0, 0, -10, 0), TABLE)
        most = max(sum(abs(factor) for factor in row) for row in TABLE) * LIMIT
        self.assertEqual((len(str(most)), len(str(-most)), len(str(-9 * LIMIT))), (14, 15, 14))
        self.assertEqual(self.LAST_ROWS, len(f"max={most} row=25\n") + len(f"min={-most} row=25\n"))

    def test_greatest_numbers(self):
        """X has at most 9 digits and a figure at most 13."""
        self.assertEqual((len(str(4 * 256 * 200_000)), len(str(256 * 50_000 * 200_000))), (9, 13))


# ---- The two ways ---------------------------------------------------------


class TwoWays(unittest.TestCase):
    """Line after line, and by patterns."""

    def test_cases(self):
        """Both ways say the same of every case of the trial."""
        for text in trial_sheet.sheets():
            self.assertEqual(read_by_lines(text), read_by_pattern(text), text[:200])

    def test_texts_by_lot(self):
        """And of other texts: sheets changed by lot, and words of a sheet put together by lot."""
        lot, words = Lot(77), [b"member=", b"floor=", b" class=", b" load=", b" area=", b"\n", b"\n", b"-", b"0", b" "]
        words += [b"1", b"1", b"13", b"9999999999999", b"00", *(key.encode() + b"=0\n" for key in KEYS[5:])]
        texts = trial_sheet_damaged.changed_by_lot(Lot(78))
        for _ in range(3_000):
            start = lot.one_of((b"", b"member=1\n", SAMPLE[:81], SAMPLE[: lot.between(0, 129)]))
            texts.append(start + b"".join(lot.one_of(words) for _ in range(lot.between(0, 9))))
        numbers = Counter()
        for text in texts:
            found = read_by_lines(text)
            self.assertEqual(found, read_by_pattern(text), text)
            numbers[found.number] += 1
        self.assertGreaterEqual(len(numbers), 6)

    def test_wrong_readings_stop_the_making(self):
        """A reading with another part, another line or other numbers raises an error."""
        found = read(SAMPLE)
        for wrong in ((0, 8, 129, 129), (0, 9, 128, 129), (0, 9, 0, 0), (11, 1, 0, 0), (11, 0, 129, 129)):
            self.assertRaises(AssertionError, require_part, SAMPLE, Reading(*wrong))
        for wrong in ((10, 1, 0, 9), (10, 2, 0, 8), (10, 1, 1, 8), (10, 1, 0, 7), (10, 1, 9, 44), (10, 2, 0, 44)):
            self.assertRaises(AssertionError, require_part, SAMPLE, Reading(*wrong))
        require_part(SAMPLE, Reading(10, 1, 0, 8))
        require_part(SAMPLE, Reading(10, 2, 9, 44))
        for code, effects in ((2, found.effects), (1, (100_000, 0, 0, 0, 0, 1))):
            wrong = Reading(0, 9, 129, 129, code, found.column, effects)
            self.assertRaises(AssertionError, require_written_back, SAMPLE, wrong)


# ---- The cases ------------------------------------------------------------


def pairs():
    """Every sheet of the trial with its reading."""
    return list(zip(trial_sheet.sheets(), trial_sheet.readings(), strict=True))


def governing(seven):
    """Sum and row of the greatest, then of the least, found by looking them up."""
    sums = sums_by_table(seven)
    return max(sums), sums.index(max(sums)), min(sums), sums.index(min(sums))


class WrongTurns(unittest.TestCase):
    """Wrong ways to read and to report that the cases must notice, each several times."""

    def noticed(self, change):
        """How many sheets have another number once the text is changed as a lenient reader would take it."""
        count = 0
        for text, found in pairs():
            taken = change(text)
            count += taken != text and read(taken).number != found.number
        return count

    def test_lenient_readers(self):
        """Other line endings, blanks, letters, zeros and signs let through."""
        changes = {
            "CR LF": (lambda text: text.replace(b"\r\n", b"\n"), 5),
            "no last newline": (lambda text: text if text[-1:] == b"\n" else text + b"\n", 20),
            "newlines left over": (lambda text: text.rstrip(b"\n") + b"\n", 5),
            "empty lines": (lambda text: re.sub(b"\n+", b"\n", text).lstrip(b"\n"), 20),
            "leading zeros": (lambda text: re.sub(b"=(-?)0+(?=[0-9])", rb"=\1", text), 80),
            "minus zero": (lambda text: text.replace(b"=-0\n", b"=0\n"), 10),
            "plus": (lambda text: text.replace(b"=+", b"="), 20),
            "minus in a line": (lambda text: re.sub(b"(member|floor|class|load|area)=-[1-9]", rb"\1=0", text), 15),
            "blanks": (lambda text: re.sub(b"[ \t]+", b" ", text), 8),
            "trailing blanks": (lambda text: re.sub(b"[ \t\r\0]+\n", b"\n", text), 40),
            "leading blanks": (lambda text: re.sub(b"(^|\n)[ \t]+", rb"\1", text), 15),
            "blanks about =": (lambda text: re.sub(b"[ \t]*=[ \t]*", b"=", text), 40),
            "letters": (bytes.lower, 30),
            "NUL ends the text": (lambda text: text.partition(b"\0")[0], 3),
        }
        for name, (change, least) in changes.items():
            self.assertGreaterEqual(self.noticed(change), least, name)

    def test_left_over_unseen(self):
        """A reader that stops after `quake` reads all sheets with text left over."""
        found = sum(found.number == 10 and read(text[: found.start]).number == 0 for text, found in pairs())
        self.assertGreaterEqual(found, 280)

    def test_all_forms_first(self):
        """The form of all lines before any value: a value is refused and a later line is not in form."""
        found = Counter()
        for text, reading in pairs():
            if reading.number in (1, 3, 4, 5, 6, 9) and IN_FORM.match(text).end() < len(text):
                found[reading.number] += 1
        self.assertGreaterEqual(min(found[number] for number in (1, 3, 4, 5, 6, 9)), 10)

    def test_all_values_first(self):
        """A value looked at before the form of an earlier line: number 10 with a bad value later on."""
        bad = re.compile(rb"\n(?:floor=0 .*|[a-z]+=-?(?:1000000000001|9999999999999))\n")
        count = sum(found.number == 10 and bool(bad.search(text, found.end)) for text, found in pairs())
        self.assertGreaterEqual(count, 30)

    def test_field_after_field(self):
        """Each field's value before the next field's form: a bad value stands before the fault in its line."""
        number = b"(0|[1-9][0-9]{0,12})"
        start = re.compile(b"floor=%s (?:class=%s (?:load=%s )?)?" % (number, number, number))
        count = 0
        for text, found in pairs():
            match = start.match(text[found.start : found.end]) if found.number == 10 else None
            if match:
                floor, cls, load = (None if digits is None else int(digits) for digits in match.groups())
                line = Line(floor, cls or 1, 1 if load is None else load, 1)
                count += any(conditions([], line).values())
        self.assertGreaterEqual(count, 60)

    def test_full_column_last(self):
        """2 checked after 3 to 6, and before the form."""
        full = [text[found.start : found.end] for text, found in pairs() if found.number == 2]
        self.assertTrue(any(b"class=0 load=0 area=0" in part for part in full))
        self.assertTrue(any(b"area=0" in part and b"class=1" in part for part in full))
        late = [found for _text, found in pairs() if found.number == 10 and found.line == 258]
        self.assertGreaterEqual(len(late), 3)

    def test_thirteen_digits(self):
        """12 digits as the most, or 14: 13 are a value in every field, 14 are no form."""
        values, forms = Counter(), Counter()
        for text, found in pairs():
            part = text[found.start : found.end]
            for key, digits in re.findall(b"([a-z]+)=-?([1-9][0-9]*)(?= |$)", part):
                values[key.decode()] += found.number not in (0, 10) and len(digits) == 13
                forms[key.decode()] += found.number == 10 and len(digits) == 14
        self.assertGreaterEqual(min(values[key] for key in KEYS), 3)
        self.assertGreaterEqual(min(forms[key] for key in KEYS), 2)

    def test_line_of_a_missing_line(self):
        """A missing line told as the last one, at every place."""
        found = {found.line for text, found in pairs() if (found.number, found.start) == (10, len(text))}
        self.assertLessEqual(set(range(1, 10)), found)

    def test_live_effect(self):
        """The live effect rounded down or to the nearest, left out, or from the first or the greatest figure."""
        counts = Counter()
        for _text, found in pairs():
            if found.number == 0 and 0 < len(found.column.lines) < 60:
                floors = sorted({line.floor for line in found.column.lines})
                first, *_between, last = figures = [ask(found.column, floor).figure for floor in (floors[0], *floors)]
                dead, live, *others = seven_effects(found)
                wrong = {"down": last // 100, "nearest": (last + 50) // 100, "none": 0, "whole": last}
                wrong |= {"first": -(-first // 100), "greatest": -(-max(figures) // 100)}
                right = governing((dead, live, *others))
                counts.update(name for name, other in wrong.items() if governing((dead, other, *others)) != right)
        self.assertGreaterEqual(min(counts[name] for name in ("down", "none", "first", "whole")), 100)
        self.assertGreaterEqual(min(counts["nearest"], counts["greatest"]), 40)

    def test_effects_exchanged(self):
        """Any two of the seven effects exchanged: the report is another one."""
        good = [seven_effects(found) for _text, found in pairs()[:1_200] if found.number == 0]
        for one, other in combinations(range(7), 2):
            count = 0
            for seven in good:
                turned = list(seven)
                turned[one], turned[other] = seven[other], seven[one]
                count += governing(turned) != governing(seven)
            self.assertGreaterEqual(count, 100, (one, other))


class Cases(unittest.TestCase):
    """What the sheets of the trial hold."""

    def test_counts(self):
        """At least 3,600 sheets, none twice; each number often enough."""
        sheets = trial_sheet.sheets()
        self.assertGreaterEqual(len(sheets), 3_600)
        self.assertEqual(len(sheets), len(set(sheets)))
        counts = Counter(read_by_pattern(text).number for text in sheets)
        self.assertEqual(sorted(counts), [0, 1, 2, 3, 4, 5, 6, 9, 10, 11])
        self.assertGreaterEqual(min(counts[number] for number in (1, 3, 4, 5, 6, 9, 10)), 20)
        self.assertGreaterEqual(min(counts[2], counts[11]), 3)
        self.assertGreaterEqual(counts[0], 1_000)
        self.assertGreaterEqual(len(sheets) - counts[0], 1_500)
        tally = {"sheets read": counts[0], "sheets refused": len(sheets) - counts[0]}
        self.assertEqual((trial_sheet.tally(), trial_sheet.case_count()), (tally, len(sheets)))

    def test_too_few_stop_the_making(self):
        """A number that is met too seldom raises an error."""
        trial_sheet.require_enough()
        least = dict(trial_sheet.LEAST_EACH)
        try:
            trial_sheet.LEAST_EACH[11] = 1_000
            self.assertRaises(AssertionError, trial_sheet.require_enough)
        finally:
            trial_sheet.LEAST_EACH.update(least)

    def test_sample_damaged(self):
        """The sample with each byte deleted or doubled, cut at every length, and with every line moved."""
        sheets = set(trial_sheet.sheets())
        for at in range(129):
            self.assertIn(SAMPLE[:at], sheets)
            self.assertIn(SAMPLE[:at] + SAMPLE[at + 1 :], sheets)
            self.assertIn(SAMPLE[: at + 1] + SAMPLE[at:], sheets)
        lines = SAMPLE.splitlines(keepends=True)
        for at in range(9):
            self.assertIn(b"".join(lines[:at] + lines[at + 1 :]), sheets)
            self.assertIn(b"".join(lines[: at + 1] + lines[at:]), sheets)
        for text in (b"", b"\n", b"\n\n\n", b"\0", SAMPLE, SAMPLE[:-1], SAMPLE.replace(b"\n", b"\r\n")):
            self.assertIn(text, sheets)

    def test_every_byte(self):
        """Each byte value in eight places, two of them the start and the end of the text."""
        sheets = set(trial_sheet_damaged.any_byte(None))
        self.assertEqual(len(sheets), 8 * 256)
        self.assertLessEqual(sheets, set(trial_sheet.sheets()))
        starts, ends = Counter(text[:1] for text in sheets), Counter(text[-1:] for text in sheets)
        for found in (starts, ends):
            self.assertEqual(len(found), 256)
        for byte in range(256):
            self.assertGreaterEqual(sum(byte in text for text in sheets), 8)

    def test_numbers_in_every_field(self):
        """Zeros, signs and 12 to 14 digits in every field, and each limit with its neighbours."""
        text = b"".join(trial_sheet.sheets())
        written = (b"", b"0", b"00", b"01", b"-0", b"-1", b"+1", b"9" * 12, b"9" * 13, b"9" * 14, b"1" + b"0" * 13)
        for key in KEYS:
            for digits in written:
                self.assertTrue(re.search(key.encode() + b"=" + re.escape(digits) + b"[ \n]", text), (key, digits))
        for key, _number, least, greatest in Limits.BOUNDS:
            for number in (least - 1, least, least + 1, greatest - 1, greatest, greatest + 1):
                self.assertTrue(re.search(b"%s=%d[ \n]" % (key.encode(), number), text), (key, number))
        for key in KEYS[5:]:
            for number in (LIMIT - 1, LIMIT, LIMIT + 1, -LIMIT + 1, -LIMIT, -LIMIT - 1):
                self.assertIn(b"\n%s=%d\n" % (key.encode(), number), text)

    def test_lengths(self):
        """Texts of 32,767 to 32,769 bytes and more, but few; the longest sheet that is read has 10,371."""
        lengths = Counter(len(text) for text in trial_sheet.sheets())
        self.assertGreaterEqual(min(lengths[length] for length in (32_767, 32_768, 32_769, 33_000)), 1)
        self.assertLessEqual(sum(count for length, count in lengths.items() if length > 32_000), 10)
        self.assertEqual(max(len(text) for text, found in pairs() if found.number == 0), 10_371)

    def test_line_counts(self):
        """Sheets without lines, of few and of 256 lines; all codes, classes and floors."""
        good = [found for _text, found in pairs() if found.number == 0]
        counts = Counter(len(found.column.lines) for found in good)
        self.assertGreaterEqual(counts[256], 3)
        self.assertGreaterEqual(min(counts[count] for count in range(5)), 50)
        codes = Counter(found.code for found in good)
        self.assertGreaterEqual(min(codes[code] for code in range(1, 13)), 40)
        lines = [line for found in good for line in found.column.lines]
        self.assertEqual({line.cls for line in lines}, {1, 2, 3})
        self.assertEqual({line.floor for line in lines}, set(range(1, 65)))
        mixed = sum(len({line.cls for line in found.column.lines}) > 1 for found in good)
        self.assertGreaterEqual(mixed, 100)

    def test_rows(self):
        """Every row is the greatest, every row but 2 to 4 the least; sums of both signs and 0."""
        found = [combined(seven_effects(found)) for _text, found in pairs() if found.number == 0]
        greatest, least = Counter(one.greatest.row for one in found), Counter(one.least.row for one in found)
        self.assertEqual(sorted(greatest), list(range(1, 26)))
        self.assertEqual(sorted(least), [1, *range(5, 26)])
        self.assertGreaterEqual(min(*greatest.values(), *least.values()), trial_sheet_read.TIMES_EACH)
        for sums in ([one.greatest.tenths for one in found], [one.least.tenths for one in found]):
            self.assertGreaterEqual(min(sum(each < 0 for each in sums), sum(each > 0 for each in sums)), 50)
            self.assertIn(0, sums)

    def test_hundredths(self):
        """Last figures that leave 0, 1, 50 and 99 over when divided by 100, with a max that shows the live effect."""
        rests = Counter()
        for _text, found in pairs():
            if found.number == 0 and found.column.lines and found.effects == (0,) * 6:
                rests[ask(found.column, found.column.lines[-1].floor).figure % 100] += 1
        self.assertGreaterEqual(min(rests[rest] for rest in (0, 1, 50, 99)), 3)

    def test_changed_sheets(self):
        """Of the sheets changed by lot a good part can still be read, and a good part cannot."""
        numbers = Counter(read(text).number for text in trial_sheet.cases_by_kind()["changed_by_lot"])
        self.assertGreaterEqual(min(numbers[0], numbers[10]), 200)
        self.assertGreaterEqual(len(numbers), 8)


class Texts(unittest.TestCase):
    """The form of the two texts."""

    ROW = b"(?:[1-9]|1[0-9]|2[0-5])"
    TENTHS = b"(?:0|-?[1-9][0-9]{0,13})"
    FLOOR_ROW = b"floor=[1-9][0-9]? floors=[1-9][0-9]? influence=(?:0|[1-9][0-9]{0,8}) figure=[1-9][0-9]{0,12}\n"
    READ = re.compile(b"(?:%s)*max=%s row=%s\nmin=%s row=%s\n" % (FLOOR_ROW, TENTHS, ROW, TENTHS, ROW))
    REFUSED = re.compile(b"refused=(?:[1-6]|9|10|11) line=(?:0|[1-9][0-9]{0,2})\n")
    PLACE = re.compile(b"start=(0|[1-9][0-9]{0,4}) end=(0|[1-9][0-9]{0,4}) part=")

    @classmethod
    def setUpClass(cls):
        """The two texts."""
        cls.stdin, cls.stdout = texts()

    def sheets(self):
        """The sheets taken from the first text by the counts before them."""
        found, at = [], 0
        while at < len(self.stdin):
            match = re.compile(b"sheet (0|[1-9][0-9]{0,4})\n").match(self.stdin, at)
            self.assertTrue(match, self.stdin[at : at + 40])
            at = match.end() + int(match[1])
            found.append(self.stdin[match.end() : at])
        self.assertEqual(at, len(self.stdin))
        return found

    def answers(self):
        """The report, start, end and part of each answer, taken from the second text; a sheet read is written back."""
        found, at = [], 0
        while at < len(self.stdout):
            match = self.REFUSED.match(self.stdout, at) or self.READ.match(self.stdout, at)
            self.assertTrue(match, self.stdout[at : at + 80])
            place = self.PLACE.match(self.stdout, match.end())
            self.assertTrue(place, self.stdout[at : at + 80])
            start, end = int(place[1]), int(place[2])
            part = self.stdout[place.end() : place.end() + end - start]
            rest = b"\n" if match.re is self.REFUSED else b"\nwritten=%d same\n" % end
            at = place.end() + end - start + len(rest)
            self.assertEqual(self.stdout[at - len(rest) : at], rest)
            found.append((match[0], start, end, part))
        return found

    def test_form(self):
        """The sheets come out of the first text again; each answer fits its sheet."""
        sheets, answers = self.sheets(), self.answers()
        self.assertEqual(sheets, list(trial_sheet.sheets()))
        self.assertEqual(len(answers), len(sheets))
        for sheet, (printed, start, end, part) in zip(sheets, answers):
            self.assertEqual(part, sheet[start:end])
            found = read_by_lines(sheet)
            self.assertEqual((start, end), (found.start, found.end))
            refused = re.fullmatch(b"refused=([0-9]+) line=([0-9]+)\n", printed)
            if refused:
                self.assertEqual((int(refused[1]), int(refused[2])), (found.number, found.line))
            else:
                self.assertEqual((found.number, start, end), (0, len(sheet), len(sheet)))

    def test_reports(self):
        """Each report has a row for each floor, in order, and the report made anew is the same."""
        for sheet, (printed, *_rest) in zip(self.sheets(), self.answers()):
            found = read_by_pattern(sheet)
            if found.number == 0:
                floors = [int(digits) for digits in re.findall(b"floor=([0-9]+) ", printed)]
                self.assertEqual(floors, sorted({line.floor for line in found.column.lines}))
                counts = [int(digits) for digits in re.findall(b"floors=([0-9]+) ", printed)]
                self.assertEqual(counts, list(range(1, len(floors) + 1)))
                if len(found.column.lines) < 20:
                    self.assertEqual(printed, report_of(found))

    def test_sizes(self):
        """Each text is below 1,000,000 bytes; most sheets are short."""
        self.assertLess(max(len(self.stdin), len(self.stdout)), 1_000_000)
        sizes = sorted(len(sheet) for sheet in trial_sheet.sheets())
        self.assertLess(sizes[len(sizes) * 9 // 10], 200)

    def test_known_answers(self):
        """Answers written out by hand."""
        answers = dict(zip(self.sheets(), self.answers()))
        self.assertEqual(answers[SAMPLE], (SAMPLE_REPORT, 129, 129, b""))
        self.assertEqual(answers[b""], (b"refused=10 line=1\n", 0, 0, b""))
        self.assertEqual(answers[SAMPLE[:-1]], (b"refused=10 line=9\n", 121, 128, b"quake=0"))
        self.assertEqual(answers[SAMPLE[:100]], (b"refused=10 line=6\n", 100, 100, b""))
        self.assertEqual(answers[SAMPLE[:99]], (b"refused=10 line=5\n", 93, 99, b"roof=0"))
        self.assertEqual(answers[b"member=13\n"], (b"refused=1 line=1\n", 0, 9, b"member=13"))
        crlf = SAMPLE.replace(b"\n", b"\r\n")
        self.assertEqual(answers[crlf], (b"refused=10 line=1\n", 0, 9, b"member=1\r"))

    def test_made_the_same_again(self):
        """The sheets come out the same when they are made anew."""
        again = [sheet for kind in trial_sheet.cases_by_kind().values() for sheet in kind]
        self.assertEqual(tuple(again), trial_sheet.sheets())


class SheetsOfTakedown(unittest.TestCase):
    """The sheets that make_sheets.py writes for the trial of takedown."""

    def written(self):
        """The files of a folder by name, written by the script, and its exit status."""
        with TemporaryDirectory() as folder, redirect_stdout(io.StringIO()):
            status = make_sheets.main([str(Path(folder) / "new")])
            return status, {path.name: path.read_bytes() for path in (Path(folder) / "new").iterdir()}

    def test_files(self):
        """Three sheets, each with its report: one of 256 lines, one of 32,768 bytes, and one of a byte more."""
        status, files = self.written()
        names = [f"{name}.{ending}" for name in ("lines256", "longest", "toolong") for ending in ("expected", "txt")]
        self.assertEqual((status, sorted(files)), (0, names))
        for name in make_sheets.sheets():
            self.assertEqual(files[f"{name}.expected"], report(files[f"{name}.txt"]))
        self.assertEqual(files["lines256.txt"].count(b"\nfloor="), 256)
        self.assertEqual(files["lines256.expected"].count(b"\n"), 26 + 2)
        self.assertEqual([len(files[f"{name}.txt"]) for name in ("longest", "toolong")], [32_768, 32_769])
        self.assertEqual(files["longest.expected"], b"refused=10 line=263\n")
        self.assertEqual(files["toolong.expected"], b"refused=11 line=0\n")
        self.assertEqual(files["toolong.txt"][:-1], files["longest.txt"])

    def test_live_effect_counts(self):
        """The figure at the last floor is in the greatest sum: another load in the first line gives another max."""
        text = make_sheets.sheet_of_256_lines()
        first = text.split(b"\n")[1]
        other = text.replace(first, re.sub(b"load=[0-9]+", b"load=50000", first), 1)
        self.assertNotEqual(other, text)
        self.assertNotEqual(*(report(each).split(b"\n")[-3] for each in (text, other)))

    def test_only_the_last_line_is_wrong(self):
        """With a number of 13 digits at most in its last line the longest text is read, if it is within the limit."""
        longest = make_sheets.longest_text()
        start = longest.rindex(b"=") + 1
        self.assertEqual(read(longest[:start] + b"0\n").number, 0)
        self.assertEqual(read(longest[:start] + b"9" * 13 + b"\n").number, 9)
        self.assertEqual(read(longest[:start] + b"9" * 14 + b"\n").number, 10)


if __name__ == "__main__":
    unittest.main()
