"""Tries the second reckoning of the call over a list: the paper's figures, order of checks, places, and the cases."""

import sys

sys.dont_write_bytecode = True  # leave no .pyc behind

import re
import unittest
from collections import Counter
from functools import lru_cache
from itertools import product
from pathlib import Path

sys.path.insert(0, str(Path(__file__).resolve().parent))

from reckoning import lists, trial_lists
from reckoning.column import Column, Line, ask, conditions
from reckoning.lists import (
    CONDITIONS,
    Listed,
    at_floor,
    first_refused,
    least_load,
    listed,
    listed_at_once,
    numbers_and_column,
    parting_place,
    require_form,
)
from reckoning.reduction import TABLE_4_2, reduced_load
from reckoning.trial_reduction import Lot
from reckoning.trial_whole import fresh_by_kind

GOOD = (3, 1, 2_000, 900)
# A line for each number 3 to 6, refused after GOOD and on a fresh column alike, and of no other fault.
BAD = {3: (65, 1, 2_000, 900), 4: (3, 4, 2_000, 900), 5: (3, 1, 50_001, 900), 6: (3, 1, 2_000, 200_001)}


def refused(number, place):
    """The answer of a refused list."""
    return Listed(refused=number, place=place)


def lent(lines):
    """Lines of four numbers as lines of the reckoning."""
    return tuple(Line(*line) for line in lines)


# ---- The paper ------------------------------------------------------------


class Paper(unittest.TestCase):
    """'Figures to check against' and the sample sheet, by hand."""

    def test_interior_column(self):
        """6,000 on 10,000 dm2 and 2,000 on 100 dm2: figures 60,000,000 and 48,200,000."""
        lines = ((1, 1, 6_000, 10_000), (2, 1, 2_000, 100))
        self.assertEqual(listed(1, lines, 1), Listed(1, 0, 60_000_000))
        self.assertEqual(listed(1, lines, 2), Listed(2, 400, 48_200_000))

    def test_sample_sheet(self):
        """The sample prints n, X and the figure at floors 1 and 2."""
        lines = ((1, 1, 2_000, 1_600), (2, 1, 2_000, 1_600))
        self.assertEqual(listed(1, lines, 1), Listed(1, 6_400, 2_628_800))
        self.assertEqual(listed(1, lines, 2), Listed(2, 12_800, 4_185_600))

    def test_rows(self):
        """Rows of the table as lists whose n and X are theirs; the figure is R * area."""
        self.assertEqual(listed(7, [(1, 1, 2_000, 3_699)], 1), Listed(1, 3_699, 2_000 * 3_699))
        self.assertEqual(listed(7, [(1, 1, 2_000, 3_700)], 1), Listed(1, 3_700, 2_000 * 3_700))
        self.assertEqual(listed(1, [(1, 1, 2_000, 930)], 1), Listed(1, 3_720, 1_999 * 930))
        self.assertEqual(listed(4, [(1, 1, 5_000, 1), (9, 1, 5_000, 4_999)], 9), Listed(2, 10_000, 3_535 * 5_000))
        self.assertEqual(listed(12, [(9, 1, 2_000, 33_415)], 9), Listed(1, 33_415, 1_001 * 33_415))
        self.assertEqual(listed(1, [(9, 1, 2_000, 8_354)], 9), Listed(1, 33_416, 1_000 * 8_354))
        self.assertEqual(listed(8, [(1, 1, 2_000, 21), (2, 1, 2_000, 92_800)], 2), Listed(2, 92_821, 801 * 92_821))
        self.assertEqual(listed(5, [(1, 1, 2_000, 11), (2, 1, 2_000, 46_400)], 2), Listed(2, 92_822, 800 * 46_411))
        self.assertEqual(listed(1, [(64, 1, 2_001, 10_000)], 64), Listed(1, 40_000, 1_001 * 10_000))

    def test_rows_for_any_influence(self):
        """Heavy, garage and assembly loads: 5,001 and 4,001, 2,500 and 2,000, 4,000 at the ninth floor."""
        for load, cls, one, two in ((5_001, 1, 5_001, 4_001), (2_500, 2, 2_500, 2_000)):
            lines = ((1, cls, load, 10), (2, cls, load, 20))
            self.assertEqual(listed(1, lines, 1), Listed(1, 0, one * 10))
            self.assertEqual(listed(1, lines, 2), Listed(2, 0, two * 30))
        lines = [(floor, 3, 4_000, 7) for floor in range(1, 10)]
        self.assertEqual(listed(2, lines, 9), Listed(9, 0, 4_000 * 63))

    def test_mixed_list(self):
        """'Only formula lines add to X and all lines add to n'; several lines to a floor, floors skipped."""
        lines = [(1, 2, 2_500, 100), (4, 1, 5_000, 200), (4, 3, 4_000, 400), (9, 1, 5_001, 800), (9, 1, 1, 1_600)]
        self.assertEqual(listed(3, lines, 1), Listed(1, 0, 250_000))
        self.assertEqual(listed(3, lines, 4), Listed(2, 600, 2_000 * 100 + 5_000 * 200 + 4_000 * 400))
        # X is 5,400: 1/4 + 45.7/sqrt(5,400) is 0.8718.., so R of 5,000 is 4,360 and R of 1 is 1.
        figure = 2_000 * 100 + 4_360 * 200 + 4_000 * 400 + 4_001 * 800 + 1 * 1_600
        self.assertEqual(listed(3, lines, 9), Listed(3, 5_400, figure))

    def test_largest(self):
        """256 of the largest lines: the greatest figure and the greatest influence area."""
        self.assertEqual(listed(1, [(64, 3, 50_000, 200_000)] * 256, 64), Listed(1, 0, 2_560_000_000_000))
        self.assertEqual(listed(1, [(64, 1, 5_000, 200_000)] * 256, 64), Listed(1, 204_800_000, 128_000_000_000))


# ---- The order of the checks ----------------------------------------------


class Order(unittest.TestCase):
    """'Such a call checks the code, then the lines, then the floor that is wanted.'"""

    def test_code_comes_first(self):
        """A code not 1 to 12 is number 1, whatever the lines and the floor."""
        for code in (0, 13, 255, 257, 2**16 + 1, 2**32 + 12, 2**63, 2**64 - 1):
            for lines in ((), (GOOD,), (BAD[3],), (GOOD, BAD[6]), (GOOD,) * 257):
                for floor in (3, 0, 2**64 - 1):
                    self.assertEqual(listed(code, lines, floor), refused(1, 0))

    def test_lines_come_before_the_floor(self):
        """A refused line counts, whether or not a line has the floor; without it the floor is refused."""
        for number, bad in BAD.items():
            for floor in (3, 0, 2, 4, 65, 257, 2**64 - 1):
                self.assertEqual(listed(1, (GOOD, bad, GOOD), floor), refused(number, 2))
        for floor in (0, 2, 4, 65, 257, 2**64 - 1):
            self.assertEqual(listed(1, (GOOD, GOOD), floor), refused(7, 0))
            self.assertEqual(listed(1, (GOOD,) * 257, floor), refused(2, 257))

    def test_refused_line_below_the_floor(self):
        """A line that the floor does not carry is checked all the same."""
        below = (5, 0, 2_000, 900)
        self.assertEqual(listed(1, (GOOD, GOOD), 3).floors, 1)
        self.assertEqual(listed(1, (GOOD, GOOD, below), 3), refused(4, 3))

    def test_floor_of_a_refused_line(self):
        """The floor of the refused line alone, or of a line below it, is no matter: the line counts."""
        lines = (GOOD, (7, 1, 0, 900), (9, 1, 2_000, 900))
        for floor in (3, 7, 9, 8):
            self.assertEqual(listed(1, lines, floor), refused(5, 2))

    def test_faults_in_one_line(self):
        """Of several faults in a line the first in the table's order gives the number."""
        faulty = (2, 9, 0, 200_001)  # after GOOD, at floor 3
        for chosen in product((False, True), repeat=4):
            line = tuple(faulty[part] if chosen[part] else GOOD[part] for part in range(4))
            answer = listed(1, (GOOD, line), 3)
            if any(chosen):
                self.assertEqual(answer, refused(3 + chosen.index(True), 2))
            else:
                self.assertIsNone(answer.refused)


# ---- Places ----------------------------------------------------------------


class Places(unittest.TestCase):
    """'Places count from 1, and the place is 0 for numbers 1 and 7.'"""

    def test_no_place(self):
        """Numbers 1 and 7 have place 0, the empty list's too."""
        self.assertEqual(listed(13, (GOOD,), 3), refused(1, 0))
        self.assertEqual(listed(1, (GOOD,), 4), refused(7, 0))
        for code, floor in product(range(1, 13), (0, 1, 64, 65, 2**64 - 1)):
            self.assertEqual(listed(code, (), floor), refused(7, 0))

    def test_every_place(self):
        """A list refused at just one place, first to 256th, each number in turn."""
        (good,) = lent((GOOD,))
        bad = dict(zip(BAD, lent(BAD.values())))
        for place in range(1, 257):
            number = 3 + place % 4
            lines = (good,) * (place - 1) + (bad[number],) + (good,) * (place % 3)
            self.assertEqual(first_refused(lines), refused(number, place))
        for place in (1, 2, 3, 64, 254, 255, 256):
            for number, line in BAD.items():
                self.assertEqual(listed(1, (GOOD,) * (place - 1) + (line, GOOD), 3), refused(number, place))

    def test_first_and_not_last(self):
        """Of two refused lines the first counts, be its number the smaller or the greater."""
        for first, second in product(BAD, BAD):
            self.assertEqual(listed(1, (GOOD, BAD[first], GOOD, BAD[second]), 3), refused(first, 2))
            self.assertEqual(listed(1, (BAD[first], BAD[second]), 3), refused(first, 1))

    def test_257th_line(self):
        """2 for the 257th line of a list whose first 256 are good, whatever is wrong with it and below it."""
        self.assertEqual(listed(1, (GOOD,) * 256, 3).floors, 1)
        for bad in (GOOD, *BAD.values(), (0, 0, 0, 0), (2**64 - 1,) * 4):
            self.assertEqual(listed(1, (GOOD,) * 256 + (bad,), 3), refused(2, 257))
        self.assertEqual(listed(1, (GOOD,) * 300, 3), refused(2, 257))

    def test_refused_before_the_257th(self):
        """A list of 257 lines and more with a refused line among the first 256 has that line's number and place."""
        for number, bad in BAD.items():
            for place in (1, 2, 255, 256):
                lines = [GOOD] * 300
                lines[place - 1] = bad
                for count in (257, 300):
                    self.assertEqual(listed(1, lines[:count], 3), refused(number, place))

    def test_falling_floor(self):
        """A floor smaller than the last line's is number 3 at its place; an equal one is good."""
        lines = [(floor, 1, 2_000, 900) for floor in (2, 2, 9, 9, 8, 64)]
        self.assertEqual(listed(1, lines, 2), refused(3, 5))
        self.assertEqual(listed(1, lines[:4], 9).floors, 2)
        self.assertEqual(listed(1, [*lines[:4], lines[5]], 64).floors, 3)


class Limits(unittest.TestCase):
    """Each number at its limits and one beyond, and numbers that look right when cut."""

    def test_fields(self):
        """1 and the most are good; 0, one more, and numbers of more bits are not."""
        for part, most in ((0, 64), (1, 3), (2, 50_000), (3, 200_000)):
            changed = [(value, (*GOOD[:part], value, *GOOD[part + 1 :])) for value in (1, most)]
            for _value, line in changed:
                self.assertIsNone(listed(1, (line,), line[0]).refused)
            for value in (0, most + 1, 2**18 + 1, 2**32 + 1, 2**32 + most, 2**63, 2**63 + 1, 2**64 - 1):
                line = (*GOOD[:part], value, *GOOD[part + 1 :])
                self.assertEqual(listed(1, (line,), line[0]), refused(3 + part, 1))
                self.assertEqual(listed(1, (GOOD, line, GOOD), 3), refused(3 + part, 2))

    def test_floor_that_is_wanted(self):
        """A floor that is a line's only when cut is none."""
        for floor in (256 + 3, 2**16 + 3, 2**32 + 3, 2**63 + 3, 2**64 - 253):
            self.assertEqual(listed(1, (GOOD,), floor), refused(7, 0))


# ---- The two ways ------------------------------------------------------------


class TwoWays(unittest.TestCase):
    """Both ways of reckoning, and that their checks can fail."""

    SMALL = (
        *((1, 1, 2_000, 900), (2, 2, 1, 1), (2, 1, 5_000, 2_000)),
        *((0, 1, 1, 1), (3, 0, 1, 1), (2, 3, 0, 1), (1, 1, 1, 0)),
    )

    def test_every_small_list(self):
        """All lists of up to three of seven lines, at three floors: both ways agree."""
        met = set()
        for count, floor in product(range(4), (1, 2, 3)):
            for lines in product(self.SMALL, repeat=count):
                met.add(listed(1, lines, floor).refused)
        self.assertEqual(met, {None, 3, 4, 5, 6, 7})

    def test_prefixes(self):
        """The lists shorter than the first refused place have no refused line, the longer ones all have that one."""
        for _code, _floor, lines in trial_lists.cases_by_kind()["many_faults_by_lot"][:150]:
            first = first_refused(lent(lines))
            for count in range(len(lines) + 1):
                found = first_refused(lent(lines[:count]))
                self.assertEqual(found, first if first is not None and count >= first.place else None)

    def test_conditions_each_for_itself(self):
        """The first place is where the table's conditions, told of the lines before, first hold."""
        for _code, _floor, lines in trial_lists.cases_by_kind()["few_faults_by_lot"][:200]:
            line_list = lent(lines)
            holding = []
            for at, line in enumerate(line_list):
                told = conditions(line_list[:at], line)
                self.assertEqual(set(told), set(CONDITIONS))
                holding += [refused(number, at + 1) for number, holds in told.items() if holds]
                if holding:
                    break
            self.assertEqual(first_refused(line_list), holding[0] if holding else None)

    def test_parting_place(self):
        """The list and its accepted lines part at the first refused line, be the next line like the one above."""
        good, bad = lent((GOOD,))[0], lent((BAD[5],))[0]
        self.assertIsNone(parting_place((), ()))
        self.assertIsNone(parting_place((good, good), (good, good)))
        for lines, place in (((bad,), 1), ((good, bad, good), 2), ((good, good, bad, bad), 3), ((good,) * 257, 257)):
            _numbers, column = numbers_and_column(Column(4), lines)
            self.assertEqual(parting_place(lines, column.lines), place)

    def test_least_load(self):
        """R by halving is R by the formula rounded up, for loads of every kind."""
        for load, cls, floors in product((1, 2, 19, 1_001, 4_999, 5_000, 5_001, 50_000), (1, 2, 3), (1, 2)):
            for influence in (0, 1, 3_712, 3_713, 6_400, 10_000, 33_415, 33_416, 92_821, 92_822, 204_800_000):
                right = reduced_load(load, cls, floors, influence).value
                self.assertEqual(least_load(load, cls, floors, influence), right)

    def test_wrong_forms_stop_the_making(self):
        """A place with a figure, a figure with a number, or a place that a number cannot have raises an error."""
        lines = lent((GOOD,) * 300)
        for answer in (Listed(1, 2, 3), refused(1, 0), refused(7, 0), refused(2, 257), refused(6, 256), refused(3, 1)):
            require_form(lines, answer)
        wrong = (
            *(Listed(), Listed(1, 2), Listed(1, 2, 3, None, 0), Listed(1, 2, 3, 7, 0), Listed(1, 2, 3, 4, 1)),
            *(refused(1, 1), refused(7, 1), refused(7, None), refused(2, 256), refused(2, 0), refused(2, 258)),
            *(refused(3, 0), refused(3, 257), refused(6, 301), refused(8, 1), refused(0, 0)),
        )
        for answer in wrong:
            self.assertRaises(AssertionError, require_form, lines, answer)

    def test_disagreement_stops_the_making(self):
        """Where one way is made wrong, the other notices."""
        right = CONDITIONS[6]
        try:
            CONDITIONS[6] = lambda _place, _above, line: line.area > 200_001
            self.assertRaises(AssertionError, listed, 1, (BAD[6],), 3)
        finally:
            CONDITIONS[6] = right
        self.assertEqual(listed(1, (BAD[6],), 3), refused(6, 1))

    def test_lines_are_left_as_they_were(self):
        """'All that was lent is then as before.'"""
        for lines in ([GOOD, GOOD], [GOOD, BAD[4]], [GOOD] * 257):
            before = list(lines)
            listed(1, lines, 3)
            self.assertEqual(lines, before)


# ---- The generated cases -------------------------------------------------------


@lru_cache(maxsize=None)
def pairs():
    """Every case with its answer."""
    return tuple((asked, trial_lists.answer(asked)) for asked in trial_lists.cases())


class Generated(unittest.TestCase):
    """What the generated cases hold."""

    def test_enough(self):
        """Some 6,000 lists, at least 2,000 figures, each number 50 times, each place 1 to 257, no case twice."""
        trial_lists.require_enough()
        numbers = Counter(answer.refused for _asked, answer in pairs())
        self.assertEqual(set(numbers), {None, 1, 2, 3, 4, 5, 6, 7})
        self.assertGreaterEqual(numbers[None], 2_000)
        self.assertGreaterEqual(min(numbers.values()), 50)
        places = Counter(answer.place for _asked, answer in pairs())
        self.assertEqual(set(places), {None, *range(258)})
        self.assertGreaterEqual(len(pairs()), 6_000)
        self.assertEqual(len(set(trial_lists.cases())), len(pairs()))

    def test_every_kind(self):
        """No kind is empty; each number 3 to 6 at one of any four places in a row, and at the first and last eight."""
        kinds = trial_lists.cases_by_kind()
        self.assertEqual(len(kinds), len(trial_lists.MAKERS))
        for name, kind in kinds.items():
            self.assertGreaterEqual(len(kind), 20, name)
        met = {(answer.refused, answer.place) for _asked, answer in pairs()}
        for number, place in product((3, 4, 5, 6), range(1, 254)):
            self.assertTrue(met & {(number, place + more) for more in range(4)})
        self.assertLessEqual(set(product((3, 4, 5, 6), (*range(1, 9), *range(249, 257)))), met)

    def test_codes(self):
        """A figure and each kind of refusal for all twelve codes, and refused codes of every sort."""
        met = Counter((asked[0], answer.refused) for asked, answer in pairs())
        for code in range(1, 13):
            self.assertGreaterEqual(met[code, None], 50)
            for number in (2, 3, 4, 5, 6, 7):
                self.assertGreaterEqual(met[code, number], 3)
        for code in (0, 13, 2**8 + 1, 2**16 + 1, 2**32 + 1, 2**63, 2**64 - 1):
            self.assertGreaterEqual(met[code, 1], 1)

    def test_counts_of_lines(self):
        """No, 1, 2, 255 and 256 lines with and without a figure, and 257 to 300 lines."""
        met = Counter((len(asked[2]), answer.refused) for asked, answer in pairs())
        for count in (1, 2, 255, 256):
            self.assertGreaterEqual(min(met[count, None], met[count, 7]), 6, count)
        self.assertGreaterEqual(min(met[0, 7], met[0, 1]), 12)
        self.assertEqual(met[0, None], 0)
        for count in (257, 300):
            self.assertGreaterEqual(met[count, 2], 12)
        for number in (1, 2, 3, 4, 5, 6):
            self.assertGreaterEqual(sum(met[count, number] for count in range(257, 310)), 4)

    def test_numbers_in_every_field(self):
        """Each limit, one beyond it, and numbers of more bits, in each of the four fields, the code and the floor."""
        fields = [set() for _ in range(6)]
        for code, floor, lines in trial_lists.cases():
            for field, numbers in zip(fields, (*zip(*lines), (code,), (floor,)) if lines else ()):
                field.update(numbers)
        tried = (0, 1, 64, 65, 3, 4, 50_000, 50_001, 200_000, 200_001, 2**8 + 1, 2**16 + 1, 2**32 + 1, 2**63, 2**64 - 1)
        for field in fields:
            self.assertLessEqual(set(tried), field)

    def test_floors_that_are_wanted(self):
        """Figures at the top, between and at the lowest floor; lacking floors above, between and below all lines."""
        met = Counter()
        for (_code, floor, lines), answer in pairs():
            floors = {line[0] for line in lines}
            if answer.refused is None:
                met["top"] += floor == min(floors) < max(floors)
                met["middle"] += min(floors) < floor < max(floors)
                met["lowest"] += floor == max(floors) > min(floors)
            elif lines and answer.refused > 1:
                met[answer.refused == 7, floor in floors] += 1
                met[answer.refused == 7, "above"] += floor < min(floors)
                met[answer.refused == 7, "between"] += min(floors) < floor < max(floors) and floor not in floors
                met[answer.refused == 7, "below"] += floor > max(floors)
        self.assertEqual(met.pop((True, True), 0), 0)
        self.assertEqual(len(met), 3 + 5 + 4)
        self.assertGreaterEqual(min(met.values()), 20, met)

    def test_shares(self):
        """Figures with no X, at the cap, between, and at the least shares, for one floor and for more."""
        met = Counter()
        for _asked, answer in pairs():
            if answer.refused is None:
                bounds = (0, 3_712, 33_415, 92_821, 10**9)
                met[answer.floors > 1, next(bound for bound in bounds if answer.influence <= bound)] += 1
        self.assertGreaterEqual(min(met.values()), 40, met)
        self.assertEqual(len(met), 10)

    def test_made_the_same_again(self):
        """The lists come out the same when they are made anew; a few kinds stand for all."""
        again = fresh_by_kind(trial_lists.MAKERS[:6], Lot(trial_lists.SEED))
        first = dict(list(trial_lists.cases_by_kind().items())[:6])
        self.assertEqual(again, first)


class Text(unittest.TestCase):
    """The form of the text."""

    NUMBER = "(?:0|[1-9][0-9]{0,19})"
    FORM = "N N(?: N N N N)* = (?:N N N|refused [17] place 0|refused 2 place 257|refused [3-6] place [1-9][0-9]{0,2})"

    @classmethod
    def setUpClass(cls):
        """Makes the text once."""
        cls.text = trial_lists.text()
        cls.rows = cls.text.splitlines()

    def test_form(self):
        """One line a list, each of the form and parted by one blank, in the order of the cases."""
        form = re.compile(self.FORM.replace("N", self.NUMBER))
        self.assertTrue(self.text.endswith("\n"))
        self.assertEqual(len(self.rows), len(pairs()))
        for row, ((code, floor, lines), _answer) in zip(self.rows, pairs()):
            self.assertTrue(form.fullmatch(row), row)
            left, _right = row.split(" = ")
            self.assertEqual(left.count(" "), 1 + 4 * len(lines))
            if len(lines) < 20:
                numbers = [int(number) for number in left.split(" ")]
                self.assertEqual(numbers, [code, floor, *(number for line in lines for number in line)])

    def test_known_rows(self):
        """Rows written out by hand."""
        known = (
            "1 1 = refused 7 place 0",
            "12 18446744073709551615 = refused 7 place 0",
            "1 1 1 1 6000 10000 2 1 2000 100 = 1 0 60000000",
            "1 2 1 1 6000 10000 2 1 2000 100 = 2 400 48200000",
            "1 1 1 1 2000 1600 2 1 2000 1600 = 1 6400 2628800",
            "1 2 1 1 2000 1600 2 1 2000 1600 = 2 12800 4185600",
            "1 3 1 1 2000 1600 2 1 2000 1600 = refused 7 place 0",
            "13 2 1 1 2000 1600 2 1 2000 1600 = refused 1 place 0",
            "1 2 2 1 2000 1600 1 1 2000 1600 = refused 3 place 2",
        )
        for row in known:
            self.assertIn(row, self.rows)

    def test_tally(self):
        """Lists, figures and refusals are counted as the text has them."""
        figures = sum("refused" not in row for row in self.rows)
        counts = [sum(f"= refused {number} " in row for row in self.rows) for number in range(1, 8)]
        refusals = [f"{count} refused under {number}" for number, count in enumerate(counts, start=1)]
        self.assertEqual(trial_lists.tally(), [f"{len(pairs())} lists", f"{figures} give a figure", *refusals])

    def test_size(self):
        """The text is below 20,000,000 bytes."""
        self.assertLess(len(self.text), 20_000_000)


# ---- Wrong calls, told apart by the cases -----------------------------------


def place_from_0(answer):
    """The right answer, places counted from 0."""
    return refused(answer.refused, answer.place - 1) if answer.place else answer


def last_refusal(code, lines, _floor):
    """The last line that entering refuses, instead of the first."""
    numbers, _column = numbers_and_column(Column(TABLE_4_2[code][1]), lines)
    return next(refused(number, at + 1) for at, number in reversed(list(enumerate(numbers))) if number != 0)


def least_number(_code, lines, _floor):
    """The least number of all refused lines, instead of the first one's."""
    places = {number: lists.first_place(holds, lines) for number, holds in CONDITIONS.items()}
    return next(refused(number, place) for number, place in places.items() if place is not None)


def floor_before_lines(code, lines, floor):
    """The floor looked for among all lines, before they are checked."""
    return listed_at_once(code, lines, floor) if floor in {line.floor for line in lines} else refused(7, 0)


def lines_before_code(_code, lines, _floor):
    """The lines checked before the code."""
    return first_refused(lines) or refused(1, 0)


def passing_over(code, lines, floor):
    """Refused lines passed over, and the figure of the others given."""
    _numbers, column = numbers_and_column(Column(TABLE_4_2[code][1]), lines)
    answer = ask(column, floor)
    return Listed(answer.floors, answer.influence, answer.figure, answer.refused, None if answer.figure else 0)


def up_to_the_refused(code, lines, floor):
    """The figure of the lines above the first refused one."""
    return listed_at_once(code, lines[: first_refused(lines).place - 1], floor)


def only_lines_carried(code, lines, floor):
    """Only the lines with floor at most the one that is wanted checked."""
    return listed_at_once(code, tuple(line for line in lines if line.floor <= floor), floor)


def length_first(code, lines, floor):
    """More than 256 lines refused before any line is looked at."""
    return refused(2, 257) if len(lines) > 256 else listed_at_once(code, lines, floor)


def faults_before_length(_code, lines, _floor):
    """The 257th line refused for its own faults."""
    return first_refused(lines[256:257] if len(lines) > 256 else lines) or refused(2, 257)


def with_condition(number, holds, asked):
    """The answer where a condition is another."""
    code, floor, lines = asked
    right = CONDITIONS[number]
    try:
        CONDITIONS[number] = holds
        return listed_at_once(code, lent(lines), floor)
    finally:
        CONDITIONS[number] = right


def floor_held_otherwise(asked, smaller):
    """Number 3 with another rule for what is smaller, told of the list's first floor, the line above and the line."""
    first = asked[2][0][0]

    def holds(_place, above, line):
        """Floor not 1 to 64, or smaller by the other rule."""
        return not 1 <= line.floor <= 64 or (above is not None and smaller(first, above, line))

    return holds


def cut_field(lines, part, cut):
    """The lines with one field cut to fewer bits."""
    return [(*line[:part], line[part] % cut, *line[part + 1 :]) for line in lines]


class WrongCalls(unittest.TestCase):
    """Wrong calls give another answer for at least so many of the cases."""

    LEAST = 10

    def differing(self, wrong, chosen):
        """How many of the chosen cases a wrong call answers otherwise."""
        return sum(wrong(asked[0], lent(asked[2]), asked[1]) != answer for asked, answer in chosen)

    def chosen(self, numbers, least=0, most=12):
        """The cases refused under one of these numbers (None for a figure), of so many lines."""
        return [pair for pair in pairs() if pair[1].refused in numbers and least <= len(pair[0][2]) <= most]

    def test_place_from_0(self):
        """Places counted from 0."""
        for number in (2, 3, 4, 5, 6):
            found = sum(place_from_0(answer) != answer for _asked, answer in self.chosen({number}, most=300))
            self.assertGreaterEqual(found, 50)

    def test_wrong_refusal(self):
        """The last refusal, the least number, the floor first, only the lines carried."""
        chosen = self.chosen({3, 4, 5, 6})[::2]
        for wrong in (last_refusal, least_number, floor_before_lines, only_lines_carried):
            self.assertGreaterEqual(self.differing(wrong, chosen), 50, wrong)

    def test_figure_in_spite_of_a_refused_line(self):
        """A refused line passed over, or the list ended at it; and it is a figure that is given, many times."""
        chosen = self.chosen({3, 4, 5, 6}, least=2)[::2]
        for wrong in (passing_over, up_to_the_refused):
            found = [wrong(asked[0], lent(asked[2]), asked[1]) for asked, _answer in chosen]
            self.assertGreaterEqual(sum(answer.refused is None for answer in found), 100, wrong)

    def test_code_after_lines(self):
        """The lines checked before the code."""
        self.assertGreaterEqual(self.differing(lines_before_code, self.chosen({1})), self.LEAST)

    def test_long_lists(self):
        """The length looked at first, the 257th line's own faults first, and 255 or 257 lines at most."""
        chosen = self.chosen({2, 3, 4, 5, 6}, least=257, most=310)
        self.assertGreaterEqual(self.differing(length_first, chosen), self.LEAST)
        self.assertGreaterEqual(self.differing(faults_before_length, self.chosen({2}, most=310)), 15)
        full = self.chosen({None, 2}, least=256, most=310)[::2]
        for most in (255, 257):
            found = [with_condition(2, lambda place, *_: place > most, asked) != answer for asked, answer in full]
            self.assertGreaterEqual(sum(found), self.LEAST)

    def test_other_floors_of_lines(self):
        """Floors that must rise from line to line, that may fall, or that are held against the first line's only."""
        chosen = self.chosen({None, 3}, least=2, most=5)[::2]
        for smaller in (
            lambda _first, above, line: line.floor <= above.floor,
            lambda _first, _above, _line: False,
            lambda first, _above, line: line.floor < first,
        ):
            found = 0
            for asked, answer in chosen:
                found += with_condition(3, floor_held_otherwise(asked, smaller), asked) != answer
            self.assertGreaterEqual(found, self.LEAST)

    def test_narrowed_numbers(self):
        """The code, the floor or one field of the lines cut to 8, 16, 32 or 63 bits."""
        chosen = self.chosen({1, 3, 4, 5, 6, 7}, least=1, most=4)
        for cut in (2**8, 2**16, 2**32, 2**63):
            met = Counter()
            for (code, floor, lines), answer in chosen:
                if code >= cut:
                    met["code"] += listed_at_once(code % cut, lent(lines), floor) != answer
                if floor >= cut:
                    met["floor"] += listed_at_once(code, lent(lines), floor % cut) != answer
                for part in range(4):
                    if max(line[part] for line in lines) >= cut:
                        met[part] += listed_at_once(code, lent(cut_field(lines, part, cut)), floor) != answer
            self.assertEqual(len(met), 6)
            self.assertGreaterEqual(min(met.values()), 4, (cut, met))

    def test_other_figures(self):
        """All lines carried whatever the floor, only those of the floor, and another K."""
        chosen = self.chosen({None}, least=2, most=6)[::3]
        met = Counter()
        for (code, floor, lines), answer in chosen:
            held = lent(lines)
            met["all"] += at_floor(code, held, held[-1].floor) != answer
            met["own"] += at_floor(code, tuple(line for line in held if line.floor == floor), floor) != answer
            met["once"] += at_floor(code, held[: 1 + [line.floor for line in held].index(floor)], floor) != answer
            for other in {1, 3, 4, 7} - {code}:
                if TABLE_4_2[other][1] != TABLE_4_2[code][1]:
                    met["factor", code] += at_floor(other, held, floor).figure != answer.figure
        self.assertGreaterEqual(min(met.values()), 5, met)
        self.assertEqual(len(met), 15)


if __name__ == "__main__":
    unittest.main()
