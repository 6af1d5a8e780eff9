"""Tries the second reckoning itself: the paper's figures, its wrong turns, the definition of R, and columns."""

import sys

sys.dont_write_bytecode = True  # leave no .pyc behind

import re
import unittest
from collections import Counter
from fractions import Fraction
from itertools import product
from math import ceil, isqrt
from pathlib import Path
from unittest.mock import patch

sys.path.insert(0, str(Path(__file__).resolve().parent))

from reckoning import trial, trial_column, trial_reduction
from reckoning.column import (
    Asked,
    Column,
    Line,
    ask,
    ask_list,
    bounds_by_closing_in,
    bounds_by_squares,
    carried,
    column_of,
    enter,
    entries_of,
    entry_number,
    exact_total,
    influence_area,
    open_member,
    require_asked,
    require_first,
    sign_of,
)
from reckoning.lists import first_refused
from reckoning.paper import PAPER_ROWS
from reckoning.passed import Passed, accepted_of, passed_by_accepted, passed_by_entering, passed_over
from reckoning.reduction import (
    TABLE_4_2,
    Answer,
    factor,
    is_least,
    is_not_below,
    reduced_load,
    uncapped_load,
)

NONE_PASSED = "refusals=0 first=0 place=0"
INFLUENCES = (0, 1, 3_699, 3_700, 3_712, 3_713, 6_400, 10_000, 33_415, 33_416, 92_821, 92_822, 10**6, 2**64 - 1)


def reduced(load, cls, floors, influence):
    """R of a line that must not be refused."""
    answer = reduced_load(load, cls, floors, influence)
    assert answer.refused is None, answer
    return answer.value


def by_squares(load, influence, r):
    """Whether '4R >= Lo and 25 * X * (4R - Lo)^2 >= (914 * Lo)^2': r is not below the unclamped formula."""
    return 4 * r >= load and 25 * influence * (4 * r - load) ** 2 >= (914 * load) ** 2


class Factor(unittest.TestCase):
    """Table 4.2 and refusal 1."""

    def test_columns_beams_and_the_rest(self):
        """K is 4, 4, 3, 2 for the columns, 2, 2 for the beams named first, 1 for all others."""
        self.assertEqual([factor(code).value for code in range(1, 13)], [4, 4, 3, 2, 2, 2, 1, 1, 1, 1, 1, 1])
        self.assertEqual(TABLE_4_2[3], ("edge column with cantilever slab", 3))

    def test_other_codes(self):
        """'Code not 1 to 12' is number 1."""
        for code in (0, 13, 256, 257, 2**32, 2**32 + 1, 2**64 - 1):
            self.assertEqual(factor(code), Answer(refused=1))


class PaperFigures(unittest.TestCase):
    """'Figures to check against' and the example of the sheet."""

    def test_table(self):
        """Every row gives the printed R, and the printed R is the least by the definition."""
        for row in PAPER_ROWS:
            for x in INFLUENCES if row.influence is None else (row.influence,):
                with self.subTest(row=row, influence=x):
                    if row.is_uncapped:
                        self.assertEqual(uncapped_load(row.load, x), row.r)
                        self.assertEqual([by_squares(row.load, x, row.r - less) for less in (0, 1)], [True, False])
                    else:
                        self.assertEqual(reduced(row.load, row.cls, row.floors, x), row.r)
                        self.assertTrue(is_least(row.load, row.cls, row.floors, x, row.r))

    def test_rows(self):
        """13 printed rows, of which two have two counts and one has an uncapped R beside the other; 13 rows have P."""
        self.assertEqual(len(PAPER_ROWS), 13 + 2 + 1)
        self.assertEqual(len(set(PAPER_ROWS)), len(PAPER_ROWS))
        self.assertEqual(sum(row.is_proved for row in PAPER_ROWS), 13)
        self.assertEqual([row.r for row in PAPER_ROWS if not row.is_proved], [2_000, 2_500, 2_000])
        self.assertEqual([row.r for row in PAPER_ROWS if row.is_uncapped], [2_003])

    def test_sheet_example(self):
        """Floors 1 and 2 of the sheet print figures 2,628,800 and 4,185,600."""
        self.assertEqual(reduced(2_000, 1, 1, 6_400) * 1_600, 2_628_800)
        self.assertEqual(reduced(2_000, 1, 2, 12_800) * 3_200, 4_185_600)

    def test_mixed_column(self):
        """6,000 on 10,000 dm2 and 2,000 on 100 dm2 give figures 60,000,000 and 48,200,000."""
        k = factor(1).value
        self.assertEqual(reduced(6_000, 1, 1, 0) * 10_000, 60_000_000)
        below = reduced(6_000, 1, 2, k * 100) * 10_000 + reduced(2_000, 1, 2, k * 100) * 100
        self.assertEqual(below, 48_200_000)


class WrongTurns(unittest.TestCase):
    """The paper's 'Wrong turns' that touch R."""

    def test_uncapped_formula_raises_the_load(self):
        """'The formula at 37 m2 uncapped' gives 2,003 for 2,000; the cap stands to 3,712."""
        self.assertEqual(uncapped_load(2_000, 3_700), 2_003)
        self.assertEqual(reduced(2_000, 1, 1, 3_700), 2_000)
        self.assertEqual(uncapped_load(5_000, 3_712), 5_001)
        self.assertEqual(uncapped_load(5_000, 3_714), 5_000)
        self.assertEqual(uncapped_load(5_000, 3_715), 4_999)

    def test_root_rounded_first(self):
        """'Rounding the root first, then multiplying' misses R, whichever way the root is rounded."""
        load, influence = 2_000, 5_000  # the root is 70.71...
        for root, wrong in ((isqrt(influence), 1_806), (isqrt(influence) + 1, 1_788)):
            share = Fraction(1, 4) + Fraction(457, 10) / root
            self.assertEqual(ceil(share * load), wrong)
        self.assertEqual(reduced(load, 1, 1, influence), 1_793)

    def test_5000_is_not_heavy(self):
        """'5,000 treated as heavy; the code says above.'"""
        self.assertEqual(reduced(5_000, 1, 2, 10_000), 3_535)
        self.assertEqual(reduced(5_001, 1, 2, 10_000), 4_001)
        self.assertEqual(reduced(5_000, 1, 1, 40_000), 2_500)
        self.assertEqual(reduced(5_001, 1, 1, 40_000), 5_001)

    def test_influence_counts_for_formula_lines_only(self):
        """Heavy, garage and assembly loads are the same at every influence area."""
        for load, cls in ((5_001, 1), (50_000, 1), (1, 2), (2_500, 2), (50_000, 2), (1, 3), (4_000, 3), (50_000, 3)):
            for floors in (0, 1, 2, 64):
                found = {reduced(load, cls, floors, x) for x in INFLUENCES}
                full = cls == 3 or floors < 2
                self.assertEqual(found, {load if full else ceil(Fraction(4, 5) * load)})


class Bounds(unittest.TestCase):
    """Cap, least shares, and what is decided for n = 0 and X = 0."""

    def test_cap_and_least_share(self):
        """The bounds stand to X = 3,712, from 33,416 (n is 1) and from 92,822 (n is 2 or more)."""
        for load in (1_000, 2_000, 5_000):
            self.assertEqual(reduced(load, 1, 1, 3_712), load)
            self.assertEqual(reduced(load, 1, 1, 33_415), load // 2 + 1)
            self.assertEqual(reduced(load, 1, 1, 33_416), load // 2)
            self.assertEqual(reduced(load, 1, 2, 92_821), load * 2 // 5 + 1)
            self.assertEqual(reduced(load, 1, 2, 92_822), load * 2 // 5)

    def test_exact_share_is_not_rounded_on(self):
        """At X = 10,000 the share is 0.707 exactly; 1,000 gives 707, not 708."""
        self.assertEqual(reduced(1_000, 1, 1, 10_000), 707)
        self.assertEqual(reduced(1_000, 1, 1, 9_999), 708)
        self.assertEqual(reduced(1_001, 1, 1, 10_000), 708)

    def test_no_floor_is_one_floor(self):
        """n = 0 gives what n = 1 gives."""
        for load, cls in ((2_000, 1), (5_001, 1), (2_500, 2), (4_000, 3)):
            for x in INFLUENCES:
                self.assertEqual(reduced(load, cls, 0, x), reduced(load, cls, 1, x))

    def test_no_influence_area_is_the_cap(self):
        """X = 0 leaves the load of a formula line as it is."""
        for load in (1, 2, 999, 5_000):
            for floors in (0, 1, 2, 64):
                self.assertEqual(reduced(load, 1, floors, 0), load)


class Refusals(unittest.TestCase):
    """Numbers 4 and 5, class first."""

    def test_class(self):
        """'Class not 1 to 3' is number 4, whatever the load."""
        for cls in (0, 4, 5, 257, 2**32 + 1, 2**64 - 1):
            for load in (0, 1, 50_000, 50_001, 2**64 - 1):
                self.assertEqual(reduced_load(load, cls, 1, 6_400), Answer(refused=4))

    def test_load(self):
        """'Load not 1 to 50,000' is number 5."""
        for cls in (1, 2, 3):
            for load in (0, 50_001, 2**32 + 2_000, 2**64 - 1):
                self.assertEqual(reduced_load(load, cls, 0, 0), Answer(refused=5))
            for load in (1, 50_000):
                self.assertIsNone(reduced_load(load, cls, 0, 0).refused)


class Order(unittest.TestCase):
    """How R moves with the load, the count and the influence area."""

    def test_never_above_the_load(self):
        """R is 1 to Lo, for every load."""
        for load in range(1, 50_001, 7):
            for cls in (1, 2, 3):
                self.assertTrue(1 <= reduced(load, cls, 2, 3_700 + load) <= load)

    def test_grows_with_the_load(self):
        """Among formula lines, and among others of a class, a greater load has no lesser R."""
        spans = ((1, range(1, 5_001)), (1, range(5_001, 50_001, 3)), (2, range(1, 50_001, 3)), (3, range(1, 50_001, 3)))
        for cls, loads in spans:
            for floors, x in ((1, 3_713), (1, 33_415), (2, 6_400), (2, 92_822)):
                found = [reduced(load, cls, floors, x) for load in loads]
                self.assertEqual(found, sorted(found))

    def test_step_at_5000(self):
        """From 5,000 to 5,001 the rule changes, and R may fall: the paper has it so."""
        self.assertEqual(reduced(5_000, 1, 2, 3_700), 5_000)
        self.assertEqual(reduced(5_001, 1, 2, 3_700), 4_001)

    def test_falls_with_influence_and_floors(self):
        """A greater influence area, or a second floor, never raises R."""
        for load in (1, 3, 1_000, 2_001, 5_000):
            for floors in (1, 2):
                found = [reduced(load, 1, floors, x) for x in range(0, 100_000, 13)]
                self.assertEqual(found, sorted(found, reverse=True))
            for x in range(0, 100_000, 97):
                self.assertLessEqual(reduced(load, 1, 2, x), reduced(load, 1, 1, x))


class Definition(unittest.TestCase):
    """The reckoning against the paper's sentences."""

    def test_random_lines(self):
        """R is the least, and its neighbours are not, on some thousand lines."""
        lot = trial_reduction.Lot(1_981)
        for _ in range(4_000):
            load = lot.between(1, lot.one_of((20, 5_000, 50_000)))
            x = lot.one_of((lot.between(0, 100_000), lot.any_size()))
            line = (load, lot.one_of((1, 1, 1, 2, 3)), lot.between(0, 5), x)
            r = reduced(*line)
            self.assertTrue(is_least(*line, r), line)
            self.assertFalse(is_least(*line, r - 1), line)
            self.assertFalse(is_least(*line, r + 1), line)

    def test_by_counting_up(self):
        """Counting r up from 0 until it is not below share * Lo ends at R."""
        for load in (1, 2, 3, 7, 20, 99, 100):
            for floors in (0, 1, 2):
                for x in (*INFLUENCES, 20_000, 50_000):
                    r = 0
                    while not is_not_below(load, 1, floors, x, r):
                        r += 1
                    self.assertEqual(reduced(load, 1, floors, x), r)

    def test_near_whole_loads(self):
        """The formula passes r between the X of such a case and the X before it."""
        lot = trial_reduction.Lot(7)
        for _ in range(1_000):
            (load, _cls, _floors, x), (_l, _c, _n, before) = trial_reduction.near_whole_load(lot)
            self.assertEqual(before, x - 1)
            self.assertLess(uncapped_load(load, x), uncapped_load(load, before))


# ---- Columns -------------------------------------------------------------


def flat(entries):
    """The entries as one list of numbers."""
    return [number for entry in entries for number in entry]


def column(code, *entries):
    """The column of a member after its entries; the code must not be refused."""
    number, made = column_of(code, flat(entries))
    assert number == 0, code
    return made


def numbers_of(code, *entries):
    """The number for each entry, in order."""
    _number, made = open_member(code)
    found = []
    for entry in entries:
        number, made = enter(made, Line(*entry))
        found.append(number)
    return found


class PaperColumns(unittest.TestCase):
    """The paper's two columns."""

    def test_interior_column(self):
        """6,000 on 10,000 dm2 and 2,000 on 100 dm2: figures 60,000,000 and 48,200,000."""
        made = column(1, (1, 1, 6_000, 10_000), (2, 1, 2_000, 100))
        self.assertEqual(ask(made, 1), Asked(1, 0, 60_000_000))
        self.assertEqual(ask(made, 2), Asked(2, 400, 48_200_000))

    def test_sheet_column(self):
        """The sheet prints n, X and the figure at floors 1 and 2."""
        made = column(1, (1, 1, 2_000, 1_600), (2, 1, 2_000, 1_600))
        self.assertEqual(ask(made, 1), Asked(1, 6_400, 2_628_800))
        self.assertEqual(ask(made, 2), Asked(2, 12_800, 4_185_600))


class OpeningAndEntering(unittest.TestCase):
    """Numbers 1 to 6 and the accepted lines."""

    def test_opening(self):
        """A good code gives a column with no line, another one number 1 and no column."""
        for code in range(1, 13):
            self.assertEqual(open_member(code), (0, Column(factor(code).value, ())))
        for code in (0, 13, 255, 256, 257, 268, 2**32 + 1, 2**64 - 1):
            self.assertEqual(open_member(code), (1, None))

    def test_limits(self):
        """Each number at its limits and one beyond, and numbers that look right when cut."""
        good = (5, 1, 2_000, 1_600)
        limits = ((0, 64, 3), (1, 3, 4), (2, 50_000, 5), (3, 200_000, 6))
        for part, most, number in limits:
            for value in (1, most):
                self.assertEqual(numbers_of(1, trial_column.with_part(good, part, value)), [0])
            for value in (0, most + 1, 2**16 * 4 + 1, 2**32 + 1, 2**32 + most, 2**64 - 1):
                self.assertEqual(numbers_of(1, trial_column.with_part(good, part, value)), [number])

    def test_order_of_refusals(self):
        """Of several faults the first in the table's order gives the number."""
        entry, faulty = (5, 1, 2_000, 1_600), (4, 9, 0, 200_001)
        for parts in trial_column.FAULTS:
            spoiled = tuple(faulty[at] if at in parts else entry[at] for at in range(4))
            self.assertEqual(numbers_of(1, entry, spoiled), [0, 3 + parts[0]])

    def test_full_column_comes_first(self):
        """'256 lines held' is number 2, whatever else is wrong."""
        held = column(1, *[(7, 1, 2_000, 10)] * 256).lines
        self.assertEqual(len(held), 256)
        for entry in ((7, 1, 2_000, 10), (0, 0, 0, 0), (6, 1, 1, 1), (65, 4, 50_001, 200_001), (2**64 - 1, 1, 1, 1)):
            self.assertEqual(entry_number(held, Line(*entry)), 2)
            self.assertNotEqual(entry_number(held[:255], Line(*entry)), 2)

    def test_255_256_257(self):
        """The 256th line is accepted, the 257th is not."""
        found = numbers_of(12, *[(64, 3, 1, 1)] * 258)
        self.assertEqual(found, [0] * 256 + [2, 2])

    def test_refused_lines_are_not_held(self):
        """300 entries tried, every other one refused: 150 lines are held and none is too many."""
        found = numbers_of(1, *[(1, 1, 1, 1), (1, 4, 1, 1)] * 150)
        self.assertEqual(found, [0, 4] * 150)

    def test_floor_follows_the_last_accepted_line(self):
        """A refused line's floor binds nothing, neither a greater nor a smaller one."""
        entries = ((2, 1, 9, 9), (10, 4, 9, 9), (3, 1, 9, 9), (1, 1, 9, 9), (2, 1, 9, 9), (3, 1, 9, 9), (64, 1, 9, 9))
        self.assertEqual(numbers_of(1, *entries), [0, 4, 0, 3, 3, 0, 0])

    def test_refused_entry_changes_nothing(self):
        """The column after a refused entry is the column before it."""
        made = column(3, (5, 1, 2_000, 1_600))
        for entry in ((4, 1, 1, 1), (5, 0, 1, 1), (5, 1, 0, 1), (5, 1, 1, 0)):
            number, after = enter(made, Line(*entry))
            self.assertNotEqual(number, 0)
            self.assertEqual(after, made)


class Asking(unittest.TestCase):
    """n, X, the figure and number 7."""

    def test_repeated_and_skipped_floors(self):
        """n counts distinct floors carried, not lines and not floor numbers."""
        made = column(7, *[(floor, 1, 2_000, 10) for floor in (3, 3, 3, 9, 9, 64)])
        self.assertEqual([ask(made, floor).floors for floor in (3, 9, 64)], [1, 2, 3])
        self.assertEqual([ask(made, floor).influence for floor in (3, 9, 64)], [30, 50, 60])

    def test_floor_without_line(self):
        """'No accepted line has that floor' is number 7, between floors too."""
        made = column(1, (3, 1, 2_000, 10), (9, 1, 2_000, 10), (10, 4, 2_000, 10))
        for floor in (0, 1, 2, 4, 8, 10, 64, 65, 256 + 3, 2**32 + 9, 2**64 - 1):
            self.assertEqual(ask(made, floor), Asked(refused=7))
        self.assertEqual(ask(column(1), 1), Asked(refused=7))

    def test_mixed_classes(self):
        """'Only formula lines add to X and all lines add to n.'"""
        other = ((1, 2, 2_500, 100), (3, 3, 4_000, 400), (4, 1, 5_001, 800))
        made = column(3, *sorted((*other, (2, 1, 5_000, 200), (5, 1, 1, 1_600))))
        self.assertEqual([ask(made, floor).influence for floor in range(1, 6)], [0, 600, 600, 600, 5_400])
        self.assertEqual([ask(made, floor).floors for floor in range(1, 6)], [1, 2, 3, 4, 5])
        self.assertEqual(ask(made, 1).figure, 2_500 * 100)
        self.assertEqual(ask(made, 4).figure, 2_000 * 100 + 5_000 * 200 + 4_000 * 400 + 4_001 * 800)

    def test_areas_are_summed(self):
        """'Each floor reduced by its own area, not by the sum' is wrong."""
        made = column(1, (1, 1, 2_000, 1_600), (2, 1, 2_000, 1_600))
        self.assertEqual(ask(made, 2).figure, 3_200 * reduced(2_000, 1, 2, 12_800))
        self.assertNotEqual(reduced(2_000, 1, 2, 12_800), reduced(2_000, 1, 2, 6_400))

    def test_figure_may_fall(self):
        """'A rule that figures never fall going down' is wrong, for heavy and for formula lines."""
        for cls, load in ((1, 6_000), (2, 2_500), (1, 2_000)):
            made = column(1, (1, cls, load, 100_000), (2, 3, 1, 1))
            self.assertGreater(ask(made, 1).figure, ask(made, 2).figure)

    def test_lines_below_do_not_count(self):
        """A floor's answer stays the same when lines are added below it."""
        entries = ((1, 1, 2_000, 1_600), (2, 2, 2_500, 900), (2, 1, 5_000, 3_000), (7, 1, 6_000, 200_000))
        whole = column(2, *entries)
        for count in (1, 3):
            floor = entries[count - 1][0]
            self.assertEqual(ask(whole, floor), ask(column(2, *entries[:count]), floor))

    def test_largest(self):
        """256 of the largest lines: the greatest figure and the greatest influence area."""
        self.assertEqual(ask(column(1, *[(64, 3, 50_000, 200_000)] * 256), 64), Asked(1, 0, 2_560_000_000_000))
        self.assertEqual(
            ask(column(1, *[(64, 1, 5_000, 200_000)] * 256), 64), Asked(1, 204_800_000, 128_000_000_000)
        )


class WholeLists(unittest.TestCase):
    """A flat list of numbers, four an entry."""

    ENTRIES = ((1, 1, 2_000, 1_600), (1, 4, 2_000, 1_600), (2, 1, 2_000, 1_600), (1, 1, 2_000, 1_600))

    def test_refused_entries_are_passed_over(self):
        """The list goes on after a refused entry."""
        self.assertEqual(ask_list(1, flat(self.ENTRIES), 2), Asked(2, 12_800, 4_185_600))

    def test_remainder_is_no_entry(self):
        """One to three numbers at the end change nothing; three left off take an entry away."""
        numbers = flat(self.ENTRIES[:3])
        for more in ((), (2,), (2, 1), (2, 1, 2_000)):
            self.assertEqual(ask_list(1, [*numbers, *more], 2), Asked(2, 12_800, 4_185_600))
        for left_off in (1, 2, 3, 4):
            self.assertEqual(ask_list(1, numbers[:-left_off], 2), Asked(refused=7))
            self.assertEqual(ask_list(1, numbers[:-left_off], 1), Asked(1, 6_400, 2_628_800))

    def test_refusals(self):
        """Number 1 comes before number 7; an empty list has no floor."""
        for code in (0, 13, 257, 2**64 - 1):
            self.assertEqual(ask_list(code, flat(self.ENTRIES), 2), Asked(refused=1))
            self.assertEqual(ask_list(code, [], 0), Asked(refused=1))
        for numbers in ([], [1], [1, 1], [1, 1, 1]):
            self.assertEqual(ask_list(1, numbers, 1), Asked(refused=7))

    def test_more_than_256(self):
        """Of 300 entries the first 256 are taken."""
        numbers = flat([(1, 3, 1, 1)] * 300)
        self.assertEqual(ask_list(1, numbers, 1), Asked(1, 0, 256))
        self.assertEqual(ask_list(1, numbers[: 4 * 256 - 1], 1), Asked(1, 0, 255))


class PassedOver(unittest.TestCase):
    """The refused entries of a list: how many, and the number and the place of the first."""

    GOOD = (5, 1, 2_000, 1_600)
    WRONG = {3: (65, 4, 0, 0), 4: (5, 0, 0, 0), 5: (5, 1, 50_001, 0), 6: (5, 1, 2_000, 200_001)}

    def test_none(self):
        """All 0 where no entry is refused, where there is none, and where opening is refused."""
        for entries in ((), (self.GOOD,), (self.GOOD,) * 256):
            self.assertEqual(passed_over(1, flat(entries)), Passed(0, 0, 0))
        for code in (0, 13, 257, 2**64 - 1):
            for entries in ((), (self.GOOD,), (self.WRONG[4],) * 3):
                self.assertEqual(passed_over(code, flat(entries)), Passed(0, 0, 0))

    def test_places(self):
        """Each number as the first one, at each place of a list, alone and with others after it."""
        for number, wrong in self.WRONG.items():
            for place in range(1, 7):
                entries = [self.GOOD] * (place - 1) + [wrong] + [self.GOOD] * (6 - place)
                self.assertEqual(passed_over(12, flat(entries)), Passed(1, number, place))
                for other in self.WRONG.values():
                    self.assertEqual(passed_over(7, flat([*entries, other])), Passed(2, number, place))

    def test_floor_of_accepted_lines(self):
        """A refused line's floor binds nothing; each line above the last accepted one is refused with 3."""
        entries = ((9, 0, 1, 1), (2, 1, 9, 9), (10, 4, 9, 9), (3, 1, 9, 9), (2, 1, 9, 9), (2, 1, 9, 9), (64, 1, 9, 9))
        self.assertEqual(passed_over(1, flat(entries)), Passed(4, 4, 1))
        self.assertEqual(passed_over(1, flat(entries[1:])), Passed(3, 4, 2))
        self.assertEqual(passed_over(1, flat(entries[3:])), Passed(2, 3, 2))

    def test_full_column(self):
        """Past 256 accepted lines everything is refused, with 2 whatever else is wrong."""
        for wrong in (self.GOOD, *self.WRONG.values(), (0, 0, 0, 0)):
            self.assertEqual(passed_over(1, flat([self.GOOD] * 256 + [wrong] * 44)), Passed(44, 2, 257))
        self.assertEqual(passed_over(1, flat([self.GOOD] * 255 + [self.WRONG[6]] + [self.GOOD] * 3)), Passed(3, 6, 256))
        self.assertEqual(passed_over(1, flat([self.WRONG[5]] * 300)), Passed(300, 5, 1))

    def test_remainder_is_no_entry(self):
        """One to three numbers at the end are not refused, nor is an entry with some of its numbers left off."""
        numbers = flat((self.GOOD, self.WRONG[3]))
        self.assertEqual(passed_over(1, [*numbers, 0, 0, 0]), Passed(1, 3, 2))
        for left_off in (1, 2, 3, 4):
            self.assertEqual(passed_over(1, numbers[:-left_off]), Passed(0, 0, 0))

    def test_by_lot(self):
        """The accepted lines told from the whole list are those of entering; the first refused as in the list call."""
        lot, firsts = trial_reduction.Lot(17), set()
        for _ in range(400):
            script = trial_column.Script()
            script.open(lot.between(1, 12))
            trial_column.enter_by_lot(script, lot, lot.between(0, 30), lot.one_of((0, 2, 5, 20)))
            entries = entries_of(script.numbers)
            self.assertEqual(accepted_of(entries), script.column.lines)
            passed, first = passed_over(script.code, script.numbers), first_refused(entries)
            self.assertEqual(passed.count, len(entries) - len(script.column.lines))
            self.assertEqual((passed.first, passed.place), (0, 0) if first is None else (first.refused, first.place))
            firsts.add(passed.first)
        self.assertEqual(firsts, {0, 3, 4, 5, 6})

    def test_ways_can_differ(self):
        """Each way has its own eye: with the other one's answer changed, the making stops."""
        entries = entries_of(flat((self.GOOD, self.WRONG[3], self.GOOD)))
        self.assertEqual(passed_by_entering(1, entries), passed_by_accepted(1, entries))
        for wrong in (Passed(2, 3, 2), Passed(1, 4, 2), Passed(1, 3, 1), Passed(0, 0, 0)):
            with patch("reckoning.passed.passed_by_entering", return_value=wrong):
                self.assertRaises(AssertionError, passed_over, 1, flat((self.GOOD, self.WRONG[3], self.GOOD)))


class Scripts(unittest.TestCase):
    """What the trial program keeps from question to question."""

    def test_before_any_open(self):
        """At the start there is a fresh column of code 1, and lists are of code 1."""
        script = trial_column.Script()
        script.ask(1)
        script.enter(1, 1, 2_000, 1_600)
        script.ask(1)
        script.list(1)
        told = "floors=1 influence=6400 figure=2628800"
        self.assertEqual(script.prints, ["refused=7", "number=0", told, f"{told} {NONE_PASSED}"])

    def test_refused_open(self):
        """The column of before stays and takes the next lines; a list has the refused code."""
        script = trial_column.Script()
        script.open(1)
        script.enter(1, 1, 2_000, 1_600)
        script.open(13)
        script.list(1)
        script.enter(2, 1, 2_000, 1_600)
        script.ask(2)
        script.list(2)
        in_list = f"refused=1 {NONE_PASSED}"
        after = ["number=1", in_list, "number=0", "floors=2 influence=12800 figure=4185600", in_list]
        self.assertEqual(script.prints[2:], after)

    def test_good_open(self):
        """A fresh column has no line of before, and a list has the entries since 'open' only."""
        script = trial_column.Script()
        script.enter(1, 1, 2_000, 1_600)
        script.open(7)
        script.ask(1)
        script.list(1)
        script.enter(1, 1, 2_000, 6_400)
        script.list(1, 0)
        script.list(1, 3)
        empty, told = f"refused=7 {NONE_PASSED}", f"floors=1 influence=6400 figure=10515200 {NONE_PASSED}"
        self.assertEqual(script.prints[2:], ["refused=7", empty, "number=0", told, empty])

    def test_refused_entries(self):
        """A list says how many entries were passed over, and of the first its number and its place."""
        script = trial_column.Script()
        script.open(1)
        for entry in ((1, 1, 2_000, 1_600), (2, 4, 0, 0), (2, 1, 2_000, 0), (2, 1, 2_000, 1_600), (1, 1, 2_000, 1_600)):
            script.enter(*entry)
        for floor, left_off in ((2, 0), (2, 1), (3, 0), (2, 3)):
            script.list(floor, left_off)
        script.open(0)
        script.enter(2, 4, 0, 0)
        script.list(2)
        told = "floors=2 influence=12800 figure=4185600"
        after = [f"{told} refusals=3 first=4 place=2", f"{told} refusals=2 first=4 place=2"]
        after += ["refused=7 refusals=3 first=4 place=2", f"{told} refusals=2 first=4 place=2"]
        self.assertEqual(script.prints[6:], [*after, "number=1", "number=4", f"refused=1 {NONE_PASSED}"])


class ExactTotal(unittest.TestCase):
    """E <= F < E + A by both tests, and that both can fail."""

    # Columns whose E at floor 2 is whole: no formula line, capped, least shares, and a whole root (X = 10,000).
    WHOLE = (
        (1, ((1, 2, 2_500, 100), (2, 3, 4_000, 300)), 1_400_000),
        (1, ((1, 1, 2_000, 100), (2, 1, 3_000, 300)), 1_100_000),
        (2, ((2, 1, 2_000, 9_000), (2, 1, 3_000, 9_000)), 22_500_000),
        (1, ((1, 1, 2_000, 20_000), (2, 1, 3_000, 30_000)), 52_000_000),
        (7, ((1, 1, 1_000, 4_000), (2, 1, 3_000, 6_000)), 15_554_000),
        (7, ((1, 1, 1_000, 4_000), (2, 1, 3_000, 6_000), (2, 1, 6_000, 100)), 16_034_000),
    )

    def both(self, made, floor, figure):
        """What both tests say of a figure; they must agree."""
        lines = carried(made, floor)
        influence = influence_area(made.k, lines)
        found = bounds_by_closing_in(lines, influence, figure)
        self.assertEqual(found, bounds_by_squares(lines, influence, figure), (made, floor, figure))
        return found

    def test_whole_total(self):
        """Where E is whole, E passes, E - 1 is too low, E + A - 1 passes, E + A is too high."""
        for code, entries, total in self.WHOLE:
            made = column(code, *entries)
            area = sum(entry[3] for entry in entries)
            self.assertEqual(ask(made, 2).figure, total)
            self.assertEqual(self.both(made, 2, total), (True, True))
            self.assertEqual(self.both(made, 2, total - 1), (False, True))
            self.assertEqual(self.both(made, 2, total + area - 1), (True, True))
            self.assertEqual(self.both(made, 2, total + area), (True, False))

    def test_one_area_too_high(self):
        """A figure with each R one too high is refused; so are the unreduced sum, 0 and less."""
        for made, floor, answer in self.by_lot(200):
            area = sum(line.area for line in carried(made, floor))
            self.assertEqual(self.both(made, floor, answer.figure), (True, True))
            self.assertEqual(self.both(made, floor, answer.figure + area), (True, False))
            self.assertEqual(self.both(made, floor, 0), (False, True))
            self.assertEqual(self.both(made, floor, -answer.figure), (False, True))
        made = column(1, (1, 1, 2_000, 1_600), (2, 1, 2_000, 1_600))
        self.assertEqual(self.both(made, 2, 2_000 * 3_200), (True, False))

    def test_tests_agree_beside_the_bounds(self):
        """Both tests turn at the same whole figure, at E and at E + A."""
        for made, floor, answer in self.by_lot(300):
            lines = carried(made, floor)
            plain, times = exact_total(lines, answer.influence)
            # The root term, rounded down, of times * sqrt(X), which is the root of times^2 * X.
            term = times**2 * answer.influence
            total = plain + Fraction(isqrt(term.numerator * term.denominator), term.denominator)
            for at in (int(total), int(total) + sum(line.area for line in lines)):
                found = [self.both(made, floor, at + step) for step in range(-3, 4)]
                self.assertEqual(len(set(found)), 2, (made, floor))

    def test_signs(self):
        """The sign of plain + times * sqrt(under), where the root comes out and where it is close."""
        self.assertEqual([sign_of(plain, 1, 4) for plain in (-3, -2, -1)], [-1, 0, 1])
        self.assertEqual([sign_of(plain, 0, 7) for plain in (-1, 0, 1)], [-1, 0, 1])
        for number in (10**6, 10**12, 10**30):
            self.assertEqual(sign_of(-number, 1, number**2 + 1), 1)
            self.assertEqual(sign_of(-number, 1, number**2 - 1), -1)
            self.assertEqual(sign_of(Fraction(number), -1, number**2 + 1), -1)
            self.assertEqual(sign_of(-number, 1, number**2), 0)

    def test_wrong_answers_stop_the_making(self):
        """A wrong n, X, figure or number raises an error."""
        made = column(1, (1, 1, 2_000, 1_600), (2, 1, 2_000, 1_600))
        require_asked(made, 2, Asked(2, 12_800, 4_185_600))
        wrong = (
            *(Asked(1, 12_800, 4_185_600), Asked(2, 6_400, 4_185_600), Asked(2, 3_200, 4_185_600)),
            *(Asked(2, 12_800, 4_185_600 + 3_200), Asked(2, 12_800, 4_185_600 - 3_200), Asked(refused=7)),
        )
        for answer in wrong:
            self.assertRaises(AssertionError, require_asked, made, 2, answer)
        self.assertRaises(AssertionError, require_asked, made, 3, Asked(2, 12_800, 4_185_600))
        for number in (0, 2, 4, 5, 6):
            self.assertRaises(AssertionError, require_first, made, Line(1, 4, 0, 0), number)

    def by_lot(self, count):
        """Columns by lot, each with its last floor and the answer there."""
        lot = trial_reduction.Lot(31)
        for _ in range(count):
            script = trial_column.Script()
            script.open(lot.between(1, 12))
            trial_column.enter_by_lot(script, lot, lot.between(1, 8), 0)
            floor = script.last_floor()
            yield script.column, floor, ask(script.column, floor)


class Texts(unittest.TestCase):
    """The form of the two texts and what they hold."""

    NUMBER = "(?:0|[1-9][0-9]{0,19})"
    # Each form of a question, and the forms of the line printed for it.
    FORMS = (
        ("factor N", "factor=[1-4]|refused=1"),
        ("reduced N N N N", "reduced=N|refused=[45]"),
        ("open N", "number=[01]"),
        ("enter N N N N", "number=[02-6]"),
        ("ask N", "floors=N influence=N figure=N|refused=7"),
        ("list N [0-3]", "(?:floors=N influence=N figure=N|refused=[17]) refusals=N first=[02-6] place=N"),
    )

    @classmethod
    def setUpClass(cls):
        """Makes the two texts once."""
        made = trial.files()
        cls.stdin, cls.stdout = made[trial.STDIN].decode(), made[trial.STDOUT].decode()
        cls.pairs = list(zip(cls.stdin.splitlines(), cls.stdout.splitlines()))

    def count(self, word, printed):
        """How many questions of a word have this printed line, but for what a list says was passed over."""
        return sum(read.split()[0] == word and line.split(" refusals=")[0] == printed for read, line in self.pairs)

    def lists(self):
        """For each list, from the texts alone: the printed numbers of its entries, and what it says was passed over.

        There are None where opening the member is refused; its entries went to the column of before.
        """
        numbers = []
        for read, printed in self.pairs[trial_reduction.case_count() :]:
            word, *given = read.split()
            if word == "open":
                numbers = [] if printed == "number=0" else None
            elif word == "enter" and numbers is not None:
                numbers.append(int(printed.removeprefix("number=")))
            elif word == "list":
                whole = None if numbers is None else numbers[: max(4 * len(numbers) - int(given[1]), 0) // 4]
                yield whole, tuple(int(part.split("=")[1]) for part in printed.split()[-3:])

    def test_form(self):
        """One printed line for each line read, of a form that fits it; plain numbers of at most 20 digits."""
        forms = "|".join(f"(?:{read})\t(?:{printed})" for read, printed in self.FORMS)
        form = re.compile(forms.replace("N", self.NUMBER))
        for pair in self.pairs:
            self.assertTrue(form.fullmatch("\t".join(pair)), pair)
        for part, text in enumerate((self.stdin, self.stdout)):
            self.assertEqual(text, "".join(pair[part] + "\n" for pair in self.pairs))
        self.assertEqual(len(self.pairs), trial.case_count())

    def test_line_answers_line(self):
        """Each question put anew from its text has the printed line of the same place."""
        script = trial_column.Script()
        for read, printed in self.pairs:
            word, *numbers = read.split()
            case = tuple(int(number) for number in numbers)
            if word in ("factor", "reduced"):
                self.assertEqual(trial_reduction.printed_line(case), printed, read)
            else:
                getattr(script, word)(*case)
                self.assertEqual((script.reads[-1], script.prints[-1]), (read, printed))

    def test_old_questions_come_first(self):
        """The questions about K and R, then those about columns, the paper's figures among the first."""
        words = [read.split()[0] for read, _printed in self.pairs]
        self.assertEqual(set(words[: trial_reduction.case_count()]), {"factor", "reduced"})
        self.assertEqual(set(words[trial_reduction.case_count() :]), {"open", "enter", "ask", "list"})
        first = self.pairs[trial_reduction.case_count() :][:40]
        self.assertIn(("ask 2", "floors=2 influence=400 figure=48200000"), first)
        self.assertIn(("ask 2", "floors=2 influence=12800 figure=4185600"), first)

    def test_entries_after_one_open(self):
        """Never more than 300 entries after one 'open'."""
        counts = [part.count("\nenter ") for part in self.stdin.split("\nopen ")]
        self.assertEqual(max(counts), 300)

    def test_every_number_is_there(self):
        """Each number of refusal, for each kind of question, many times."""
        entering = [("enter", f"number={number}") for number in (2, 3, 4, 5, 6)]
        asking = [("ask", "refused=7"), ("list", "refused=1"), ("list", "refused=7")]
        for word, printed in (("open", "number=1"), *entering, *asking):
            self.assertGreaterEqual(self.count(word, printed), 50, (word, printed))

    def test_passed_over(self):
        """What a list says was passed over is what the entries before it printed."""
        for numbers, passed in self.lists():
            refused = [(number, place) for place, number in enumerate(numbers or (), start=1) if number != 0]
            self.assertEqual(passed, (len(refused), *refused[0]) if refused else (0, 0, 0))

    def test_every_place_is_there(self):
        """Lists with no refused entry, one, several and nothing else; of each number the first at every place."""
        found = Counter()
        for numbers, (count, first, place) in self.lists():
            if numbers is None:
                found["code"] += 1
            elif count == 0:
                found["none" if numbers else "empty"] += 1
            else:
                many = "one" if count == 1 else "all" if count == len(numbers) else "several"
                where = {1: "first", len(numbers): "last"}.get(place, "middle")
                found.update((many, (first, where), (first, many)))
        for kind in ("code", "none", "empty", "one", "several", "all"):
            self.assertGreaterEqual(found[kind], 50, found)
        for first, kind in product((3, 4, 5, 6), ("first", "middle", "last", "one", "several", "all")):
            self.assertGreaterEqual(found[first, kind], 5, (first, kind))
        for kind in ("middle", "last", "one", "several"):
            self.assertGreaterEqual(found[2, kind], 5, kind)

    def test_enough(self):
        """At least 5,000 generated cases of K and R, 1,500 columns, and every good code."""
        self.assertGreaterEqual(len(trial_reduction.generated_cases()), 5_000)
        self.assertGreaterEqual(trial.column_count(), 1_500)
        self.assertEqual(trial.column_count() - 1, self.count("open", "number=0"))
        for code in range(1, 13):
            self.assertIn((f"open {code}", "number=0"), self.pairs)


if __name__ == "__main__":
    unittest.main()
