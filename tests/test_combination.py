"""Tries the second reckoning of the effects and the 25 combinations: figures, table, wrong turns, and the cases."""

import sys

sys.dont_write_bytecode = True  # leave no .pyc behind

import re
import unittest
from collections import Counter
from fractions import Fraction
from itertools import combinations, permutations, product
from pathlib import Path

sys.path.insert(0, str(Path(__file__).resolve().parent))

from reckoning import trial_combination, trial_effects, trial_govern, trial_whole
from reckoning.combination import (
    LIMIT,
    NAMES,
    TABLE,
    Combined,
    Governing,
    Refused,
    RefusedNumber,
    agreed,
    combine,
    combined,
    double_of,
    effect,
    effect_by_fields,
    effect_by_float,
    fields_of,
    first_beyond,
    first_beyond_by_least,
    first_beyond_by_scan,
    first_refused,
    float_of,
    govern,
    is_nan,
    pattern_of,
    require_governing,
    rows_from_sentences,
    sums_by_table,
    sums_by_wording,
    whole_pattern,
)
from reckoning.reduction import Answer
from reckoning.trial_effects import BEYOND, NOT_WHOLE, PLACES, patterns, sharing, with_place
from reckoning.trial_reduction import Lot

MINUS_ZERO = 2**63
LEAST, MOST = -(2**63), 2**63 - 1  # the ends of 64 bits with a sign
HALF = Fraction(1, 2)
ZEROS = (0,) * 7


def asked_alone(*numbers):
    """What effects by their numbers give, each for itself."""
    return [effect(pattern_of(number)) for number in numbers]


def governs(*numbers):
    """The greatest sum with its row, then the least with its row."""
    found = combine(patterns(numbers))
    return (found.greatest.tenths, found.greatest.row), (found.least.tenths, found.least.row)


# ---- Doubles and single effects ------------------------------------------


class Doubles(unittest.TestCase):
    """A double as its pattern, and the pattern of a result."""

    # Patterns typed out.
    KNOWN = (
        (0x0000000000000000, 0),
        (0x3FF0000000000000, 1),
        (0xC000000000000000, -2),
        (0x3FE0000000000000, HALF),
        (0x40F86A0000000000, 100_000),
        (0x426D1A94A2000000, LIMIT),
        (0xC26D1A94A2000000, -LIMIT),
        (0x4340000000000000, 2**53),
        (0x0000000000000001, Fraction(1, 2**1074)),
    )

    def test_known_patterns(self):
        """Some patterns and their numbers, both ways."""
        for pattern, number in self.KNOWN:
            self.assertEqual(pattern_of(number), pattern)
            self.assertEqual(Fraction(float_of(pattern)), number)

    def test_results(self):
        """A result is a double with nothing lost, to the greatest sum there can be, 38 tenths of 10^12."""
        most = max(sum(abs(factor) for factor in row) for row in TABLE) * LIMIT
        self.assertEqual(most, 38 * LIMIT)
        self.assertLess(most, 2**53)
        lot = Lot(4)
        for number in (0, 1, -1, most, -most, *(lot.between(-most, most) for _ in range(2_000))):
            self.assertEqual(Fraction(float_of(double_of(number))), number)

    def test_no_exact_double(self):
        """A number that is no double stops the making, and so do two ways that differ."""
        self.assertRaises(AssertionError, pattern_of, 2**53 + 1)
        self.assertRaises(AssertionError, whole_pattern, 2**53)
        self.assertRaises(AssertionError, agreed, 1, 2, "one and two")

    def test_fields(self):
        """Sign, exponent field and mantissa field."""
        self.assertEqual(fields_of(0x8010000000000003), (1, 1, 3))
        self.assertEqual(fields_of(2**64 - 1), (1, 2047, 2**52 - 1))

    def test_powers(self):
        """The patterns of the powers of two are those of the powers."""
        for exponent in range(-1074, 1024):
            self.assertEqual(Fraction(float_of(trial_whole.power(exponent))), Fraction(2) ** exponent)


class Effects(unittest.TestCase):
    """Numbers 8 and 9 for a single effect."""

    def test_whole_numbers(self):
        """A whole number within the limit is itself."""
        numbers = (0, 1, -1, 41_856, -100_000, 2**31, -(2**32), LIMIT - 1, 1 - LIMIT, LIMIT, -LIMIT)
        self.assertEqual(asked_alone(*numbers), [Answer(value=number) for number in numbers])

    def test_minus_zero(self):
        """'Minus zero counts as 0.'"""
        self.assertEqual(effect(MINUS_ZERO), Answer(value=0))
        self.assertNotIn("-", trial_combination.told_whole(MINUS_ZERO))

    def test_limit(self):
        """10^12 + 1 is beyond, 10^12 is not; with both signs."""
        beyond = (LIMIT + 1, -LIMIT - 1, LIMIT + 2, 2**40, -(10**13), 2**53, 2**1023)
        self.assertEqual(asked_alone(*beyond), [Answer(refused=9)] * len(beyond))

    def test_not_whole(self):
        """Fractions, infinities and NaNs are number 8."""
        fractions = (HALF, -HALF, 3 * HALF, LIMIT - HALF, 2**52 - HALF, Fraction(1, 2**1074))
        self.assertEqual(asked_alone(*fractions), [Answer(refused=8)] * len(fractions))
        infinity = 2047 << 52
        for pattern in (infinity, infinity + MINUS_ZERO, infinity + 1, infinity + 2**51, 2**64 - 1):
            self.assertEqual(effect(pattern), Answer(refused=8))
            self.assertEqual(is_nan(pattern), pattern % MINUS_ZERO != infinity)

    def test_not_whole_comes_first(self):
        """A fraction beyond the limit is number 8, and so is the next double beyond it."""
        self.assertEqual(asked_alone(LIMIT + HALF, -LIMIT - HALF), [Answer(refused=8)] * 2)
        for limit in (pattern_of(LIMIT), pattern_of(-LIMIT)):
            self.assertEqual([effect(limit + step).refused for step in (-1, 0, 1)], [8, None, 8])

    def test_two_ways(self):
        """The double and the fields say the same of any pattern."""
        lot = Lot(11)
        for _ in range(5_000):
            pattern = lot.one_of((lot.draw(), (lot.between(1_015, 1_080) << 52) + (lot.draw() % 2**10 << 42)))
            self.assertEqual(effect_by_float(pattern), effect_by_fields(pattern))


# ---- The table and the governing rows ------------------------------------


class Table(unittest.TestCase):
    """The 25 rows, three times: by the sentences, typed out, and by the standard's wording."""

    def test_sentences(self):
        """The typed rows are those of the paper's sentences."""
        self.assertEqual(TABLE, rows_from_sentences())
        self.assertEqual([len(row) for row in TABLE], [7] * 25)
        self.assertEqual(len(set(TABLE)), 25)

    def test_wording(self):
        """One newton of an effect, alone and turned, gives a tenth of its factor in every row."""
        for place, newtons in product(PLACES, (1, -1)):
            sums = sums_by_wording(with_place(ZEROS, place, newtons))
            self.assertEqual(sums, [newtons * Fraction(row[place], 10) for row in TABLE])

    def test_some_rows(self):
        """The ends of the groups, as the paper numbers them."""
        numbers = (1_000_000, 100_000, 10_000, 1_000, 100, 10, 1)
        sums = [0, *sums_by_table(numbers)]
        self.assertEqual(sums[1], 14_000_000)
        self.assertEqual((sums[2], sums[4]), (12_000_000 + 1_600_000 + 50_000, 12_000_000 + 1_600_000 + 500))
        self.assertEqual((sums[5], sums[7]), (12_000_000 + 160_000 + 1_000_000, 12_000_000 + 160_000 - 50))
        self.assertEqual((sums[8], sums[12]), (12_000_000 + 16_000 + 1_000_000, 12_000_000 + 1_600 + 50))
        self.assertEqual((sums[14], sums[19]), (13_000_000 + 50_000 + 100, 13_000_000 + 500 - 100))
        self.assertEqual((sums[20], sums[21]), (13_000_000 + 2_000 + 10, 13_000_000 + 2_000 - 10))
        self.assertEqual(sums[22:], [9_000_100, 8_999_900, 9_000_010, 8_999_990])


class GoverningRows(unittest.TestCase):
    """The greatest and the least sum."""

    def test_paper(self):
        """D = 100,000 and W = 60,000; the sheet's effects; and one with shared sums."""
        for numbers, greatest, least in (*trial_effects.PAPER, trial_effects.SHARED):
            self.assertEqual(governs(*numbers), (greatest, least))
        self.assertEqual(sharing(trial_effects.SHARED[0], 1), (6, 9, 12, 14, 16, 18, 22))
        self.assertEqual(sharing(trial_effects.SHARED[0], -1), (15, 17, 19, 23))

    def test_equal_sums(self):
        """'Equal sums give the lowest row.'"""
        self.assertEqual(governs(*ZEROS), ((0, 1), (0, 1)))
        self.assertEqual(governs(10, 0, 0, 0, 0, 0, 0), ((140, 1), (90, 22)))
        self.assertEqual(governs(-10, 0, 0, 0, 0, 0, 0), ((-90, 22), (-140, 1)))
        self.assertEqual(governs(0, 10, 10, 10, 10, 0, 0), ((260, 5), (0, 1)))
        self.assertEqual(governs(0, 0, 0, 0, 0, 10, 10), ((100, 14), (-100, 15)))
        self.assertEqual(governs(0, 0, 0, 0, 0, 0, -10), ((100, 21), (-100, 20)))

    def test_all_at_the_limit(self):
        """The greatest and the least sum there can be."""
        self.assertEqual(governs(*[LIMIT] * 7), ((38 * LIMIT, 5), (-LIMIT, 23)))
        self.assertEqual(governs(*[-LIMIT] * 7), ((LIMIT, 23), (-38 * LIMIT, 5)))

    def test_turned_effects(self):
        """With all signs turned the greatest sum becomes the least, in the same row."""
        lot = Lot(17)
        for _ in range(500):
            numbers = trial_effects.accepted(lot)
            one, other = combined(numbers), combined([-number for number in numbers])
            self.assertEqual(other.least, Governing(-one.greatest.tenths, one.greatest.row))
            self.assertEqual(other.greatest, Governing(-one.least.tenths, one.least.row))

    def test_wrong_rows_stop_the_making(self):
        """A wrong sum, a row that is short, and a higher row of equal sums raise an error."""
        sums = sums_by_table(trial_effects.SHARED[0])
        require_governing(sums, Governing(1_500_000, 6), 1)
        require_governing(sums, Governing(300_000, 15), -1)
        wrong = [(1_500_000, 14, 1), (1_500_000, 22, 1), (1_500_001, 6, 1), (1_400_000, 1, 1), (300_000, 23, -1)]
        for tenths, row, sign in (*wrong, (1_500_000, 0, 1), (1_500_000, 26, 1), (1_500_000, 6, -1)):
            self.assertRaises(AssertionError, require_governing, sums, Governing(tenths, row), sign)


class FirstRefused(unittest.TestCase):
    """Of several refused effects the first, D to E."""

    def test_each_place(self):
        """Each bad double in each place comes back as it came, with its number and the effect's name."""
        for place, bad in product(PLACES, (*NOT_WHOLE, *BEYOND)):
            number = 8 if bad in NOT_WHOLE else 9
            case = with_place(patterns([7] * 7), place, bad)
            self.assertEqual(combine(case), Refused(number, NAMES[place], bad))

    def test_first_decides(self):
        """9 at an effect comes before 8 at a later one, and 8 before 9."""
        for first, second in combinations(PLACES, 2):
            for one, other in ((NOT_WHOLE[0], BEYOND[0]), (BEYOND[0], NOT_WHOLE[0])):
                found = first_refused(with_place(with_place(ZEROS, second, other), first, one))
                self.assertEqual((found.name, found.pattern), (NAMES[first], one))

    def test_lists_of_bad_doubles(self):
        """Each list has its number alone."""
        self.assertEqual({effect(bad).refused for bad in NOT_WHOLE}, {8})
        self.assertEqual({effect(bad).refused for bad in BEYOND}, {9})


class WholeNumbers(unittest.TestCase):
    """Seven effects that are whole numbers already: number 9 alone, and the governing rows."""

    def test_paper(self):
        """The paper's case, the sheet's, and one with shared sums."""
        for numbers, greatest, least in (*trial_effects.PAPER, trial_effects.SHARED):
            self.assertEqual(govern(numbers), Combined(Governing(*greatest), Governing(*least)))

    def test_extremes(self):
        """Zeros, and all seven at the limit."""
        self.assertEqual(govern(ZEROS), Combined(Governing(0, 1), Governing(0, 1)))
        self.assertEqual(govern((LIMIT,) * 7), Combined(Governing(38 * LIMIT, 5), Governing(-LIMIT, 23)))
        self.assertEqual(govern((-LIMIT,) * 7), Combined(Governing(LIMIT, 23), Governing(-38 * LIMIT, 5)))

    def test_limit(self):
        """In each place, with both signs: 10^12 is good and one more is not, alone and with all others at the limit."""
        for place, sign, rest in product(PLACES, (1, -1), (0, 1, LIMIT, -LIMIT)):
            seven = (rest,) * 7
            self.assertIsInstance(govern(with_place(seven, place, sign * LIMIT)), Combined)
            refused = RefusedNumber(9, NAMES[place])
            self.assertEqual(govern(with_place(seven, place, sign * (LIMIT + 1))), refused)

    def test_far_beyond(self):
        """The ends of 64 bits, numbers that are no doubles, and those whose low bits are 0 or small; in each place."""
        far = (LEAST, LEAST + 1, MOST, MOST - 1, 2**53 - 1, 2**53, 2**53 + 1, -(2**53) - 1, 2**40, 2**60, 2**62 + 1)
        for place, number in product(PLACES, (*far, *trial_govern.BEYOND)):
            self.assertEqual(govern(with_place(ZEROS, place, number)), RefusedNumber(9, NAMES[place]))

    def test_first_decides(self):
        """Beyond in any of the 127 sets of places: the first is told, whichever is the farthest."""
        for count in range(1, 8):
            for places, step in product(combinations(PLACES, count), (1, -1)):
                case = (LIMIT,) * 7
                for place in places:
                    case = with_place(case, place, LIMIT + 4 + step * (place - 3))
                case = with_place(case, places[0], case[places[0]] * step)
                self.assertEqual(govern(case), RefusedNumber(9, NAMES[places[0]]))

    def test_like_doubles(self):
        """The same answer as the doubles give wherever there are such: sums and rows, or the number and the name."""
        lot = Lot(23)
        for _ in range(500):
            numbers = trial_effects.accepted(lot)
            self.assertEqual(govern(numbers), combine(patterns(numbers)))
            bad = lot.one_of(trial_govern.FAR[:5]) * lot.one_of((1, -1))
            numbers = with_place(numbers, lot.one_of(PLACES), bad)
            found, doubles = govern(numbers), combine(patterns(numbers))
            self.assertEqual((found.number, found.name), (doubles.number, doubles.name))

    def test_two_ways(self):
        """Going through the numbers and the least place of all say the same; None where all are good."""
        lot = Lot(29)
        for _ in range(2_000):
            choices = (0, LIMIT, -LIMIT, lot.one_of(trial_govern.BEYOND), lot.between(LEAST, MOST))
            numbers = [lot.one_of((*choices[:3], *choices)) for _ in PLACES]
            self.assertEqual(first_beyond_by_scan(numbers), first_beyond_by_least(numbers))
        self.assertIsNone(first_beyond((LIMIT, -LIMIT, *ZEROS[2:])))
        self.assertEqual(first_beyond((LIMIT, -LIMIT - 1, *ZEROS[2:])), "live")

    def test_not_seven_whole_numbers(self):
        """Six, eight, a fraction or a double stop the making."""
        for numbers in (ZEROS[1:], (*ZEROS, 0), (*ZEROS[1:], HALF), (1.0, *ZEROS[1:])):
            self.assertRaises(AssertionError, govern, numbers)

    def test_digits(self):
        """The digits of the two's complement, typed out; a number of more bits stops the making."""
        known = {0: "0" * 16, 1: "0" * 15 + "1", -1: "f" * 16, LEAST: "8" + "0" * 15, MOST: "7" + "f" * 15}
        known |= {LIMIT: "000000e8d4a51000", -LIMIT: "ffffff172b5af000", LIMIT + 1: "000000e8d4a51001"}
        known |= {-LIMIT - 1: "ffffff172b5aefff", 100_000: "00000000000186a0", 2**53: "0020000000000000"}
        for number, digits in known.items():
            self.assertEqual(trial_combination.signed_digits(number), digits)
        for number in (LEAST - 1, MOST + 1):
            self.assertRaises(AssertionError, trial_combination.signed_digits, number)


# ---- The cases -----------------------------------------------------------


def accepted_sevens():
    """The seven whole numbers of each combined case that is not refused."""
    cases = (case for case in trial_combination.sevens() if first_refused(case) is None)
    return [[effect(pattern).value for pattern in case] for case in cases]


def is_fraction_beyond(pattern):
    """Whether a double is both not whole and beyond the limit; no NaN, no infinity."""
    return fields_of(pattern)[1] < 2047 and effect(pattern).refused == 8 and abs(float_of(pattern)) > LIMIT


class WrongTurns(unittest.TestCase):
    """Wrong ways that the cases must notice, many times each."""

    @classmethod
    def setUpClass(cls):
        """The cases once."""
        cls.accepted = accepted_sevens()
        cls.answers = [cls.answer(numbers, TABLE) for numbers in cls.accepted]
        cls.wholes, cls.sevens = trial_combination.wholes(), trial_combination.sevens()
        cls.refused = [first_refused(case) for case in cls.sevens]

    @staticmethod
    def answer(numbers, table):
        """Sum and row of the greatest, then of the least, found by looking them up."""
        sums = sums_by_table(numbers, table)
        return max(sums), sums.index(max(sums)), min(sums), sums.index(min(sums))

    def noticed(self, table):
        """How many cases come out differently by another table."""
        return sum(self.answer(numbers, table) != was for numbers, was in zip(self.accepted, self.answers))

    def test_higher_row(self):
        """The last of equal rows in place of the first, at the greatest and at the least sum."""
        for sign in (1, -1):
            self.assertGreater(sum(len(sharing(numbers, sign)) > 1 for numbers in self.accepted), 500)

    def test_another_turn(self):
        """Lr, S and R in any other order."""
        for order in permutations((2, 3, 4)):
            table = [tuple(row[place] for place in (0, 1, *order, 5, 6)) for row in TABLE]
            self.assertTrue(self.noticed(table) > 1_000 or order == (2, 3, 4), order)

    def test_other_rows(self):
        """The rows by companion and not by Q, both signs the other way, and W for E."""
        by_companion = [4, 7, 10, 5, 8, 11, 6, 9, 12]
        tables = [[TABLE[at] for at in (*range(4), *by_companion, *range(13, 25))]]
        tables.append([TABLE[at] for at in (*range(13), 13, 15, 17, 14, 16, 18, *range(19, 25))])
        tables.append([(*row[:5], -row[5], row[6]) for row in TABLE])
        tables.append([(*row[:6], -row[6]) for row in TABLE])
        tables.append([(*row[:5], row[6], row[5]) for row in TABLE])
        for table in tables:
            self.assertGreater(self.noticed(table), 300)

    def test_every_factor(self):
        """Each factor of each row, those of 0 too: the row governs alone where the effect is not 0, at both ends."""
        found = Counter()
        for numbers, sign in product(self.accepted, (1, -1)):
            rows = sharing(numbers, sign)
            if len(rows) == 1:
                found.update((sign, rows[0], place) for place in PLACES if numbers[place] != 0)
        for counted in product((1, -1), range(1, 26), PLACES):
            self.assertGreaterEqual(found[counted], trial_effects.TIMES_EACH, counted)

    def test_beyond_before_not_whole(self):
        """9 checked before 8: fractions beyond the limit, alone and as the first refused in each place."""
        self.assertGreater(sum(is_fraction_beyond(pattern) for pattern in self.wholes), 80)
        found = Counter(one.name for one in self.refused if one and is_fraction_beyond(one.pattern))
        self.assertGreaterEqual(min(found[name] for name in NAMES), 7)

    def test_all_eights_first(self):
        """8 looked for in all effects before 9, or the last refused effect in place of the first."""
        eights = last = 0
        for case in self.sevens:
            numbers = [effect(pattern).refused for pattern in case]
            refused = [number for number in numbers if number is not None]
            eights += refused[:1] == [9] and 8 in refused
            last += len(refused) > 1
        self.assertGreater(eights, 100)
        self.assertGreater(last, 400)

    def test_minus_zero(self):
        """Minus zero refused, in each place and alone."""
        self.assertIn(MINUS_ZERO, self.wholes)
        for found in self.accepted_by_place():
            self.assertGreaterEqual(found[MINUS_ZERO], 70)

    def test_limit_off_by_one(self):
        """10^12 refused, or 10^12 + 1 accepted, in each place with both signs."""
        refused = {(one.name, one.pattern) for one in self.refused if one}
        for (name, found), sign in product(zip(NAMES, self.accepted_by_place()), (1, -1)):
            self.assertGreaterEqual(found[pattern_of(sign * LIMIT)], 60)
            self.assertIn((name, pattern_of(sign * (LIMIT + 1))), refused)

    def accepted_by_place(self):
        """For each place, how often each pattern comes in a case that is not refused."""
        cases = [case for case, one in zip(self.sevens, self.refused) if one is None]
        return [Counter(case[place] for case in cases) for place in PLACES]


class WholeCases(unittest.TestCase):
    """What the questions about single doubles hold."""

    @classmethod
    def setUpClass(cls):
        """The patterns once."""
        cls.list = trial_combination.wholes()
        cls.patterns = set(cls.list)

    def holds(self, numbers):
        """Whether all of the numbers are asked about, with both signs."""
        asked = (pattern_of(number) for number in numbers)
        return all({pattern, pattern ^ MINUS_ZERO} <= self.patterns for pattern in asked)

    def test_numbers(self):
        """At least 3,000, none twice; small ones, those about 2^52, 2^53 and the limit."""
        self.assertGreaterEqual(len(self.list), 3_000)
        self.assertEqual(len(self.list), len(self.patterns))
        self.assertTrue(self.holds(range(101)))
        self.assertTrue(self.holds(n + HALF for n in range(41)))
        self.assertTrue(self.holds(2**52 + step for step in range(-4, 5)))
        self.assertTrue(self.holds((2**53 - 1, 2**53, 2**53 + 2, 2**52 - HALF)))
        self.assertTrue(self.holds((LIMIT, LIMIT + 1, LIMIT - 1, LIMIT + HALF, LIMIT - HALF, 10**13)))
        self.assertTrue(self.holds((LIMIT + Fraction(1, 2**13), LIMIT - Fraction(1, 2**13))))

    def test_powers(self):
        """Every power of two with both neighbours and both signs."""
        for exponent in range(-1074, 1024):
            for pattern in trial_whole.beside(trial_whole.power(exponent)):
                self.assertLessEqual({pattern, pattern ^ MINUS_ZERO}, self.patterns)

    def test_exponent_fields(self):
        """Every exponent field with at least three mantissa fields and both signs."""
        found = {}
        for pattern in self.list:
            sign, exponent, mantissa = fields_of(pattern)
            found.setdefault((sign, exponent), set()).add(mantissa)
        self.assertEqual(set(found), set(product((0, 1), range(2048))))
        self.assertGreaterEqual(min(len(mantissas) for mantissas in found.values()), 3)

    def test_no_numbers(self):
        """Infinities, and quiet and signalling NaNs of both signs with several payloads."""
        infinity = 2047 << 52
        self.assertLessEqual({infinity, infinity + MINUS_ZERO, infinity - 1, MINUS_ZERO + infinity - 1}, self.patterns)
        found = Counter((pattern >> 63, pattern >> 51 & 1) for pattern in self.list if is_nan(pattern))
        self.assertEqual(set(found), set(product((0, 1), (0, 1))))
        self.assertGreaterEqual(min(found.values()), 10)

    def test_sizes(self):
        """Whole numbers of every size to 10^13; the last bit about the units place in every size."""
        values = [Fraction(float_of(pattern)) for pattern in self.list if effect(pattern).refused != 8]
        sizes = Counter(abs(value.numerator).bit_length() for value in values if abs(value) <= 10**13)
        self.assertGreaterEqual(min(sizes[bits] for bits in range(1, 45)), 2)
        self.assertGreaterEqual(min(sizes[bits] for bits in range(3, 45)), 8)
        finite = [Fraction(float_of(pattern)) for pattern in self.list if pattern >> 52 & 2047 != 2047]
        last = Counter((value.denominator, int(abs(value)).bit_length()) for value in finite)
        self.assertGreaterEqual(min(last[2, bits] for bits in range(1, 53)), 2)

    def test_answers(self):
        """Each answer many times."""
        found = Counter(effect(pattern).refused for pattern in self.list)
        self.assertEqual(set(found), {None, 8, 9})
        self.assertGreaterEqual(min(found.values()), 700)


class SevenCases(unittest.TestCase):
    """What the questions about seven effects hold."""

    @classmethod
    def setUpClass(cls):
        """The cases and their answers once."""
        cls.list = trial_combination.sevens()
        cls.cases = set(cls.list)
        cls.answers = [combine(case) for case in cls.list]
        cls.accepted = accepted_sevens()

    def test_count(self):
        """At least 5,000, none twice, the paper's first."""
        self.assertGreaterEqual(len(self.list), 5_000)
        self.assertEqual(len(self.list), len(self.cases))
        first = [patterns(numbers) for numbers, *_rest in (*trial_effects.PAPER, trial_effects.SHARED)]
        self.assertEqual(list(self.list[:3]), first)

    def test_limits_and_single_effects(self):
        """All signs of 10^12, each effect alone, and zeros of all signs."""
        for signs in product((1, -1), repeat=7):
            self.assertIn(patterns(sign * LIMIT for sign in signs), self.cases)
            self.assertIn(tuple(MINUS_ZERO if sign < 0 else 0 for sign in signs), self.cases)
        for place, size in product(PLACES, (1, -1, LIMIT, -LIMIT, LIMIT - 1)):
            self.assertIn(patterns(with_place(ZEROS, place, size)), self.cases)

    def test_every_row_governs(self):
        """No row can never govern: each is the greatest, and the least, alone and often."""
        combined_ = [answer for answer in self.answers if isinstance(answer, Combined)]
        for found in (Counter(a.greatest.row for a in combined_), Counter(a.least.row for a in combined_)):
            self.assertEqual(sorted(found), list(range(1, 26)))
            self.assertGreaterEqual(min(found.values()), 50)
        for sign in (1, -1):
            alone = Counter(sharing(numbers, sign) for numbers in self.accepted if 0 not in numbers)
            self.assertGreaterEqual(min(alone[row,] for row in range(1, 26)), trial_effects.TIMES_EACH)

    def test_shared_sums(self):
        """Many pairs of rows share a governing sum with no third, and three rows or more do; row 1 and later ones."""
        for sign in (1, -1):
            found = Counter(sharing(numbers, sign) for numbers in self.accepted)
            pairs = [rows for rows in found if len(rows) == 2]
            self.assertGreaterEqual(len(pairs), 165)
            self.assertGreaterEqual(sum(rows[0] == 1 for rows in pairs), 15)
            self.assertGreaterEqual(len({rows[0] for rows in pairs}), 19)
            self.assertGreaterEqual(len({rows[1] for rows in pairs}), 22)
            self.assertGreaterEqual(sum(count for rows, count in found.items() if len(rows) == 3), 50)
            self.assertGreaterEqual(sum(count for rows, count in found.items() if len(rows) > 3), 100)
            self.assertIn(tuple(range(1, 26)), found)

    def test_equal_effects(self):
        """Lr = S = R, W absent, E absent, W = E, and D alone, none of it for want of effects."""
        kinds = Counter()
        for d, l, lr, s, r, w, e in self.accepted:
            kinds.update({"turn": lr == s == r != 0, "wind": w == 0 != e, "quake": e == 0 != w, "same": w == e != 0})
            kinds["dead"] += d != 0 and (l, lr, s, r, w, e) == (0,) * 6
        self.assertGreaterEqual(min(kinds[kind] for kind in ("turn", "wind", "quake", "same", "dead")), 15)

    def test_close_sums(self):
        """Great sums with the next row short by a few tenths."""
        close = 0
        for numbers in self.accepted:
            second, first = sorted(set(sums_by_table(numbers)))[-2:] if any(numbers) else (0, 0)
            close += first > 10**8 and 0 < first - second <= 30
        self.assertGreaterEqual(close, 60)

    def test_refused(self):
        """8 and 9 in each of the seven places, and every pair of places with both numbers in both orders."""
        found, pairs = Counter(), Counter()
        for case in self.list:
            numbers = [(place, effect(pattern).refused) for place, pattern in enumerate(case)]
            refused = [one for one in numbers if one[1] is not None]
            found.update(refused[:1])
            pairs.update([tuple(refused)] if len(refused) == 2 else [])
        self.assertGreaterEqual(min(found[one] for one in product(PLACES, (8, 9))), 15)
        wanted = [((a, m), (b, n)) for a, b in combinations(PLACES, 2) for m, n in product((8, 9), repeat=2)]
        self.assertGreaterEqual(min(pairs[one] for one in wanted), 3)

    def test_bad_doubles(self):
        """Each bad double is the first refused in each place."""
        found = {(answer.name, answer.pattern) for answer in self.answers if isinstance(answer, Refused)}
        self.assertLessEqual(set(product(NAMES, (*NOT_WHOLE, *BEYOND))), found)


class GovernCases(unittest.TestCase):
    """What the questions about seven whole numbers hold."""

    @classmethod
    def setUpClass(cls):
        """The cases and their answers once."""
        cls.list = trial_combination.governs()
        cls.cases = set(cls.list)
        cls.answers = [govern(case) for case in cls.list]
        cls.accepted = [case for case, answer in zip(cls.list, cls.answers) if isinstance(answer, Combined)]
        cls.beyond = [case for case, answer in zip(cls.list, cls.answers) if isinstance(answer, RefusedNumber)]

    @staticmethod
    def places_beyond(case):
        """The places of the numbers beyond the limit."""
        return tuple(place for place in PLACES if not -LIMIT <= case[place] <= LIMIT)

    @staticmethod
    def both_rows(cases):
        """The row of the greatest sum and that of the least, of each case."""
        return {(sharing(case, 1)[0], sharing(case, -1)[0]) for case in cases}

    def noticed(self, wrong):
        """How many cases come out differently when each number is first read in a wrong way."""
        return sum(govern([wrong(number) for number in case]) != was for case, was in zip(self.list, self.answers))

    def test_count(self):
        """300 to 400, none twice, the paper's first; each number has 64 bits with a sign."""
        self.assertTrue(300 <= len(self.list) <= 400)
        self.assertEqual(len(self.list), len(self.cases))
        first = [numbers for numbers, *_rest in (*trial_effects.PAPER, trial_effects.SHARED)]
        self.assertEqual(list(self.list[:3]), first)
        self.assertEqual(first[:2], [(100_000, 0, 0, 0, 0, 60_000, 0), (100_000, 41_856, 0, 0, 0, 0, 0)])
        self.assertIn(ZEROS, self.cases)
        self.assertEqual((min(map(min, self.list)), max(map(max, self.list))), (LEAST, MOST))

    def test_alone(self):
        """In each place with the rest 0: the limit, one beyond, the ends of 64 bits, about 2^53; both signs."""
        sizes = [sign * size for size in (1, LIMIT, LIMIT + 1, 2**53 - 1, 2**53, 2**53 + 1) for sign in (1, -1)]
        for place, size in product(PLACES, (*sizes, LEAST, MOST)):
            self.assertIn(with_place(ZEROS, place, size), self.cases)

    def test_beyond(self):
        """Each place is the first beyond often; every pair of places twice, once with the rest 0; three to seven."""
        found = Counter(self.places_beyond(case) for case in self.beyond)
        with_zeros = Counter(self.places_beyond(case) for case in self.beyond if case.count(0) == 5)
        firsts, sizes = Counter(), Counter()
        for places, count in found.items():
            firsts[places[0]] += count
            sizes[len(places)] += count
        self.assertGreaterEqual(min(firsts[place] for place in PLACES), 12)
        for pair in combinations(PLACES, 2):
            self.assertGreaterEqual(found[pair], 2)
            self.assertGreaterEqual(with_zeros[pair], 1)
        self.assertGreaterEqual(min(sizes[count] for count in range(1, 8)), 2)

    def test_names(self):
        """Each refusal names its first place, and there are enough of refusals and of sums."""
        for case, answer in zip(self.list, self.answers):
            places = self.places_beyond(case)
            self.assertEqual(isinstance(answer, RefusedNumber), places != ())
            if places:
                self.assertEqual(answer, RefusedNumber(9, NAMES[places[0]]))
        self.assertGreaterEqual(len(self.accepted), 200)
        self.assertGreaterEqual(len(self.beyond), 130)

    def test_limits_together(self):
        """All seven at the limit: every two rows that can govern together so; with zeros among them, all 25 rows."""
        rows = {}
        for values in ((1, -1), (1, 0, -1)):
            every = {tuple(LIMIT * sign for sign in signs) for signs in product(values, repeat=7)}
            rows[values] = [self.both_rows(every), self.both_rows(every & self.cases)]
        self.assertEqual(*rows[1, -1])
        self.assertEqual(len(rows[1, -1][0]), 28)
        for end in (0, 1):
            self.assertEqual({both[end] for both in rows[1, 0, -1][1]}, set(range(1, 26)))
        self.assertLessEqual({(LIMIT,) * 7, (-LIMIT,) * 7}, self.cases)

    def test_every_row_governs(self):
        """Each row is the greatest, and the least, at least twice, and once alone with no effect 0."""
        combined_ = [answer for answer in self.answers if isinstance(answer, Combined)]
        for found in (Counter(a.greatest.row for a in combined_), Counter(a.least.row for a in combined_)):
            self.assertEqual(sorted(found), list(range(1, 26)))
            self.assertGreaterEqual(min(found.values()), 2)
        for sign in (1, -1):
            alone = Counter(sharing(numbers, sign) for numbers in self.accepted if 0 not in numbers)
            self.assertGreaterEqual(min(alone[row,] for row in range(1, 26)), 1)

    def test_shared_sums(self):
        """Two rows share a governing sum, and three or more, in many ways at both ends."""
        for sign in (1, -1):
            found = {sharing(numbers, sign) for numbers in self.accepted}
            self.assertGreaterEqual(sum(len(rows) == 2 for rows in found), 15)
            self.assertGreaterEqual(sum(len(rows) > 2 for rows in found), 20)
            self.assertIn(tuple(range(1, 26)), found)

    def test_sizes(self):
        """Small numbers and great ones, and of many sizes between."""
        sizes = Counter(abs(number).bit_length() for case in self.accepted for number in case)
        self.assertGreaterEqual(min(sizes[bits] for bits in range(41)), 4)
        self.assertGreaterEqual(sum(max(map(abs, case)) < 10 for case in self.accepted), 15)

    def test_limit_off_by_one(self):
        """10^12 refused, or 10^12 + 1 accepted, in each place with both signs, alone and among others."""
        for place, sign in product(PLACES, (1, -1)):
            at_limit = [case for case in self.accepted if case[place] == sign * LIMIT]
            beyond = [case for case in self.beyond if case[place] == sign * (LIMIT + 1)]
            self.assertGreaterEqual(len(at_limit), 10)
            self.assertGreaterEqual(sum(self.places_beyond(case) == (place,) for case in beyond), 2)

    def test_wrong_readings(self):
        """No sign, the size of the least number lost, 32 bits alone, 53 bits alone, and a double's digits."""
        self.assertGreater(self.noticed(lambda number: number % 2**64), 100)
        self.assertGreaterEqual(self.noticed(lambda number: 0 if number == LEAST else number), 7)
        self.assertGreater(self.noticed(lambda number: (number + 2**31) % 2**32 - 2**31), 100)
        self.assertGreaterEqual(self.noticed(lambda number: (number + 2**52) % 2**53 - 2**52), 14)
        doubles = (tuple(pattern_of(number) for number in numbers) for numbers, *_rest in trial_effects.PAPER)
        self.assertLessEqual(set(doubles), set(self.beyond))

    def test_wrong_order(self):
        """The last beyond in place of the first, or the one farthest beyond."""
        last = [case for case in self.beyond if len(self.places_beyond(case)) > 1]
        farthest = [case for case in last if max(map(abs, case)) > abs(case[self.places_beyond(case)[0]])]
        self.assertGreaterEqual(len(last), 50)
        self.assertGreaterEqual(len(farthest), 20)

    def test_wrong_rows(self):
        """The last of equal rows, W for E, and Lr, S and R in any other order."""
        for sign in (1, -1):
            self.assertGreaterEqual(sum(len(sharing(numbers, sign)) > 1 for numbers in self.accepted), 80)
        for order in ((1, 2, 3, 4, 6, 5), *((1, *turn, 5, 6) for turn in permutations((2, 3, 4)) if turn != (2, 3, 4))):
            other = [tuple(case[place] for place in (0, *order)) for case in self.accepted]
            self.assertGreater(sum(govern(case) != govern(was) for case, was in zip(other, self.accepted)), 80)


class Texts(unittest.TestCase):
    """The form of the two texts."""

    # Each form of a question, and the forms of the line printed for it; H is a pattern, T tenths, R a row.
    FORMS = (
        ("whole H", "whole=T|refused=8 double=(?:H|nan)|refused=9 double=H"),
        ("combine(?: H){7}", "max=T row=R double=H min=T row=R double=H|refused=8 effect=E double=(?:H|nan)"),
        ("combine(?: H){7}", "refused=9 effect=E double=H"),
        ("govern(?: H){7}", "max=T row=R double=H min=T row=R double=H|refused=9 effect=E"),
    )
    PARTS = {"H": "[0-9a-f]{16}", "T": "(?:0|-?[1-9][0-9]{0,13})", "R": "(?:[1-9]|1[0-9]|2[0-5])"}

    @classmethod
    def setUpClass(cls):
        """Makes the two texts once."""
        made = trial_combination.files()
        cls.texts = [made[place].decode() for place in (trial_combination.STDIN, trial_combination.STDOUT)]
        cls.pairs = list(zip(*(text.splitlines() for text in cls.texts), strict=True))

    def test_form(self):
        """One printed line for each line read, of a form that fits it."""
        forms = "|".join(f"(?:{read})\t(?:{printed})" for read, printed in self.FORMS)
        forms = forms.replace("E", f"(?:{'|'.join(NAMES)})")
        form = re.compile(re.sub("[HTR]", lambda found: self.PARTS[found[0]], forms))
        for pair in self.pairs:
            self.assertTrue(form.fullmatch("\t".join(pair)), pair)
        for part, text in enumerate(self.texts):
            self.assertEqual(text, "".join(pair[part] + "\n" for pair in self.pairs))
            self.assertLess(len(text), (1_040_000, 1_048_576)[part])
        self.assertEqual(len(self.pairs), trial_combination.case_count())

    def test_order(self):
        """First all single doubles, then all seven doubles, then all seven whole numbers, as the tally counts them."""
        words = [read.split()[0] for read, _printed in self.pairs]
        wholes, combines, governs_ = trial_combination.tally().values()
        self.assertEqual(words, ["whole"] * wholes + ["combine"] * combines + ["govern"] * governs_)

    def test_printed_doubles(self):
        """Each printed double is exactly the printed sum; a refused one is that of the question, NaN apart."""
        for read, printed in self.pairs:
            for tenths, double in re.findall("(?:max|min)=(-?[0-9]+) row=[0-9]+ double=([0-9a-f]+)", printed):
                self.assertEqual(Fraction(float_of(int(double, 16))), int(tenths))
                self.assertNotEqual(double, f"{MINUS_ZERO:016x}")
            if " double=" in printed and printed.startswith("refused=") and not printed.endswith("nan"):
                self.assertIn(printed.rpartition("=")[2], read.split())

    def test_govern_like_combine(self):
        """A line of whole numbers within the limit is answered as the line of the same doubles."""
        found = 0
        for read, printed in self.pairs:
            word, *digits = read.split()
            if word == "govern" and printed.startswith("max="):
                numbers = [int.from_bytes(bytes.fromhex(each), "big", signed=True) for each in digits]
                self.assertEqual(trial_combination.told_combined(patterns(numbers)), printed)
                found += 1
        self.assertGreaterEqual(found, 200)

    def test_known_lines(self):
        """Lines written out by hand."""
        zero, dead, live, wind = "0" * 16, "40f86a0000000000", "40e4700000000000", "40ed4c0000000000"
        sheet = "max=1869696 row=2 double=413c878000000000 min=900000 row=22 double=412b774000000000"
        alone = "max=1800000 row=14 double=413b774000000000 min=300000 row=23 double=41124f8000000000"
        minus_one = "max=-9 row=22 double=c022000000000000 min=-14 row=1 double=c02c000000000000"
        most = "max=38000000000000 row=5 double=42c147c840300000 min=-1000000000000 row=23 double=c26d1a94a2000000"
        known = {
            " ".join(("combine", dead, live, *[zero] * 5)): sheet,
            " ".join(("combine", dead, *[zero] * 4, wind, zero)): alone,
            " ".join(("combine", *[zero] * 7)): f"max=0 row=1 double={zero} min=0 row=1 double={zero}",
            " ".join(("govern", "00000000000186a0", "000000000000a380", *[zero] * 5)): sheet,
            " ".join(("govern", "00000000000186a0", *[zero] * 4, "000000000000ea60", zero)): alone,
            " ".join(("govern", *[zero] * 7)): f"max=0 row=1 double={zero} min=0 row=1 double={zero}",
            " ".join(("govern", "f" * 16, *[zero] * 6)): minus_one,
            " ".join(("govern", *["000000e8d4a51000"] * 7)): most,
            " ".join(("govern", "000000e8d4a51001", *[zero] * 6)): "refused=9 effect=dead",
            " ".join(("govern", *[zero] * 6, "ffffff172b5aefff")): "refused=9 effect=quake",
            " ".join(("govern", *[zero] * 2, "8000000000000000", *[zero] * 4)): "refused=9 effect=roof",
            " ".join(("govern", *["7fffffffffffffff"] * 7)): "refused=9 effect=dead",
            "whole 8000000000000000": "whole=0",
            "whole bff0000000000000": "whole=-1",
            "whole 426d1a94a2000000": "whole=1000000000000",
            "whole 426d1a94a2000001": "refused=8 double=426d1a94a2000001",
            "whole 426d1a94a2002000": "refused=9 double=426d1a94a2002000",
            "whole fff0000000000000": "refused=8 double=fff0000000000000",
            "whole 7ff8000000000000": "refused=8 double=nan",
            "whole fff0000000000001": "refused=8 double=nan",
        }
        found = dict(self.pairs)
        for read, printed in known.items():
            self.assertEqual(found[read], printed)

    def test_made_the_same_again(self):
        """The cases come out the same when they are made anew."""
        again = [case for kind in trial_effects.cases_by_kind().values() for case in kind]
        self.assertEqual(tuple(again), trial_combination.sevens())
        again = [case for kind in trial_whole.cases_by_kind().values() for case in kind]
        self.assertEqual(tuple(again), trial_combination.wholes())
        again = [case for kind in trial_govern.cases_by_kind().values() for case in kind]
        self.assertEqual(tuple(again), trial_combination.governs())


if __name__ == "__main__":
    unittest.main()
