"""Makes the questions of the trial about seven effects at once, as 64-bit patterns D to E."""

from collections import Counter
from fractions import Fraction
from itertools import combinations, product

from reckoning.combination import LIMIT, TABLE, pattern_of, sums_by_table
from reckoning.trial_reduction import Lot, require
from reckoning.trial_whole import GREATEST_FINITE, INFINITY, LEAST_NORMAL, MINUS, QUIET, fresh_by_kind

PLACES = range(7)  # D, L, Lr, S, R, W, E


def patterns(numbers):
    """The patterns of whole numbers or fractions; a zero among them is plus zero."""
    return tuple(pattern_of(number) for number in numbers)


def with_place(case, place, value):
    """The seven with one of them changed."""
    return (*case[:place], value, *case[place + 1 :])


# ---- Effects by lot ------------------------------------------------------


def size_by_lot(lot):
    """A whole number to 10^12, each number of bits about as often."""
    return min(lot.draw() >> (64 - lot.between(1, 40)), LIMIT)


def spread(lot):
    """Seven effects, each of its own size."""
    return [size_by_lot(lot) * lot.one_of((1, -1)) for _ in PLACES]


def alike(lot):
    """Seven effects of about the same size."""
    most = size_by_lot(lot)
    return [lot.between(-most, most) for _ in PLACES]


def sparse(lot):
    """Seven effects, some of them 0."""
    return [number * lot.one_of((0, 1)) for number in alike(lot)]


def common(lot):
    """Seven effects as a building has them: round, none negative but wind and earthquake."""
    step = lot.one_of((1, 10, 500, 1_000))
    sizes = [lot.between(0, most) * step for most in (400, 200, 60, 120, 30, 90, 150)]
    return [size * lot.one_of((1, -1)) if place > 4 else size for place, size in enumerate(sizes)]


def near_limit(lot):
    """Seven effects a little short of 10^12, or at it."""
    return [(LIMIT - lot.one_of((0, 1, lot.between(0, 9), size_by_lot(lot)))) * lot.one_of((1, -1)) for _ in PLACES]


def small(lot):
    """Seven effects of a few newtons."""
    most = lot.one_of((1, 2, 3, 5, 8))
    return [lot.between(-most, most) for _ in PLACES]


def accepted(lot):
    """Seven effects that are not refused, of any of these habits."""
    return lot.one_of((spread, alike, sparse, common, near_limit, small))(lot)


def by_lot(lot):
    """Effects of every habit."""
    shares = ((spread, 550), (alike, 350), (sparse, 120), (common, 150), (near_limit, 170), (small, 40))
    return [patterns(habit(lot)) for habit, count in shares for _ in range(count)]


# ---- The paper's cases, and effects alone --------------------------------

# Effects D to E, then the greatest sum and its row, the least sum and its row.
PAPER = (
    ((100_000, 0, 0, 0, 0, 60_000, 0), (1_800_000, 14), (300_000, 23)),
    ((100_000, 41_856, 0, 0, 0, 0, 0), (1_869_696, 2), (900_000, 22)),
)
# Rows 6, 9, 12, 14, 16, 18 and 22 share the greatest sum, rows 15, 17, 19 and 23 the least.
SHARED = ((100_000, -30_000, 0, 0, 0, 60_000, 0), (1_500_000, 6), (300_000, 15))


def paper_cases(_lot):
    """The paper's case, the sheet's, one with shared sums, and each with its signs turned."""
    seven = [numbers for numbers, *_printed in (*PAPER, SHARED)]
    return [patterns(numbers) for numbers in seven] + [patterns(-number for number in numbers) for numbers in seven]


def at_limits(lot):
    """All seven at 10^12 or minus 10^12, in every pattern of signs; then some with zeros between."""
    found = [patterns(LIMIT * sign for sign in signs) for signs in product((1, -1), repeat=7)]
    return found + [patterns(LIMIT * lot.between(-1, 1) for _ in PLACES) for _ in range(50)]


def alone(lot):
    """One effect alone: 1, 10^12 and some between, with both signs."""
    found = []
    for place, sign in product(PLACES, (1, -1)):
        sizes = (1, 3, 10, lot.between(11, 10**6), LIMIT - 1, LIMIT)
        found += [patterns(with_place([0] * 7, place, sign * size)) for size in sizes]
    return found


def two_alone(lot):
    """Two effects alone, in every pair of places with all signs."""
    found = []
    for (first, second), signs in product(combinations(PLACES, 2), product((1, -1), repeat=2)):
        size = size_by_lot(lot)
        numbers = with_place([0] * 7, first, signs[0] * size)
        found.append(patterns(with_place(numbers, second, signs[1] * lot.one_of((size, size_by_lot(lot))))))
    return found


# ---- Shared sums ---------------------------------------------------------


def sharing(numbers, sign):
    """The rows that share the greatest sum (sign 1) or the least (sign -1), lowest first."""
    sums = sums_by_table(numbers)
    best = max(sign * tenths for tenths in sums)
    return tuple(row for row, tenths in enumerate(sums, start=1) if sign * tenths == best)


def equal_effects(lot):
    """Effects that are equal or absent in the ways that make rows equal."""
    found = []
    for _ in range(15):
        d, l, lr, s, r, w, e = lot.one_of((spread, alike, common, near_limit))(lot)
        ways = [(d, 0, 0, 0, 0, 0, 0), (d, l, lr, lr, lr, w, e), (d, l, lr, s, s, w, e), (d, l, lr, s, lr, w, e)]
        ways += [(d, l, lr, lr, r, w, e), (d, l, 0, 0, 0, w, e), (d, l, lr, s, r, 0, e), (d, l, lr, s, r, w, 0)]
        ways += [(d, l, lr, s, r, 0, 0), (d, l, lr, s, r, w, w), (d, l, 0, 0, 0, w, w), (d, l, 0, 0, 0, w, -w)]
        ways += [(d, 0, 0, 0, 0, w, w), (0, l, lr, lr, lr, 0, 0)]
        found += [patterns(way) for way in ways]
    return found


def passing_point(numbers, place):
    """The seven with one effect raised, all scaled to stay whole, until another row joins the greatest sum.

    Row j gains a_j - a_i on row i with each newton of the effect; the first row to catch up is the one that joins.
    None where no row gains on the greatest one.
    """
    sums = sums_by_table(numbers)
    best = sharing(numbers, 1)[0]
    gains = [(row[place] - TABLE[best - 1][place], sums[best - 1] - tenths) for row, tenths in zip(TABLE, sums)]
    steps = [Fraction(behind, gain) for gain, behind in gains if gain > 0]
    if not steps:
        return None
    raised = with_place(numbers, place, numbers[place] + min(steps))
    whole = min(steps).denominator
    return [int(number * whole) for number in raised]


def passing_points(lot, draws, most_each):
    """Points where a row joins the greatest sum, some for each set of rows that share it there."""
    found = {}
    for _ in range(draws):
        most = 2 ** lot.between(6, 33)
        dead = most * lot.one_of((1, 1, 8))
        numbers = [lot.between(-dead, dead), *(lot.between(-most, most) for _ in PLACES[1:])]
        point = passing_point(numbers, lot.one_of(PLACES))
        if point is not None and max(abs(number) for number in point) < LIMIT:
            points = found.setdefault(sharing(point, 1), [])
            if len(points) < most_each:
                points.append(point)
    return found


def turned(numbers, sign):
    """The effects with their signs turned where sign is -1: the greatest sum becomes the least."""
    return patterns(number * sign for number in numbers)


def two_rows_share(lot):
    """Two rows, seldom more, share the greatest sum, and at the next point of the same rows the least."""
    points = passing_points(lot, 16_000, 2)
    return [turned(point, (1, -1)[at]) for some in points.values() for at, point in enumerate(some)]


def one_newton_off(lot):
    """One newton before and after two rows pass each other: the row changes and must be told exactly."""
    cases = []
    for at, (rows, some) in enumerate(passing_points(lot, 8_000, 1).items()):
        one, other = (TABLE[row - 1] for row in rows[:2])
        place = lot.one_of([place for place in PLACES if one[place] != other[place]])
        for step in (1, -1):
            beside = with_place(some[0], place, some[0][place] + step)
            cases.append(turned(beside, (1, -1)[at % 2]))
    return cases


def many_rows_share(lot):
    """Three rows or more share the greatest or the least sum, a few times for each set of rows."""
    found, counts = [], Counter()
    for _ in range(6_000):
        numbers, scale = small(lot), lot.one_of((1, 7, 1_000, LIMIT // 8))
        for sign in (1, -1):
            rows = sharing(numbers, sign)
            counts[sign, rows] += 1
            if len(rows) >= 3 and counts[sign, rows] <= 2:
                found.append(patterns(number * scale for number in numbers))
    return found


# ---- Every row governs ---------------------------------------------------

TIMES_EACH = 36  # at the greatest sum, and as often at the least


def governed(lot):
    """Each of the 25 rows is alone the greatest, and alone the least, many times with no effect 0.

    No row can be left out: the search ends, so each row is the one greatest sum for some effects. Every sum turns
    its sign with the effects, so each is the one least sum for others.
    """
    found, counts = [], Counter({(sign, row): 0 for sign in (1, -1) for row in range(1, 26)})
    while min(counts.values()) < TIMES_EACH:
        numbers = lot.one_of((spread, alike, alike, near_limit))(lot)
        rows = [(sign, *sharing(numbers, sign)) for sign in (1, -1)]
        wanting = [row for row in rows if len(row) == 2 and counts[row] < TIMES_EACH]
        if wanting and 0 not in numbers:
            found.append(patterns(numbers))
            counts.update(wanting)
    return found


# ---- Refused effects -----------------------------------------------------

NOT_WHOLE = (
    *patterns((Fraction(1, 2), Fraction(-1, 2), Fraction(3, 2), Fraction(-5, 4), 100_000 + Fraction(1, 1_024))),
    *(INFINITY, INFINITY + MINUS, INFINITY + QUIET, INFINITY + QUIET + MINUS, INFINITY + 1, INFINITY + MINUS + 1),
    *(2**64 - 1, INFINITY + QUIET + 7, 1, MINUS + 1, LEAST_NORMAL - 1, LEAST_NORMAL),
    *patterns((LIMIT + Fraction(1, 2), -LIMIT - Fraction(1, 2), 2**52 - Fraction(1, 2))),
    *patterns((LIMIT + 2 + Fraction(1, 4), -2 * LIMIT - Fraction(1, 2))),
    *(pattern_of(LIMIT) + 1, pattern_of(-LIMIT) + 1, pattern_of(LIMIT) - 1, pattern_of(-LIMIT) - 1),
)
BEYOND = (
    *patterns((LIMIT + 1, -LIMIT - 1, LIMIT + 2, -LIMIT - 2, 2**40, -(2**40), 10**13, -(10**13))),
    *patterns((2**53, -(2**53), 2**63, -(2**63), 2**64, 2**64 + 2**16, 2**200)),
    *(GREATEST_FINITE, GREATEST_FINITE + MINUS),
)
BAD = {8: NOT_WHOLE, 9: BEYOND}


def refused_alone(lot):
    """Each bad double in each place, the other six good."""
    every = product(PLACES, (*NOT_WHOLE, *BEYOND))
    return [with_place(patterns(accepted(lot)), place, bad) for place, bad in every]


def refused_pairs(lot):
    """Two refused effects in every pair of places, with both numbers in both orders."""
    found = []
    for (first, second), numbers in product(combinations(PLACES, 2), product((8, 9), repeat=2)):
        for _ in range(4):
            case = with_place(patterns(accepted(lot)), first, lot.one_of(BAD[numbers[0]]))
            found.append(with_place(case, second, lot.one_of(BAD[numbers[1]])))
    return found


def refused_many(lot):
    """Three to seven refused effects."""
    found = []
    for turn in range(125):
        case, count = patterns(accepted(lot)), 3 + turn % 5
        for place in sorted(PLACES, key=lambda _place: lot.draw())[:count]:
            case = with_place(case, place, lot.one_of(BAD[lot.one_of((8, 9))]))
        found.append(case)
    return found


# ---- Minus zero, and the limit in each place -----------------------------


def minus_zeros(lot):
    """Zeros of either sign in all seven places, and minus zero in each place among other effects."""
    found = [tuple(MINUS * bit for bit in bits) for bits in product((0, 1), repeat=7)]
    for place in PLACES:
        for _ in range(10):
            found.append(with_place(patterns(accepted(lot)), place, MINUS))
        bad = with_place(patterns(accepted(lot)), (place + 1) % 7, lot.one_of(BAD[lot.one_of((8, 9))]))
        found.append(with_place(bad, place, MINUS))
    return found


def limit_in_place(lot):
    """10^12 and one less, with both signs, in each place among other effects."""
    sizes = (LIMIT, -LIMIT, LIMIT, -LIMIT, LIMIT - 1, 1 - LIMIT)
    return [patterns(with_place(accepted(lot), place, size)) for place in PLACES for size in sizes]


# ---- All of them ---------------------------------------------------------

MAKERS = (
    paper_cases,
    at_limits,
    alone,
    two_alone,
    equal_effects,
    two_rows_share,
    one_newton_off,
    many_rows_share,
    governed,
    refused_alone,
    refused_pairs,
    refused_many,
    minus_zeros,
    limit_in_place,
    by_lot,
)


def cases_by_kind():
    """The effects kind by kind, in the order of the text."""
    kinds = fresh_by_kind(MAKERS, Lot(20_102_332))
    for name, made in kinds.items():
        require(all(len(case) == 7 for case in made), f"{name}: not seven effects")
    return kinds
