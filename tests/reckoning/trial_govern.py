"""Makes the questions of the trial about seven whole numbers of newtons at once, D to E: limits, far ends, rows."""

from itertools import combinations, islice, product

from reckoning.combination import LIMIT, pattern_of
from reckoning.trial_effects import (
    PAPER,
    PLACES,
    SHARED,
    accepted,
    alike,
    common,
    near_limit,
    passing_points,
    sharing,
    small,
    sparse,
    spread,
    with_place,
)
from reckoning.trial_reduction import Lot, require
from reckoning.trial_whole import fresh_by_kind

LEAST, MOST = -(2**63), 2**63 - 1  # the ends of 64 bits with a sign
ZEROS = (0,) * 7
AT_LIMIT = (LIMIT, -LIMIT, LIMIT + 1, -LIMIT - 1)
AT_53_BITS = tuple(sign * (2**53 + step) for step in (-1, 0, 1) for sign in (1, -1))  # where doubles leave some out
FAR = (LIMIT + 1, LIMIT + 2, 2**40, 10**13, 2**53, 2**53 + 1, 2**60, 2**62, 2**63 - 1)
BEYOND = (*FAR, *(-number for number in FAR), LEAST)


def turned(numbers):
    """The seven with all signs turned."""
    return tuple(-number for number in numbers)


# ---- The paper's cases, and effects alone --------------------------------


def paper_cases(_lot):
    """The paper's case, the sheet's, one with shared sums, each with its signs turned, and seven zeros."""
    seven = [numbers for numbers, *_printed in (*PAPER, SHARED)]
    return [*seven, *(turned(numbers) for numbers in seven), ZEROS]


def alone(_lot):
    """One effect alone, the rest 0: 10^12 and one beyond, the ends of 64 bits, about 2^53, and 1; both signs.

    Of 2^31 and minus 2^32 the low 32 bits alone would say another number.
    """
    sizes = (*AT_LIMIT, LEAST, MOST, *AT_53_BITS, 1, -1, 2**31, -(2**32))
    return [with_place(ZEROS, place, size) for size in sizes for place in PLACES]


# ---- Numbers beyond the limit --------------------------------------------


def beyond_pairs(lot):
    """Two beyond the limit in every pair of places: the rest 0, then the rest at the limit or good by lot."""
    found = []
    for rest in (lambda: ZEROS, lambda: lot.one_of(((LIMIT,) * 7, (-LIMIT,) * 7, accepted(lot), accepted(lot)))):
        for first, second in combinations(PLACES, 2):
            case = with_place(rest(), first, lot.one_of(BEYOND))
            found.append(with_place(case, second, lot.one_of(BEYOND)))
    return found


def beyond_many(lot):
    """Three to seven beyond the limit; then all seven at either end of 64 bits."""
    found = []
    for turn in range(10):
        case, count = tuple(accepted(lot)), 3 + turn % 5
        for place in sorted(PLACES, key=lambda _place: lot.draw())[:count]:
            case = with_place(case, place, lot.one_of(BEYOND))
        found.append(case)
    return [*found, (LEAST,) * 7, (MOST,) * 7]


def among_others(lot):
    """10^12 and one beyond it, with both signs, in each place among good ones."""
    return [with_place(accepted(lot), place, size) for place in PLACES for size in AT_LIMIT]


def digits_of_doubles(_lot):
    """The paper's effects as the digits of doubles: as whole numbers they are far beyond the limit."""
    return [tuple(pattern_of(number) for number in numbers) for numbers, *_printed in PAPER]


# ---- The governing rows --------------------------------------------------

EVERY_ROW = tuple(product((1, -1), range(1, 26)))  # with sign 1 as the greatest sum's, with sign -1 as the least's


def governing(numbers):
    """The row of the greatest sum with sign 1, and that of the least with sign -1."""
    return {(sign, sharing(numbers, sign)[0]) for sign in (1, -1)}


def governing_alone(numbers):
    """Of these the ones that share their sum with no other row."""
    return {(sign, row) for sign, row in governing(numbers) if len(sharing(numbers, sign)) == 1}


def at_limits(lot, signs):
    """Seven at the limit times the signs, in every way there is, put in an order by lot."""
    every = [tuple(LIMIT * sign for sign in seven) for seven in product(signs, repeat=7)]
    return sorted(every, key=lambda _case: lot.draw())


def all_at_limits(lot):
    """All seven at 10^12 or minus 10^12: one for each two rows that then govern together, and the two of one sign."""
    found = {}
    for numbers in at_limits(lot, (1, -1)):
        found.setdefault(frozenset(governing(numbers)), numbers)
    return [(LIMIT,) * 7, (-LIMIT,) * 7, *found.values()]


def limits_and_zeros(lot):
    """10^12 and zeros together, for each row that never is the greatest, or the least, with all seven at the limit."""
    found, wanting = [], set(EVERY_ROW).difference(*map(governing, all_at_limits(lot)))
    for worth, numbers in product((2, 1), at_limits(lot, (1, 0, -1))):
        if len(wanting & governing(numbers)) >= worth:
            found.append(numbers)
            wanting -= governing(numbers)
    require(not wanting, f"rows that do not govern at the limits: {wanting}")
    return found


def rows_alone(lot):
    """Each of the 25 rows is alone the greatest, and alone the least, once at least with no effect 0."""
    found, wanting = [], set(EVERY_ROW)
    while wanting:
        numbers = tuple(lot.one_of((spread, alike, alike, near_limit))(lot))
        if 0 not in numbers and wanting & governing_alone(numbers):
            found.append(numbers)
            wanting -= governing_alone(numbers)
    return found


def two_rows_share(lot):
    """Two rows, seldom more, share the greatest sum, and in every other case the least."""
    points = [tuple(point) for (point,) in passing_points(lot, 300, 1).values()]
    return [turned(point) if at % 2 else point for at, point in enumerate(points[:16])]


def many_rows_share(lot):
    """Three rows or more share the greatest or the least sum, once for each set of rows."""
    found = {}
    for _ in range(200):
        numbers, scale = small(lot), lot.one_of((1, 7, 1_000, LIMIT // 8))
        rows = lot.one_of([(sign, *sharing(numbers, sign)) for sign in (1, -1)])
        if len(rows) > 3:  # a sign, then the rows
            found.setdefault(rows, tuple(number * scale for number in numbers))
    return list(islice(found.values(), 14))


def by_lot(lot):
    """Effects of every habit."""
    shares = ((spread, 10), (alike, 7), (sparse, 5), (common, 6), (near_limit, 7), (small, 4))
    return [tuple(habit(lot)) for habit, count in shares for _ in range(count)]


# ---- All of them ---------------------------------------------------------

MAKERS = (
    paper_cases,
    alone,
    beyond_pairs,
    beyond_many,
    among_others,
    digits_of_doubles,
    all_at_limits,
    limits_and_zeros,
    rows_alone,
    two_rows_share,
    many_rows_share,
    by_lot,
)


def cases_by_kind():
    """The whole numbers kind by kind, in the order of the text."""
    kinds = fresh_by_kind(MAKERS, Lot(20_253_107))
    for name, made in kinds.items():
        require(all(len(case) == 7 for case in made), f"{name}: not seven numbers")
        require(all(LEAST <= number <= MOST for case in made for number in case), f"{name}: not of 64 bits")
    return kinds
