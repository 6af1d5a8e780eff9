"""Makes the questions of the trial about single doubles, as 64-bit patterns: whole numbers, fractions, the limit."""

from fractions import Fraction

from reckoning.combination import LIMIT, pattern_of
from reckoning.trial_reduction import Lot

MINUS = 2**63  # the sign bit
INFINITY = 2047 << 52
GREATEST_FINITE = INFINITY - 1
QUIET = 2**51  # the leading mantissa bit of a quiet NaN
LEAST_NORMAL = 1 << 52
BOTH_SIGNS = (0, MINUS)


def signed(patterns):
    """Each pattern with both signs."""
    return [pattern ^ sign for pattern in patterns for sign in BOTH_SIGNS]


def exactly(numbers):
    """The patterns of numbers that are doubles."""
    return [pattern_of(number) for number in numbers]


def beside(pattern):
    """The next double down in size, the double itself, and the next one up; for sizes above 0."""
    return pattern - 1, pattern, pattern + 1


# ---- Whole numbers -------------------------------------------------------


def small_wholes(_lot):
    """0 and minus 0, and every whole number to 150 with both signs."""
    return signed(exactly(range(151)))


def wholes_by_lot(lot):
    """Whole numbers of every size to 10^13, with both signs."""
    found = []
    for bits in range(1, 45):
        most = min(2**bits - 1, 10 * LIMIT)
        found += [lot.between(2 ** (bits - 1), most) * lot.one_of((1, -1)) for _ in range(8)]
    return exactly(found)


def at_53_bits(_lot):
    """Whole numbers and halves about 2^51, 2^52 and 2^53, where doubles stop having a fraction."""
    halves = [Fraction(2 * 2**51 + step, 2) for step in range(-6, 7)]
    below = [Fraction(2 * 2**52 - step, 2) for step in range(1, 10)]
    above = [2**52 + step for step in range(10)]
    wholes = [2**53 - step for step in range(10)] + [2**53 + 2 * step for step in range(1, 10)]
    return signed(exactly([*halves, *below, *above, *wholes]))


# ---- Powers of two and their neighbours ----------------------------------


def power(exponent):
    """The pattern of a power of two, 2^-1074 to 2^1023; a single mantissa bit below 2^-1022."""
    return 1 << (exponent + 1074) if exponent < -1022 else (exponent + 1023) << 52


def powers(_lot):
    """Every power of two, the double below it and the double above it, with both signs.

    So each exponent field from 1 to 2046 comes with mantissa fields of no bit, of the lowest bit and of all bits.
    """
    return signed(pattern for exponent in range(-1074, 1024) for pattern in beside(power(exponent)))


# ---- Fractions -----------------------------------------------------------


def subnormals(lot):
    """Doubles with exponent field 0: the least, the greatest, and some of every size."""
    least, greatest = range(1, 25), range(LEAST_NORMAL - 8, LEAST_NORMAL + 8)
    return signed([*least, *greatest, *(lot.between(2 ** (bits - 1), 2**bits - 1) for bits in range(1, 53))])


def halves(lot):
    """n + 1/2 for small n and for n of every size that leaves room for it."""
    sizes = [*range(41), *(lot.between(2 ** (bits - 1), 2**bits - 1) for bits in range(6, 52))]
    return signed(exactly(size + Fraction(1, 2) for size in sizes))


def small_parts(lot):
    """n + 2^-k and n - 2^-k, from one half down to the last bit of the mantissa."""
    found = []
    for k in range(1, 53):
        for bits in (1, 27 - k // 2, 53 - k):
            size = lot.between(2 ** (bits - 1), 2**bits - 1)
            found += [(size + Fraction(step, 2**k)) * lot.one_of((1, -1)) for step in (1, -1)]
    return exactly(found)


def with_last_bit(lot, above, place):
    """A number from 2^above to 2^(above + 1) whose last bit stands for 2^place; the bits between are by lot."""
    between = lot.draw() % 2 ** (above - place - 1) * 2 if above - place > 1 else 0
    return (2 ** (above - place) + between + (above > place)) * Fraction(2) ** place


def at_units_place(lot):
    """For each size the last bit stands for 1/4, 1/2, 1, 2 and 4: whole or not by one place."""
    found = []
    for above in range(61):
        for place in (-2, -1, 0, 1, 2):
            if 0 <= above - place <= 52:
                found.append(with_last_bit(lot, above, place) * lot.one_of((1, -1)))
    return exactly(found)


# ---- The limit -----------------------------------------------------------


def at_limit(_lot):
    """10^12 and the doubles beside it, which are fractions, and whole numbers and halves near and far beyond."""
    parts = [Fraction(1, 2**k) for k in range(1, 14)]
    near = [LIMIT + sign * part for part in parts for sign in (1, -1)]
    steps = [LIMIT + sign * step for step in (*range(1, 31), 100, 4_096, 10**6) for sign in (1, -1)]
    halves_beyond = [LIMIT + step + Fraction(1, 2) for step in (*range(1, 12), 10**6, 10**12)]
    far = [LIMIT + 2**k for k in range(5, 53)] + [2 * LIMIT, *(10**n for n in range(10, 23))]
    cut = [2**64 + 2**k for k in range(12, 40)]  # in the low 64 bits these are within the limit
    return signed([*beside(pattern_of(LIMIT)), *exactly([*near, *steps, *halves_beyond, *far, *cut])])


# ---- No numbers, and any pattern -----------------------------------------


def no_numbers(lot):
    """The greatest finite doubles, the infinities, and NaNs: quiet and signalling, with several payloads."""
    payloads = [1, 2, 3, 2**31, 2**32, 2**50, 2**51 - 1, *(lot.between(1, 2**51 - 1) for _ in range(12))]
    signalling = [INFINITY + payload for payload in payloads]
    quiet = [INFINITY + QUIET + payload for payload in (0, *payloads)]
    finite = [GREATEST_FINITE - step for step in range(4)]
    return signed([*finite, INFINITY, *signalling, *quiet])


def patterns_by_lot(lot):
    """Patterns by lot, of every size and every exponent field about the units and the limit."""
    about = [(exponent << 52) + lot.draw() % 2**52 for exponent in range(1_020, 1_085) for _ in range(2)]
    return [lot.draw() for _ in range(300)] + [pattern ^ lot.one_of(BOTH_SIGNS) for pattern in about]


# ---- All of them ---------------------------------------------------------

MAKERS = (
    small_wholes,
    powers,
    subnormals,
    halves,
    small_parts,
    at_units_place,
    at_53_bits,
    at_limit,
    no_numbers,
    wholes_by_lot,
    patterns_by_lot,
)


def fresh_by_kind(makers, lot):
    """The cases kind by kind, in the order of the makers; a case of an earlier kind is not asked again."""
    seen, kinds = set(), {}
    for maker in makers:
        fresh = [case for case in dict.fromkeys(maker(lot)) if case not in seen]
        seen.update(fresh)
        kinds[maker.__name__] = fresh
    return kinds


def cases_by_kind():
    """The patterns kind by kind, in the order of the text."""
    return fresh_by_kind(MAKERS, Lot(20_250_729))
