"""Reckons the seven effects and their 25 combinations from paper 01: refusals, row sums, governing rows, doubles."""

import struct
from dataclasses import dataclass
from fractions import Fraction
from math import isfinite, isnan

from reckoning.reduction import Answer

LIMIT = 1_000_000_000_000
NAMES = ("dead", "live", "roof", "snow", "rain", "wind", "quake")  # D, L, Lr, S, R, W, E


@dataclass(frozen=True)
class Refused:
    """The first refused effect: the paper's number, the effect's name and the double's pattern as it came."""

    number: int
    name: str
    pattern: int


@dataclass(frozen=True)
class RefusedNumber:
    """The first refused of seven whole numbers: the paper's number and the effect's name; there is no double."""

    number: int
    name: str


@dataclass(frozen=True)
class Governing:
    """A governing sum in whole tenths of a newton, and its row."""

    tenths: int
    row: int


@dataclass(frozen=True)
class Combined:
    """The greatest and the least sum."""

    greatest: Governing
    least: Governing


def agreed(first, second, what):
    """What two ways of reckoning give alike; stops where they do not."""
    if first != second:
        raise AssertionError(f"{what}: {first} one way, {second} the other")
    return first


# ---- A double as its 64-bit pattern --------------------------------------


def float_of(pattern):
    """The double that has the pattern."""
    return struct.unpack(">d", pattern.to_bytes(8, "big"))[0]


def fields_of(pattern):
    """The sign (0 or 1), the exponent field (0 to 2047) and the mantissa field (0 to 2^52 - 1)."""
    return pattern >> 63, pattern >> 52 & 2047, pattern & (2**52 - 1)


def is_nan(pattern):
    """Whether the double is no number at all; told from the double and from the fields."""
    _sign, exponent, mantissa = fields_of(pattern)
    return agreed(isnan(float_of(pattern)), exponent == 2047 and mantissa != 0, f"NaN, {pattern:016x}")


def pattern_of(number):
    """The pattern of the double that is exactly a whole number or fraction; zero has no sign."""
    double = float(number)
    if Fraction(double) != number:
        raise AssertionError(f"no double is exactly {number}")
    return int.from_bytes(struct.pack(">d", double), "big")


def whole_pattern(number):
    """The pattern of a whole number below 2^53 in size, put together from its bits."""
    size = abs(number)
    if size == 0:
        return 0
    if size >= 2**53:
        raise AssertionError(f"{number} may not be a double")
    above = size.bit_length() - 1  # size is 2^above and something below it
    mantissa = (size << (52 - above)) - 2**52
    return (2**63 if number < 0 else 0) + ((above + 1023) << 52) + mantissa


def double_of(number):
    """'Also go out as doubles with nothing lost': the pattern of a result, made two ways."""
    return agreed(pattern_of(number), whole_pattern(number), f"double of {number}")


# ---- One effect ----------------------------------------------------------


def effect_by_float(pattern):
    """An effect told from the double as a fraction: its whole number, or number 8 or 9."""
    double = float_of(pattern)
    if not isfinite(double):
        return Answer(refused=8)
    exact = Fraction(double)
    if exact.denominator != 1:
        return Answer(refused=8)
    if abs(exact) > LIMIT:
        return Answer(refused=9)
    return Answer(value=exact.numerator)


def effect_by_fields(pattern):
    """An effect told from the fields, in whole numbers alone: its whole number, or number 8 or 9."""
    sign, exponent, mantissa = fields_of(pattern)
    if exponent == 2047:
        return Answer(refused=8)
    # The size is count * 2^place; without the leading bit where the exponent field is 0.
    count, place = (mantissa, -1074) if exponent == 0 else (mantissa + 2**52, exponent - 1075)
    if place >= 0:
        size, rest = count << place, 0
    else:
        size, rest = count >> -place, count & ((1 << -place) - 1)
    if rest > 0:
        return Answer(refused=8)
    if size >= LIMIT + 1:
        return Answer(refused=9)
    return Answer(value=size if sign == 0 else -size)


def effect(pattern):
    """'An effect must be a whole number within +-1,000,000,000,000'; both ways must agree."""
    return agreed(effect_by_float(pattern), effect_by_fields(pattern), f"effect {pattern:016x}")


def first_refused(patterns):
    """The first refused of the seven effects, D to E as listed, or None."""
    for name, pattern in zip(NAMES, patterns, strict=True):
        number = effect(pattern).refused
        if number is not None:
            return Refused(number, name, pattern)
    return None


# ---- The table of 25 rows by seven, in tenths ----------------------------


def row_of(D=0, L=0, Lr=0, S=0, R=0, W=0, E=0):
    """One row of factors by the letters of the effects."""
    return D, L, Lr, S, R, W, E


def rows_from_sentences():
    """The rows as the paper's sentences give them; 'Q stands for Lr, S, R in turn'."""
    turns = ("Lr", "S", "R")
    rows = [row_of(D=14)]
    rows += [row_of(D=12, L=16, **{q: 5}) for q in turns]
    for q in turns:
        rows += [row_of(D=12, **{q: 16}, **then) for then in ({"L": 10}, {"W": 5}, {"W": -5})]
    for q in turns:
        rows += [row_of(D=12, L=10, **{q: 5}, W=wind) for wind in (10, -10)]
    rows += [row_of(D=12, L=10, S=2, E=quake) for quake in (10, -10)]
    rows += [row_of(D=9, W=wind) for wind in (10, -10)]
    rows += [row_of(D=9, E=quake) for quake in (10, -10)]
    return tuple(rows)


# The same rows typed out: D, L, Lr, S, R, W, E.
TABLE = (
    (14, 0, 0, 0, 0, 0, 0),
    (12, 16, 5, 0, 0, 0, 0),
    (12, 16, 0, 5, 0, 0, 0),
    (12, 16, 0, 0, 5, 0, 0),
    (12, 10, 16, 0, 0, 0, 0),
    (12, 0, 16, 0, 0, 5, 0),
    (12, 0, 16, 0, 0, -5, 0),
    (12, 10, 0, 16, 0, 0, 0),
    (12, 0, 0, 16, 0, 5, 0),
    (12, 0, 0, 16, 0, -5, 0),
    (12, 10, 0, 0, 16, 0, 0),
    (12, 0, 0, 0, 16, 5, 0),
    (12, 0, 0, 0, 16, -5, 0),
    (12, 10, 5, 0, 0, 10, 0),
    (12, 10, 5, 0, 0, -10, 0),
    (12, 10, 0, 5, 0, 10, 0),
    (12, 10, 0, 5, 0, -10, 0),
    (12, 10, 0, 0, 5, 10, 0),
    (12, 10, 0, 0, 5, -10, 0),
    (12, 10, 0, 2, 0, 0, 10),
    (12, 10, 0, 2, 0, 0, -10),
    (9, 0, 0, 0, 0, 10, 0),
    (9, 0, 0, 0, 0, -10, 0),
    (9, 0, 0, 0, 0, 0, 10),
    (9, 0, 0, 0, 0, 0, -10),
)


# ---- The sums of the rows, two ways --------------------------------------


def sums_by_table(numbers, table=TABLE):
    """The sum of each row in tenths of a newton, from the table."""
    d, l, lr, s, r, w, e = numbers
    return [a * d + b * l + c * lr + f * s + g * r + h * w + i * e for a, b, c, f, g, h, i in table]


FIFTH, HALF, NINE_TENTHS = Fraction("0.2"), Fraction("0.5"), Fraction("0.9")
ONE_TWO, ONE_FOUR, ONE_SIX = Fraction("1.2"), Fraction("1.4"), Fraction("1.6")


def sums_by_wording(numbers):
    """The sum of each row in newtons, as ASCE 7-10, 2.3.2 words its seven; each 'or' and each sign is a row."""
    d, l, lr, s, r, w, e = numbers
    any_of = (lr, s, r)  # 'Lr or S or R'
    both_winds, both_quakes = (w, -w), (e, -e)
    first = [ONE_FOUR * d]
    second = [ONE_TWO * d + ONE_SIX * l + HALF * q for q in any_of]
    companions = (l, *(HALF * wind for wind in both_winds))  # 'L or 0.5W'
    third = [ONE_TWO * d + ONE_SIX * q + companion for q in any_of for companion in companions]
    fourth = [ONE_TWO * d + wind + l + HALF * q for q in any_of for wind in both_winds]
    fifth = [ONE_TWO * d + quake + l + FIFTH * s for quake in both_quakes]
    sixth = [NINE_TENTHS * d + wind for wind in both_winds]
    seventh = [NINE_TENTHS * d + quake for quake in both_quakes]
    return first + second + third + fourth + fifth + sixth + seventh


# ---- The governing rows --------------------------------------------------


def governing_by_scan(sums, sign):
    """The governing sum found row after row: a later row only takes over where it is truly beyond."""
    row, best = 1, sums[0]
    for number, tenths in enumerate(sums, start=1):
        if sign * tenths > sign * best:
            row, best = number, tenths
    return Governing(best, row)


def governing_by_order(sums, sign):
    """The governing sum as the first of all pairs of sum and row put in order; sums in newtons."""
    beyond, row = min((-sign * newtons, number) for number, newtons in enumerate(sums, start=1))
    tenths = -sign * beyond * 10
    if tenths.denominator != 1:
        raise AssertionError(f"{tenths} is not in whole tenths")
    return Governing(tenths.numerator, row)


def require_governing(sums, found, sign):
    """Stops where the sum is not its row's, a row is beyond it, or a lower row is not short of it."""
    tenths, row = found.tenths, found.row
    is_its_row = 1 <= row <= 25 and sums[row - 1] == tenths
    none_beyond = all(sign * other <= sign * tenths for other in sums)
    lower_short = all(sign * other < sign * tenths for other in sums[: row - 1])
    if not (is_its_row and none_beyond and lower_short):
        raise AssertionError(f"{found} does not govern {sums}, sign {sign}")


def combined(numbers):
    """'The greatest and the least sum; equal sums give the lowest row', each found two ways and then checked."""
    tenths, newtons = sums_by_table(numbers), sums_by_wording(numbers)
    agreed(tenths, [10 * each for each in newtons], f"sums of {numbers}")
    found = []
    for sign in (1, -1):
        ways = governing_by_scan(tenths, sign), governing_by_order(newtons, sign)
        found.append(agreed(*ways, f"governing row of {numbers}"))
        require_governing(tenths, found[-1], sign)
    return Combined(*found)


def combine(patterns):
    """The greatest and the least sum of seven effects D to E, or the first refused effect."""
    refused = first_refused(patterns)
    if refused is not None:
        return refused
    return combined([effect(pattern).value for pattern in patterns])


# ---- Seven whole numbers -------------------------------------------------


def first_beyond_by_scan(numbers):
    """The place of the first number beyond the limit, going through them D to E, or None."""
    for place, number in enumerate(numbers):
        if number > LIMIT or number < -LIMIT:
            return place
    return None


def first_beyond_by_least(numbers):
    """The least place of all whose number is beyond the limit in size, or None."""
    return min((place for place, number in enumerate(numbers) if abs(number) >= LIMIT + 1), default=None)


def first_beyond(numbers):
    """'Beyond +-1,000,000,000,000', 'D to E as listed': the first such effect's name, or None; both ways must agree."""
    if len(numbers) != 7 or not all(type(number) is int for number in numbers):
        raise AssertionError(f"{numbers} are not seven whole numbers")
    place = agreed(first_beyond_by_scan(numbers), first_beyond_by_least(numbers), f"first beyond of {numbers}")
    return None if place is None else NAMES[place]


def govern(numbers):
    """The greatest and the least sum of seven effects that are whole numbers, or the first beyond the limit.

    Number 8 cannot hold. Within the limit every number is a double too, and the doubles must give the same.
    """
    name = first_beyond(numbers)
    if name is not None:
        return RefusedNumber(9, name)
    return agreed(combined(numbers), combine([double_of(number) for number in numbers]), f"governing {numbers}")
