"""Reckons the factor K of a member and the reduced live load R of a line, from paper 01 and without the proved code."""

from dataclasses import dataclass
from fractions import Fraction
from math import ceil, isqrt


@dataclass(frozen=True)
class Answer:
    """Either a value or the paper's number of a refusal; the other one is None."""

    value: int | None = None
    refused: int | None = None


# ---- Table 4.2 -----------------------------------------------------------

TABLE_4_2 = {
    1: ("interior column", 4),
    2: ("exterior column, no cantilever slab", 4),
    3: ("edge column with cantilever slab", 3),
    4: ("corner column with cantilever slab", 2),
    5: ("edge beam, no cantilever slab", 2),
    6: ("interior beam", 2),
    7: ("edge beam with cantilever slab", 1),
    8: ("cantilever beam", 1),
    9: ("one-way slab", 1),
    10: ("two-way slab", 1),
    11: ("no continuous shear transfer", 1),
    12: ("any other", 1),
}


def factor(code):
    """'A member has a code, 1 to 12, and by Table 4.2 a factor K'; else number 1."""
    if code not in TABLE_4_2:
        return Answer(refused=1)
    _name, k = TABLE_4_2[code]
    return Answer(value=k)


# ---- Kinds of line -------------------------------------------------------

ORDINARY = 1
GARAGE = 2
ASSEMBLY = 3
GREATEST_FORMULA_LOAD = 5_000
GREATEST_LOAD = 50_000


def is_formula_line(load, cls):
    """'A formula line has class 1 and Lo at most 5,000.'"""
    return cls == ORDINARY and load <= GREATEST_FORMULA_LOAD


def floors_carried(floors):
    """The count n; paper 01 gives no n of 0 (no floor carried), here it is taken as 1."""
    return max(floors, 1)


# ---- The share -----------------------------------------------------------

QUARTER = Fraction(1, 4)
ROOT_NUMBER = Fraction(457, 10)  # 45.7, which is 4.57 with lengths in dm
CAP = Fraction(1)


def least_share(floors):
    """'At least 1/2 where n is 1, 2/5 where n is 2 or more.'"""
    return Fraction(1, 2) if floors_carried(floors) == 1 else Fraction(2, 5)


def formula_reaches(bound, influence):
    """Whether 1/4 + 45.7/sqrt(X) is at least the bound, told by squares; the bound is above 1/4."""
    # 45.7/sqrt(X) >= bound - 1/4 says 45.7^2 >= X * (bound - 1/4)^2.
    # X = 0: paper 01 gives no share there; the squares hold for any bound, so the share is the cap, 1.
    return ROOT_NUMBER**2 >= influence * (bound - QUARTER) ** 2


def clamped_share(floors, influence):
    """The share of a formula line where the cap or the least share stands, else None (the root stands)."""
    if formula_reaches(CAP, influence):
        return CAP
    if not formula_reaches(least_share(floors), influence):
        return least_share(floors)
    return None


def other_share(cls, floors):
    """'Class 2, and class 1 above 5,000: share 1 where n is 1, else 4/5 ... Class 3: share 1.'"""
    if cls == ASSEMBLY or floors_carried(floors) == 1:
        return Fraction(1)
    return Fraction(4, 5)


# ---- The reduced load ----------------------------------------------------


def round_up_quotient(number, divisor):
    """The least whole number not below number / divisor."""
    return -(-number // divisor)


def round_up_root(number):
    """The least whole number not below the square root of a whole number."""
    return isqrt(number - 1) + 1 if number > 0 else 0


def uncapped_load(load, influence):
    """The least whole R not below (1/4 + 45.7/sqrt(X)) * Lo, neither capped nor held up; X above 0."""
    # Times 20: 20R >= 5Lo + 914Lo/sqrt(X). The term 914Lo/sqrt(X) is the root of (914Lo)^2/X.
    # 20R - 5Lo is whole, so it may be held against that term rounded up: the same R, nothing is lost.
    # The root of X itself is never rounded.
    term_squared = round_up_quotient((914 * load) ** 2, influence)
    term = round_up_root(term_squared)
    return round_up_quotient(5 * load + term, 20)


def accepted_load(load, cls, floors, influence):
    """'The reduced load R is the least whole number not below share * Lo'; rounded up once."""
    if is_formula_line(load, cls):
        share = clamped_share(floors, influence)
    else:
        share = other_share(cls, floors)
    if share is None:
        return uncapped_load(load, influence)
    return ceil(share * load)


def refusal(load, cls):
    """The first of 'class not 1 to 3' (4) and 'load not 1 to 50,000' (5) to hold, else None."""
    if not ORDINARY <= cls <= ASSEMBLY:
        return 4
    if not 1 <= load <= GREATEST_LOAD:
        return 5
    return None


def reduced_load(load, cls, floors, influence):
    """R of (load, class, n, X), X in dm2, or the number of the refusal."""
    number = refusal(load, cls)
    if number is not None:
        return Answer(refused=number)
    return Answer(value=accepted_load(load, cls, floors, influence))


# ---- Definition check: the paper's sentences alone, using nothing above ---


def is_not_below(load, cls, floors, influence, r):
    """Whether the whole number r is not below share * Lo, for a line that is not refused."""
    one_floor = floors == 1 or floors == 0  # n = 0 is taken as n = 1, as above
    if cls == 3:
        return r >= load
    if cls == 2 or load > 5_000:
        return r >= load if one_floor else 5 * r >= 4 * load
    at_least = 2 * r >= load if one_floor else 5 * r >= 2 * load
    at_most = r >= load
    # With X = 0 the squares never hold for a load of 1 or more, so the cap decides.
    formula = 4 * r >= load and 25 * influence * (4 * r - load) ** 2 >= (914 * load) ** 2
    return at_least and (at_most or formula)


def is_least(load, cls, floors, influence, r):
    """'The least whole number not below share * Lo': r is not below it, r - 1 is."""
    return is_not_below(load, cls, floors, influence, r) and not is_not_below(
        load, cls, floors, influence, r - 1
    )
