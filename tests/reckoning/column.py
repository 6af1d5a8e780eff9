"""Reckons a member's column from paper 01: opening, entering lines, asking at a floor, and E <= F < E + A."""

from dataclasses import dataclass
from fractions import Fraction
from functools import lru_cache
from math import isqrt

from reckoning.reduction import factor, is_formula_line, reduced_load, refusal

MOST_LINES = 256
LAST_FLOOR = 64
GREATEST_AREA = 200_000


@dataclass(frozen=True)
class Line:
    """'A line has four decimal numbers': floor, class, load in N/m2, tributary area in dm2."""

    floor: int
    cls: int
    load: int
    area: int


@dataclass(frozen=True)
class Column:
    """An opened member: its factor K and its accepted lines in order."""

    k: int
    lines: tuple = ()


@dataclass(frozen=True)
class Asked:
    """The count n, the influence area X and the figure at a floor, or the number of the refusal."""

    floors: int | None = None
    influence: int | None = None
    figure: int | None = None
    refused: int | None = None


# ---- Opening a member and entering lines ---------------------------------


def open_member(code):
    """The number for opening a member, and the fresh column where it is 0."""
    answer = factor(code)
    if answer.refused is not None:
        return answer.refused, None
    return 0, Column(answer.value)


def floor_is_refused(held, floor):
    """'Floor not 1 to 64, or a smaller number than the last accepted line's.'"""
    return not 1 <= floor <= LAST_FLOOR or (len(held) > 0 and floor < held[-1].floor)


def entry_number(held, line):
    """The number of the first condition to hold for an entry after the lines held, 0 for none."""
    if len(held) >= MOST_LINES:
        return 2
    if floor_is_refused(held, line.floor):
        return 3
    number = refusal(line.load, line.cls)  # 4 for the class, then 5 for the load
    if number is not None:
        return number
    return 0 if 1 <= line.area <= GREATEST_AREA else 6


def enter(column, line):
    """The number for an entry, and the column after it; a refused entry changes nothing."""
    number = entry_number(column.lines, line)
    if number != 0:
        return number, column
    return 0, Column(column.k, column.lines + (line,))


# ---- Asking at a floor ---------------------------------------------------


def carried(column, floor):
    """'At floor f, the lines carried are those with floor at most f.'"""
    return [line for line in column.lines if line.floor <= floor]


def floor_count(lines):
    """'The count n is the number of distinct floors among them.'"""
    return len({line.floor for line in lines})


def influence_area(k, lines):
    """'The influence area X is K times the summed area of the formula lines carried, in dm2.'"""
    return k * sum(line.area for line in lines if is_formula_line(line.load, line.cls))


def figure_of(lines, floors, influence):
    """'The figure at f is the sum of R * area over the lines carried', in hundredths of a newton."""
    return sum(reduced_load(line.load, line.cls, floors, influence).value * line.area for line in lines)


def ask(column, floor):
    """n, X and the figure at a floor; number 7 where 'no accepted line has that floor'."""
    if all(line.floor != floor for line in column.lines):
        return Asked(refused=7)
    lines = carried(column, floor)
    floors, influence = floor_count(lines), influence_area(column.k, lines)
    return Asked(floors, influence, figure_of(lines, floors, influence))


# ---- A whole list of entries at once -------------------------------------


def entries_of(numbers):
    """The entries of a flat list, four numbers each; one to three numbers left at the end are no entry."""
    whole = len(numbers) // 4 * 4
    return [Line(*numbers[at : at + 4]) for at in range(0, whole, 4)]


def column_of(code, numbers):
    """The number for opening, and the column after every entry of a flat list, refused ones passed over."""
    number, column = open_member(code)
    if number == 0:
        for line in entries_of(numbers):
            _number, column = enter(column, line)
    return number, column


def ask_list(code, numbers, floor):
    """Opens a member, enters a flat list and asks at a floor."""
    number, column = column_of(code, numbers)
    return Asked(refused=number) if number != 0 else ask(column, floor)


# ---- The exact total E as plain + times * sqrt(X), using nothing above ----


def sign_of(plain, times, under):
    """The sign (1, 0, -1) of plain + times * sqrt(under), closing in on the root between fractions."""
    root, fineness = isqrt(under), 1
    if times == 0 or root * root == under:
        value = plain + times * root
        return (value > 0) - (value < 0)
    # The root is no fraction, so the value is never 0 and lies strictly between the two ends.
    while True:
        low = Fraction(isqrt(under * fineness**2), fineness)
        ends = (plain + times * low, plain + times * (low + Fraction(1, fineness)))
        if min(ends) >= 0:
            return 1
        if max(ends) <= 0:
            return -1
        fineness *= 2**16


@lru_cache(maxsize=None)
def formula_share(one_floor, influence):
    """'1/4 + 45.7/sqrt(X), at most 1, and at least 1/2 ... 2/5', as (plain, times); X above 0."""
    least = Fraction(1, 2) if one_floor else Fraction(2, 5)
    plain, times = Fraction(1, 4), Fraction(457, 10 * influence)  # 1/sqrt(X) is sqrt(X)/X
    if sign_of(plain - 1, times, influence) > 0:
        return Fraction(1), Fraction(0)
    if sign_of(plain - least, times, influence) < 0:
        return least, Fraction(0)
    return plain, times


def line_share(line, one_floor, influence):
    """The share of any line, as (plain, times)."""
    if line.cls == 1 and line.load <= 5_000:
        return formula_share(one_floor, influence)
    if line.cls == 3 or one_floor:
        return Fraction(1), Fraction(0)
    return Fraction(4, 5), Fraction(0)


def exact_total(lines, influence):
    """'In the exact total E at f, R is replaced by share * Lo': E as (plain, times), line by line."""
    one_floor = all(line.floor == lines[0].floor for line in lines)
    plain = times = Fraction(0)
    for line in lines:
        share = line_share(line, one_floor, influence)
        plain += share[0] * line.load * line.area
        times += share[1] * line.load * line.area
    return plain, times


def bounds_by_closing_in(lines, influence, figure):
    """Whether E <= F, and whether F < E + A, told from the sign of plain + times * sqrt(X)."""
    plain, times = exact_total(lines, influence)
    area = sum(line.area for line in lines)
    lower = sign_of(plain - figure, times, influence) <= 0
    upper = sign_of(plain + area - figure, times, influence) > 0
    return lower, upper


# ---- The paper's own test by G and squares, whole numbers only ------------


def clamped_twentieths(one_floor, influence):
    """The formula lines' share in twentieths where it is clamped, told by squares, else None."""
    if 225 * influence <= 914**2:  # 5 + 914/sqrt(X) >= 20
        return 20
    if one_floor:
        return 10 if 25 * influence >= 914**2 else None
    return 8 if 9 * influence >= 914**2 else None


def bounds_by_squares(lines, influence, figure):
    """Whether E <= F, and whether F < E + A, by the paper's T, P, G and squares."""
    one_floor = min(line.floor for line in lines) == max(line.floor for line in lines)
    area = t = p20 = 0
    for line in lines:
        area += line.area
        if line.cls == 1 and line.load <= 5_000:
            t += line.load * line.area
        else:
            p20 += (20 if line.cls == 3 or one_floor else 16) * line.load * line.area
    clamp = 0 if t == 0 else clamped_twentieths(one_floor, influence)
    if clamp is not None:
        e20 = p20 + clamp * t
        return e20 <= 20 * figure, 20 * figure < e20 + 20 * area
    g = 20 * figure - p20 - 5 * t
    h = g - 20 * area
    lower = g >= 0 and influence * g**2 >= (914 * t) ** 2
    upper = h < 0 or influence * h**2 < (914 * t) ** 2
    return lower, upper


# ---- Checks of what goes into a stored text ------------------------------


def conditions(held, line):
    """The table's conditions for entering a line, by number, each told for itself."""
    last = max((before.floor for before in held), default=0)  # floors never fall, so the last is the greatest
    return {
        2: len(held) == 256,
        3: line.floor not in range(1, 65) or line.floor < last,
        4: line.cls not in (1, 2, 3),
        5: line.load not in range(1, 50_001),
        6: line.area not in range(1, 200_001),
    }


def require_first(column, line, number):
    """Stops where the number for an entry is not that of the first condition to hold."""
    holding = [which for which, holds in conditions(column.lines, line).items() if holds]
    if number != min(holding, default=0):
        raise AssertionError(f"entry {line} after {column}: number {number}, conditions {holding}")


def require_refused_rightly(column, floor, answer):
    """Stops where number 7 is given although an accepted line has the floor, or another number is."""
    if answer.refused != 7 or floor in [line.floor for line in column.lines]:
        raise AssertionError(f"refused for nothing, floor {floor} of {column}: {answer}")


def require_count_and_influence(column, floor, answer):
    """Stops where n or X is not the paper's, or no accepted line has the floor."""
    lines = [line for line in column.lines if not line.floor > floor]
    present = [which for which in range(1, 65) if any(line.floor == which for line in lines)]
    if present[-1:] != [floor] or answer.floors != len(present):
        raise AssertionError(f"wrong floor or count, floor {floor} of {column}: {answer}")
    if answer.influence != sum(column.k * line.area for line in lines if line.cls == 1 and line.load < 5_001):
        raise AssertionError(f"wrong influence area, floor {floor} of {column}: {answer}")


def require_bounds(column, floor, answer):
    """Stops where E <= F < E + A does not hold, by either test, or where the tests do not agree."""
    lines = [line for line in column.lines if not line.floor > floor]
    told = (
        bounds_by_closing_in(lines, answer.influence, answer.figure),
        bounds_by_squares(lines, answer.influence, answer.figure),
    )
    if told != ((True, True), (True, True)):
        case = f"floor {floor} of {column}: {answer}"
        raise AssertionError(f"E <= F and F < E + A by closing in, then by squares, is {told}, {case}")


def require_asked(column, floor, answer):
    """Stops where an answer at a floor is not the paper's."""
    if answer.refused is not None:
        require_refused_rightly(column, floor, answer)
    else:
        require_count_and_influence(column, floor, answer)
        require_bounds(column, floor, answer)
