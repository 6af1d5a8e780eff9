"""Reckons the call over a list of lines from paper 01: n, X and the figure at a floor, or the first refusal's place."""

from bisect import bisect_left
from dataclasses import dataclass
from functools import lru_cache
from itertools import count, pairwise, zip_longest

from reckoning.column import GREATEST_AREA, LAST_FLOOR, MOST_LINES, Line, ask, enter, open_member, require_asked
from reckoning.reduction import GREATEST_LOAD, TABLE_4_2, is_not_below

NO_PLACE = 0  # 'the place is 0 for numbers 1 and 7'


@dataclass(frozen=True)
class Listed:
    """n, X and the figure at the floor, or 'the number and place of the first one, and no figure'."""

    floors: int | None = None
    influence: int | None = None
    figure: int | None = None
    refused: int | None = None
    place: int | None = None


# ---- The first refused line: each condition over the whole list ----------

# A condition is told of a place, the line above it (None at place 1) and the line there, as though every line above
# were accepted. Up to the first place where one holds this is so: 'held' is then every line above, and 'the last
# accepted' the one just above. Of all the places found only that first one is used.


def is_one_too_many(place, _above, _line):
    """Number 2, '256 lines held': 'places count from 1', so place - 1 lines are held."""
    return place - 1 >= MOST_LINES


def has_wrong_floor(_place, above, line):
    """Number 3, 'floor not 1 to 64, or a smaller number than the last accepted line's'."""
    return not 1 <= line.floor <= LAST_FLOOR or (above is not None and line.floor < above.floor)


def has_wrong_class(_place, _above, line):
    """Number 4, 'class not 1 to 3'."""
    return line.cls not in (1, 2, 3)


def has_wrong_load(_place, _above, line):
    """Number 5, 'load not 1 to 50,000'."""
    return not 1 <= line.load <= GREATEST_LOAD


def has_wrong_area(_place, _above, line):
    """Number 6, 'area not 1 to 200,000'."""
    return not 1 <= line.area <= GREATEST_AREA


# 'Entering a line, in this order.'
CONDITIONS = {2: is_one_too_many, 3: has_wrong_floor, 4: has_wrong_class, 5: has_wrong_load, 6: has_wrong_area}


def first_place(holds, lines):
    """The first place where a condition holds, or None."""
    holding = map(holds, count(1), (None, *lines), lines)
    return next((place for place, held in enumerate(holding, start=1) if held), None)


def first_refused(lines):
    """'The number and place of the first one'; at one place the least number, in the table's order; else None."""
    places = {number: first_place(holds, lines) for number, holds in CONDITIONS.items()}
    found = min(((place, number) for number, place in places.items() if place is not None), default=None)
    return None if found is None else Listed(refused=found[1], place=found[0])


# ---- The figure of a list with no refused line ---------------------------


def carried_lines(lines, floor):
    """'The lines carried are those with floor at most f': floors never fall, so the list to the floor's last line."""
    last = max(place for place, line in enumerate(lines, start=1) if line.floor == floor)
    return lines[:last]


def count_of_floors(lines):
    """'The number of distinct floors': one, and one more wherever the floor is not that of the line above."""
    return 1 + sum(above.floor != line.floor for above, line in pairwise(lines))


def summed_formula_area(lines):
    """The summed area of the lines with 'class 1 and Lo at most 5,000', in dm2."""
    return sum(line.area for line in lines if line.cls == 1 and line.load < 5_001)


@lru_cache(maxsize=None)
def least_load(load, cls, floors, influence):
    """'R is the least whole number not below share * Lo': found by halving 0 to Lo, for no share is above 1."""
    return bisect_left(range(load + 1), True, key=lambda r: is_not_below(load, cls, floors, influence, r))


def at_floor(code, lines, floor):
    """n, X and the figure, 'the sum of R * area over the lines carried'; some line has the floor."""
    _member, k = TABLE_4_2[code]
    carried = carried_lines(lines, floor)
    floors, influence = count_of_floors(carried), k * summed_formula_area(carried)
    figure = sum(least_load(line.load, line.cls, floors, influence) * line.area for line in carried)
    return Listed(floors, influence, figure)


# ---- The call ------------------------------------------------------------


def listed_at_once(code, lines, floor):
    """'Such a call checks the code, then the lines, then the floor that is wanted.'"""
    if code not in TABLE_4_2:
        return Listed(refused=1, place=NO_PLACE)
    refused = first_refused(lines)
    if refused is not None:
        return refused
    if floor not in {line.floor for line in lines}:
        return Listed(refused=7, place=NO_PLACE)
    return at_floor(code, lines, floor)


# ---- The call again, by opening a member, entering and asking ------------


def numbers_and_column(column, lines):
    """The number for each line entered in turn, refused ones passed over, and the column after all of them."""
    numbers = []
    for line in lines:
        number, column = enter(column, line)
        numbers.append(number)
    return numbers, column


def parting_place(lines, accepted):
    """The first place where the list and its accepted lines part, or None.

    That is the place of the first refused line: what is accepted in its stead, if anything, was accepted by the very
    column that refused it, and so is another line.
    """
    pairs = enumerate(zip_longest(lines, accepted), start=1)
    return next((place for place, (line, taken) in pairs if line != taken), None)


def asked_at(column, floor):
    """The answer at a floor of a column, held against the paper and E <= F < E + A."""
    answer = ask(column, floor)
    require_asked(column, floor, answer)
    place = None if answer.refused is None else NO_PLACE
    return Listed(answer.floors, answer.influence, answer.figure, answer.refused, place)


def listed_by_entering(code, lines, floor):
    """The lines entered one by one on the column of the lines before; the first number other than 0 is the answer."""
    number, column = open_member(code)
    if number != 0:
        return Listed(refused=number, place=NO_PLACE)
    numbers, column = numbers_and_column(column, lines)
    place = next((place for place, number in enumerate(numbers, start=1) if number != 0), None)
    if place != parting_place(lines, column.lines):
        raise AssertionError(f"{lines} and the accepted lines do not part at {place}")
    if place is not None:
        return Listed(refused=numbers[place - 1], place=place)
    return asked_at(column, floor)


# ---- Both, and the form of the answer ------------------------------------


def require_form(lines, answer):
    """Stops where an answer is neither three numbers nor a number with the place that it may have."""
    figure_given = None not in (answer.floors, answer.influence, answer.figure)
    nothing_given = (answer.floors, answer.influence, answer.figure) == (None, None, None)
    if answer.refused is None:
        right = figure_given and answer.place is None
    elif answer.refused in (1, 7):
        right = nothing_given and answer.place == 0
    else:
        right = nothing_given and answer.refused in range(2, 7) and 1 <= answer.place <= len(lines)
        right = right and (answer.place == 257 if answer.refused == 2 else answer.place <= 256)
    if not right:
        raise AssertionError(f"{len(lines)} lines cannot have the answer {answer}")


def listed(code, lines, floor):
    """'The take-down works over such a list too': the answer for lines of four numbers each, both ways alike."""
    lent = tuple(Line(*line) for line in lines)
    answer, entered = listed_at_once(code, lent, floor), listed_by_entering(code, lent, floor)
    if answer != entered:
        raise AssertionError(f"code {code}, floor {floor} of {lent}: {answer} at once, {entered} by entering")
    require_form(lent, answer)
    return answer
