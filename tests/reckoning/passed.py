"""Reckons which entries of a list are passed over, entered one after another and going on past refused ones."""

from dataclasses import dataclass
from itertools import accumulate

from reckoning.column import GREATEST_AREA, LAST_FLOOR, MOST_LINES, conditions, entries_of, open_member
from reckoning.combination import agreed
from reckoning.lists import numbers_and_column, parting_place
from reckoning.reduction import GREATEST_LOAD, TABLE_4_2


@dataclass(frozen=True)
class Passed:
    """How many entries are refused, and the paper's number and the place of the first one; all 0 where none is."""

    count: int = 0
    first: int = 0
    place: int = 0


# ---- By entering ----------------------------------------------------------


def passed_by_entering(code, entries):
    """Each entry on the column of the entries before it; those with another number than 0 are counted."""
    number, column = open_member(code)
    if number != 0:
        return Passed()  # 'no entry is looked at'
    numbers, _column = numbers_and_column(column, entries)
    refused = [(number, place) for place, number in enumerate(numbers, start=1) if number != 0]
    return Passed(len(refused), *refused[0]) if refused else Passed()


# ---- By the accepted lines, with nothing entered --------------------------


def is_good_alone(line):
    """Whether no condition holds that looks at nothing but the line's own four numbers."""
    floor_and_class = line.floor in range(1, LAST_FLOOR + 1) and line.cls in (1, 2, 3)
    return floor_and_class and line.load in range(1, GREATEST_LOAD + 1) and line.area in range(1, GREATEST_AREA + 1)


def accepted_of(entries):
    """The accepted lines of a list on a fresh column, told from the whole list.

    Floors of accepted lines never fall, and a line good alone is refused for its floor only where an accepted one
    above has a greater one. So the last accepted line's floor is the greatest of all lines good alone so far, and
    those that have the greatest floor up to themselves are accepted: the first 256 of them.
    """
    good = [line for line in entries if is_good_alone(line)]
    greatest = accumulate((line.floor for line in good), max)
    return tuple(line for line, most in zip(good, greatest) if line.floor == most)[:MOST_LINES]


def passed_by_accepted(code, entries):
    """What is not accepted is passed over; the list and its accepted lines part at the first refused entry."""
    if code not in TABLE_4_2:
        return Passed()
    accepted = accepted_of(entries)
    place = parting_place(entries, accepted)
    if place is None:
        return Passed()
    above, line = entries[: place - 1], entries[place - 1]
    first = min(number for number, holds in conditions(above, line).items() if holds)
    return Passed(len(entries) - len(accepted), first, place)


# ---- Both -----------------------------------------------------------------


def passed_over(code, numbers):
    """What is passed over of a flat list, four numbers an entry, both ways alike."""
    entries = entries_of(numbers)
    ways = passed_by_entering(code, entries), passed_by_accepted(code, entries)
    return agreed(*ways, f"passed over, code {code}, {entries}")
