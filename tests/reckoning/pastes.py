"""Reckons a paste, paper 02's CR 1: lines entered 'up to and with the first refused line', and the column then."""

from dataclasses import dataclass
from functools import lru_cache

from reckoning.column import MOST_LINES, Line, ask, enter, open_member, require_asked
from reckoning.lists import at_floor, first_refused


@dataclass(frozen=True)
class Pasted:
    """'How many were kept, and the number of the refusal if there was one', 0 for none; then what the column holds.

    That is: how many lines, the lines in order, and n, X and the figure at their lowest floor, None without lines.
    """

    kept: int
    number: int
    held: int
    lines: tuple
    lowest: tuple | None


# ---- The paste, by entering one line after another -----------------------


def column_holding(code, held):
    """The column of a member that holds these lines; stops where one of them is refused."""
    number, column = open_member(code)
    if number != 0:
        raise AssertionError(f"code {code} is refused")
    for line in held:
        number, column = enter(column, line)
        if number != 0:
            raise AssertionError(f"{line} is to be held, and is refused with {number}")
    return column


@lru_cache(maxsize=None)
def asked_at_lowest(column):
    """n, X and the figure at the lowest floor, held against the paper and E <= F < E + A; None without lines."""
    if not column.lines:
        return None
    floor = column.lines[-1].floor
    answer = ask(column, floor)
    require_asked(column, floor, answer)
    return answer.floors, answer.influence, answer.figure


def pasted_by_entering(code, held, lines):
    """'As entering them one after another would, up to and with the first refused line.'"""
    column, kept, number = column_holding(code, held), 0, 0
    for line in lines:
        number, column = enter(column, line)
        if number != 0:
            break
        kept += 1
    return Pasted(kept, number, len(column.lines), column.lines, asked_at_lowest(column))


# ---- The paste again, by each condition over all the lines at once -------


@lru_cache(maxsize=None)
def lowest_of(code, lines):
    """n, X and the figure at the lowest floor of lines that are accepted one and all, as a list has them."""
    if not lines:
        return None
    found = at_floor(code, lines, lines[-1].floor)
    return found.floors, found.influence, found.figure


def pasted_at_once(code, held, lines):
    """'The lines before that one are kept': the lines held and pasted are one list, cut at its first refused line."""
    joined = held + lines
    refused = first_refused(joined)
    if refused is None:
        return Pasted(len(lines), 0, len(joined), joined, lowest_of(code, joined))
    then = joined[: refused.place - 1]
    return Pasted(len(then) - len(held), refused.refused, len(then), then, lowest_of(code, then))


# ---- Both, and the form of the answer ------------------------------------


def require_form(held, lines, answer):
    """Stops where an answer is none that a paste of these lines on a column of those held can have."""
    refused = answer.number != 0
    right = (
        0 <= answer.kept <= len(lines)
        and answer.lines == held + lines[: answer.kept]
        and answer.held == len(answer.lines) <= MOST_LINES
        and refused == (answer.kept < len(lines))
        and (answer.lowest is None) == (answer.held == 0)
    )
    if refused:
        full = answer.held == MOST_LINES
        right = right and (answer.number == 2 if full else answer.number in range(3, 7))
    if not right:
        raise AssertionError(f"{len(lines)} lines on {len(held)} cannot have the answer {answer}")


def pasted(code, held, lines):
    """'One call for them': the answer for lines of four numbers each on a column that holds lines, both ways alike."""
    before, lent = (tuple(Line(*line) for line in some) for some in (held, lines))
    answer, at_once = pasted_by_entering(code, before, lent), pasted_at_once(code, before, lent)
    if answer != at_once:
        raise AssertionError(f"code {code}, {lent} on {before}: {answer} by entering, {at_once} at once")
    require_form(before, lent, answer)
    return answer
