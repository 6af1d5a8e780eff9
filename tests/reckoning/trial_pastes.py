"""Makes the pastes of the trial of CR 1, 'a whole floor pasted in', kind by kind, each with its reckoned answer."""

from collections import Counter
from functools import lru_cache
from itertools import pairwise, product

from reckoning.column import GREATEST_AREA, LAST_FLOOR, MOST_LINES, Line, conditions, entry_number
from reckoning.lists import first_refused
from reckoning.paper import INTERIOR, SHEET
from reckoning.pastes import pasted
from reckoning.reduction import GREATEST_LOAD
from reckoning.trial_column import (
    CODES_BY_FACTOR,
    EDGES,
    FAULTS,
    FLOOR_COLUMNS,
    MIXED_COLUMNS,
    PLAIN,
    TRIED,
    edge_entries,
    rising_lines,
    some_line,
    spoiled,
    with_part,
)
from reckoning.trial_lists import (
    CODES,
    FALLING,
    FIVE_LINES,
    LARGEST,
    LIMIT_NUMBERS,
    LINE_NUMBERS,
    LOWEST_LINE,
    TOP_LINE,
    last_floor,
    lines_by_lot,
    raised,
    refused_line,
    refused_then_others,
    repeated_lines,
    with_refused,
)
from reckoning.trial_reduction import GREATEST, Lot, require
from reckoning.trial_whole import fresh_by_kind

SEED = 20_250_257
LIST_COUNTS = (0, 1, 40, 256, 300)  # how many lines are pasted
HELD_COUNTS = (0, 1, 100, 255, 256)  # how many the column holds before
HELD_BEFORE_2 = (*HELD_COUNTS, 2, 3, 50, 99, 101, 127, 128, 129, 200, 250, 253, 254)
LEAST_EACH, LEAST_BY_CODE = 50, 3  # how often each number and each feature is met, and each number with each code


# ---- A case and its answer -----------------------------------------------


def case(code, held, lines):
    """A paste: the code, the lines that the column holds first, and the lines pasted, each of four numbers."""
    return code, tuple(tuple(line) for line in held), tuple(tuple(line) for line in lines)


def cut(code, joined, held):
    """A paste made of one list: its first so many lines are held, the others pasted."""
    return case(code, joined[:held], joined[held:])


@lru_cache(maxsize=None)
def answer(asked):
    """The reckoned answer of a case; reckoned once."""
    return pasted(*asked)


def refused(asked, number, place):
    """A case that is known to be refused at a place of the list; stops where another answer is reckoned."""
    found = answer(asked)
    if (found.number, found.kept) != (number, place - 1):
        raise AssertionError(f"{asked} is to be refused with {number} at {place}, reckoned {found}")
    return asked


def kept_all(asked):
    """A case that is known to keep every line; stops where another answer is reckoned."""
    found = answer(asked)
    if (found.number, found.kept) != (0, len(asked[2])):
        raise AssertionError(f"{asked} is to keep every line, reckoned {found}")
    return asked


def kept_as_far_as_room(asked):
    """A case of good lines: all are kept where there is room, else number 2 comes at the first that has none."""
    _code, held, lines = asked
    room = MOST_LINES - len(held)
    return kept_all(asked) if len(lines) <= room else refused(asked, 2, room + 1)


# ---- The paper's columns -------------------------------------------------


def paper_columns(_lot):
    """The column of 6,000 and 2,000 and that of the sample sheet: pasted whole, in part, not at all, turned about."""
    found = []
    for code, lines, printed in (INTERIOR, SHEET):
        _floor, *numbers = printed[-1]
        for held in (0, 1, 2):
            found.append(kept_all(cut(code, lines, held)))
            require(answer(found[-1]).lowest == tuple(numbers), f"{found[-1]} is to give the printed {numbers}")
        found += [kept_all(case(code, (), lines[:1])), kept_all(case(code, lines[:1], ()))]
        found += [refused(case(code, (), lines[::-1]), 3, 2), refused(case(code, lines[1:], lines[:1]), 3, 1)]
        found += [refused(case(code, lines, lines), 3, 1), kept_all(case(code, lines[:1], lines))]
    return found


def nothing_pasted(lot):
    """The empty list, for every code, on columns of no line to 256 lines: nothing is kept, and nothing refused."""
    found = []
    for code in CODES:
        counts = (0, 1, 2, 7, (40, 100, 255, 256)[code % 4])
        found += [kept_all(case(code, rising_lines(lot, count, 9), ())) for count in counts]
    return found


def every_code(lot):
    """Every member of Table 4.2 with the same lines and with lines by lot, held and pasted in all parts."""
    found = [kept_all(cut(code, FIVE_LINES, held)) for code, held in product(CODES, range(6))]
    for code, number in product(CODES, (*LINE_NUMBERS, *LINE_NUMBERS)):
        lines = lines_by_lot(lot, 6, 0)
        place = lot.between(1, 6)
        held = lot.between(0, place - 1)
        found.append(kept_all(cut(code, lines, held)))
        found.append(refused(cut(code, with_refused(lot, lines, place, number), held), number, place - held))
    return found


# ---- How many lines are held and pasted ----------------------------------


def counts_of_good_lines(lot):
    """Every count pasted on every count held, all lines good: each pair for several codes."""
    found = []
    for turn, (held, count) in enumerate(product(HELD_COUNTS, LIST_COUNTS)):
        for code in (1 + turn % 12, 1 + (turn + 5) % 12):
            lines = rising_lines(lot, held + count, lot.one_of((64, 20, 3, 1)))
            found.append(kept_as_far_as_room(cut(code, lines, held)))
    return found


def counts_with_refused_lines(lot):
    """Every count pasted on every count held, with a refused line: first, last with room, between, and past the room.

    The last of these, as every line on a full column, has number 2 whatever its faults. An empty list has none.
    """
    found = []
    for turn, (held, count) in enumerate(product(HELD_COUNTS, LIST_COUNTS[1:])):
        room = MOST_LINES - held
        most = min(count, room)
        places = {1, max(most, 1), lot.between(1, max(most, 1)), min(count, room + 1)}
        for step, place in enumerate(sorted(places)):
            number = LINE_NUMBERS[(turn + step) % 4]
            good = rising_lines(lot, held + count, lot.one_of((64, 20, 3, 1)))
            asked = cut(lot.between(1, 12), with_refused(lot, good, held + place, number), held)
            found.append(refused(asked, number if place <= room else 2, place))
    return found


def forty_lines(lot):
    """'Offices paste forty lines': of one floor or of several, on any column, good ones and one that is refused."""
    found = []
    for number in (0, *LINE_NUMBERS) * 12:
        held, floors = lot.one_of((0, 1, 7, 40, 80)), lot.one_of((1, 1, 2, 8))
        good = rising_lines(lot, held, 3) + [some_line(lot, 3 + at * floors // 40) for at in range(40)]
        place, code = lot.between(1, 40), lot.between(1, 12)
        if number == 0:
            found.append(kept_all(cut(code, good, held)))
        else:
            found.append(refused(cut(code, with_refused(lot, good, held + place, number), held), number, place))
    return found


# ---- Number 2 ------------------------------------------------------------


def filled_columns(lot):
    """On columns of many counts: lists that fill them, with one line too many, and with several."""
    found = []
    for held in HELD_BEFORE_2:
        lines = rising_lines(lot, 262, lot.one_of((64, 30, 5, 1)))
        code, more = lot.between(1, 12), lot.between(2, 6)
        found.append(kept_all(cut(code, lines[:256], held)))
        found.append(refused(cut(code, lines[:257], held), 2, 257 - held))
        found.append(refused(cut(code, lines[: 256 + more], held), 2, 257 - held))
    return found


def faults_past_the_room(lot):
    """Every set of faults in the 257th line, which has number 2 all the same, and in the 256th, which has its own."""
    found = []
    good = rising_lines(lot, 256, 40)
    for parts, held in product(FAULTS, (256, 255, 254, 230)):
        bad = spoiled(lot, (40, 1, 2_000, 50), parts, 40)
        code, more = lot.between(1, 12), [some_line(lot, 40) for _ in range(lot.between(0, 3))]
        found.append(refused(cut(code, [*good, bad, *more], held), 2, 257 - held))
        if held < 256:
            bad = spoiled(lot, good[255], parts, good[254][0])
            found.append(refused(cut(code, [*good[:255], bad, *more], held), 3 + parts[0], 256 - held))
    return found


# ---- Where the first refused line is -------------------------------------


def refused_at_each_place(lot):
    """A list refused at each place 1 to 256 with each of the numbers 3 to 6, on no line or few, with others below.

    The lines above are the same for the four numbers, so that the figure then is reckoned once.
    """
    found = []
    goods = [rising_lines(lot, 256, floors) for floors in (50, 20, 3, 64)]
    for place in range(1, 257):
        held, code = min(lot.one_of((0, 0, 1, 2, 3)), 256 - place), lot.between(1, 12)
        above = goods[place % 4][: held + place - 1]
        for number in LINE_NUMBERS:
            lines = refused_then_others(lot, above, number)
            found.append(refused(cut(code, lines, held), number, place))
    return found


def first_or_last_refused(lot):
    """Lists of which only the first or only the last line is refused."""
    found = []
    for count, held, number in product((1, 2, 3, 6, 20), (0, 1, 5), LINE_NUMBERS):
        good = rising_lines(lot, held + count, min(held + count, 5))
        for place in (1, count):
            lines = with_refused(lot, good, held + place, number)
            found.append(refused(cut(lot.between(1, 12), lines, held), number, place))
    return found


def good_lines_below(lot):
    """A refused line and below it nothing but lines that the column would accept: they are not looked at."""
    found = []
    for number, held in product(LINE_NUMBERS * 5, (0, 1, 4)):
        above = rising_lines(lot, held + lot.between(0, 5), 6)
        last = last_floor(above)
        below = [some_line(lot, min(64, last + at // 2)) for at in range(lot.between(1, 6))]
        lines = [*above, refused_line(lot, number, last), *below]
        found.append(refused(cut(lot.between(1, 12), lines, held), number, len(above) - held + 1))
    return found


def two_refused(lot):
    """Two refused lines of any two numbers: the first counts, be its number the greater or the smaller."""
    found = []
    for first, second, held in product(LINE_NUMBERS, LINE_NUMBERS, (0, 0, 1, 3)):
        count = lot.between(2, 8)
        good = rising_lines(lot, held + count, lot.between(1, count))
        place = lot.between(1, count - 1)
        lines = with_refused(lot, good, held + place, first)
        other = held + lot.between(place + 1, count)
        lines[other - 1] = refused_line(lot, second, last_floor(good[: held + place - 1]))
        found.append(refused(cut(lot.between(1, 12), lines, held), first, place))
    return found


def orders_of_faults(lot):
    """Every set of faults in one line; its number is that of the first fault."""
    found = []
    for parts, place, held in product(FAULTS, (1, 2, 4), (0, 1, 3)):
        good = [(floor, 1, 2_000, 900) for floor in (3, 4, 4, 7, 7, 8, 9)]
        at = held + place - 1
        good[at] = spoiled(lot, good[at], parts, last_floor(good[:at]))
        found.append(refused(cut(lot.between(1, 12), good, held), 3 + parts[0], place))
    return found


# ---- Floors --------------------------------------------------------------


def first_floors(lot):
    """The first line's floor below, at and above the column's last one, on columns whose last floor is any."""
    found = []
    for last, count in product((1, 2, 3, 5, 32, 63, 64), (1, 2, 4)):
        floors = sorted(lot.between(1, last) for _ in range(count - 1))
        held = [some_line(lot, floor) for floor in (*floors, last)]
        for floor in sorted({0, 1, last - 1, last, last + 1, 64, 65}):
            lines = [some_line(lot, floor), some_line(lot, max(last, min(floor, 64))), some_line(lot, 64)]
            asked = case(lot.between(1, 12), held, lines)
            found.append(kept_all(asked) if last <= floor <= 64 else refused(asked, 3, 1))
    return found


def falling_floors(lot):
    """A floor smaller than the last line's, be that line held or pasted; the same floors in order are all kept."""
    found = []
    for floors, place in FALLING:
        lines = [some_line(lot, floor) for floor in floors]
        for held in range(place):
            found.append(refused(cut(lot.between(1, 12), lines, held), 3, place - held))
            found.append(kept_all(cut(lot.between(1, 12), sorted(lines), held)))
    return found


def equal_floors(lot):
    """Lists of one floor on a column whose last line has that floor, or one above it."""
    found = []
    for floor, held, count in product((1, 2, 40, 64), (1, 3, 20), (1, 2, 12)):
        above = [some_line(lot, floor - (floor > 1 and at < held // 2)) for at in range(held)]
        below = [some_line(lot, floor) for _ in range(count)]
        found.append(kept_all(case(lot.between(1, 12), above, below)))
    return found


def columns_pasted(lot):
    """Columns whose refused lines bind no floor: pasted, they end at the first one."""
    found = []
    for lines, above in product(FLOOR_COLUMNS, ((), (TOP_LINE,), (TOP_LINE, PLAIN), (PLAIN, LOWEST_LINE))):
        found.append(case(lot.between(1, 12), above, lines))
    return found


# ---- Each limit, one beyond it, and numbers that look right when cut ------


def numbers_at_limits(lot):
    """Every tried number in each of the four fields: in the only line, the first, one between, and the last."""
    found = []
    for part in range(4):
        for number in dict.fromkeys((*LIMIT_NUMBERS, *TRIED[part])):
            line, code = with_part(PLAIN, part, number), lot.between(1, 12)
            found.append(case(code, (), (line,)))
            found.append(case(code, (TOP_LINE,), (line, LOWEST_LINE)))
            found.append(case(code, (), (TOP_LINE, line, LOWEST_LINE)))
            found.append(case(code, (TOP_LINE, PLAIN), (PLAIN, line)))
    return found


def raised_numbers(lot):
    """Good lists of which one number is raised, mostly beyond its limit, so that it is the same when cut."""
    found = []
    for turn in range(160):
        lines = lines_by_lot(lot, lot.between(1, 6), 0)
        place, part = lot.between(1, len(lines)), turn % 4
        lines[place - 1] = with_part(lines[place - 1], part, raised(lot, lines[place - 1][part]))
        found.append(cut(lot.between(1, 12), lines, lot.between(0, place - 1)))
    return found


# ---- The column then: classes, loads and influence areas -----------------


def mixed_classes(_lot):
    """Mixed classes, held and pasted in all parts."""
    found = []
    for lines, code in product(MIXED_COLUMNS, (1, 3, 4, 7)):
        found += [kept_all(cut(code, lines, held)) for held in range(len(lines))]
    return found


def edges_of_influence(lot):
    """Every edge of X that a factor K can give, its area partly held and partly pasted, for n = 1 to 4."""
    found = []
    for influence, (k, codes), floors in product(EDGES, CODES_BY_FACTOR.items(), (1, 2, 3)):
        if influence % k == 0:
            loads = lot.one_of(((2_000,), (5_000,), (1_000, 4_000), (lot.between(1, 5_000), 3, 4_999)))
            lines = edge_entries(lot, loads, influence // k, floors)
            found.append(kept_all(cut(lot.one_of(codes), lines, lot.between(0, floors))))
            found.append(kept_all(cut(lot.one_of(codes), lines[:-1], lot.between(0, floors - 1))))
    return found


def largest_sums(_lot):
    """256 lines of the largest and of the smallest numbers, held and pasted in several parts, and one line more."""
    found = []
    for turn, (code, cls, load, area, floors) in enumerate(LARGEST):
        lines = [(64 if floors == 1 else 1 + at * floors // 256, cls, load, area) for at in range(257)]
        lines[256] = (64, cls, load, area)
        found += [kept_as_far_as_room(cut(code, lines, held)) for held in (0, 128, 255, 256)]
        found.append(kept_all(cut(code, lines[:256], turn * 31)))
    return found


# ---- Pastes by lot -------------------------------------------------------


def cut_by_lot(lot, lines):
    """A list of any code cut at a place by lot, so that no refused line of it is held."""
    found = first_refused(tuple(Line(*line) for line in lines))
    most = len(lines) if found is None else found.place - 1
    return cut(lot.between(1, 12), lines, lot.between(0, most))


def good_by_lot(lot):
    """Lists with no refused line."""
    counts = [lot.between(1, lot.one_of((3, 8, 12))) for _ in range(500)] + [40, 60, 80, 100, 120]
    return [kept_all(cut_by_lot(lot, lines_by_lot(lot, count, 0))) for count in counts]


def few_faults_by_lot(lot):
    """Lists with few refused lines, or none."""
    return [cut_by_lot(lot, lines_by_lot(lot, lot.between(1, lot.one_of((4, 8, 16))), 9)) for _ in range(500)]


def many_faults_by_lot(lot):
    """Lists with many refused lines."""
    counts = [lot.between(1, lot.one_of((4, 8, 16))) for _ in range(400)]
    return [cut_by_lot(lot, lines_by_lot(lot, count, lot.one_of((2, 3)))) for count in counts]


def strange_columns(lot):
    """Lists on a column that was made without them, so that their floors mostly go up again."""
    found = []
    for _ in range(300):
        held, count = lines_by_lot(lot, lot.between(1, 5), 0), lot.between(1, 6)
        found.append(case(lot.between(1, 12), held, lines_by_lot(lot, count, lot.one_of((0, 0, 4)))))
    return found


def lines_again(lot):
    """A line twice and more, good or refused, so that lines must be told by their places."""
    return [cut_by_lot(lot, lines) for _code, _floor, lines in repeated_lines(lot)]


# ---- All of them ---------------------------------------------------------

MAKERS = (
    paper_columns,
    nothing_pasted,
    every_code,
    counts_of_good_lines,
    counts_with_refused_lines,
    forty_lines,
    filled_columns,
    faults_past_the_room,
    refused_at_each_place,
    first_or_last_refused,
    good_lines_below,
    two_refused,
    orders_of_faults,
    first_floors,
    falling_floors,
    equal_floors,
    columns_pasted,
    numbers_at_limits,
    raised_numbers,
    mixed_classes,
    edges_of_influence,
    largest_sums,
    good_by_lot,
    few_faults_by_lot,
    many_faults_by_lot,
    strange_columns,
    lines_again,
)


@lru_cache(maxsize=None)
def cases_by_kind():
    """The pastes kind by kind, in the order of the text; none is asked about twice; made once."""
    return fresh_by_kind(MAKERS, Lot(SEED))


@lru_cache(maxsize=None)
def cases():
    """Every paste in the order of the text."""
    return tuple(asked for kind in cases_by_kind().values() for asked in kind)


# ---- What the cases hold -------------------------------------------------


def refused_at(asked):
    """The line that is refused, and the numbers of all conditions that hold for it; None and no number for none."""
    found, lines = answer(asked), asked[2]
    if found.number == 0:
        return None, []
    line = Line(*lines[found.kept])
    return line, [number for number, holds in conditions(found.lines, line).items() if holds]


def numbers_below(asked):
    """What each line below the refused one would have as its number, 0 where the column would accept it."""
    found, lines = answer(asked), asked[2]
    return [entry_number(found.lines, Line(*line)) for line in lines[found.kept + 1 :]]


def features(asked):
    """The features that the cases are to have, by name, and which of them this one has."""
    _code, held, lines = asked
    found, (line, holding), below = answer(asked), refused_at(asked), numbers_below(asked)
    kept = lines[: found.kept]
    smaller = found.number == 3 and bool(found.lines) and 1 <= line.floor < found.lines[-1].floor
    return {
        "first line refused": line is not None and found.kept == 0,
        "last line refused": line is not None and found.kept + 1 == len(lines),
        "line below would be accepted": 0 in below,
        "line below has another number": any(number not in (0, found.number) for number in below),
        "several conditions": len(holding) > 1 and found.number > 2,
        "full, and other conditions": len(holding) > 1 and found.number == 2,
        "smaller than the column's last": smaller and not kept,
        "smaller than the line above": smaller and bool(kept),
        "smaller than the line above only": smaller and bool(kept and held) and line.floor >= held[-1][0],
        "equal to the column's last": bool(kept and held) and kept[0][0] == held[-1][0],
        "equal to the line above": any(above[0] == after[0] for above, after in pairwise(kept)),
    }


def counts_by_number():
    """How many pastes have each number; 0 is that of the pastes that keep every line."""
    return Counter(answer(asked).number for asked in cases())


def require_numbers():
    """Stops where a number is met too seldom, in all or with one of the twelve codes."""
    counts = counts_by_number()
    require(set(counts) == {0, 2, 3, 4, 5, 6}, f"numbers {sorted(counts)}")
    met = Counter((asked[0], answer(asked).number) for asked in cases())
    for number in counts:
        require(counts[number] >= LEAST_EACH, f"number {number} is met {counts[number]} times")
        for code in CODES:
            require(met[code, number] >= LEAST_BY_CODE, f"number {number}, code {code}: {met[code, number]} times")


def require_counts():
    """Stops where a count pasted on a count held is not met with lines good as far as there is room, or with others."""
    good, faulty = set(), set()
    for asked in cases():
        _code, held, lines = asked
        _line, holding = refused_at(asked)
        if holding in ([], [2]):
            good.add((len(held), len(lines)))
        elif len(held) == MOST_LINES or holding[0] != 2:
            faulty.add((len(held), len(lines)))
    for pair in product(HELD_COUNTS, LIST_COUNTS):
        require(pair in good, f"held and pasted {pair}: no good lines")
        require(pair in faulty or pair[1] == 0, f"held and pasted {pair}: no refused line")


def require_places():
    """Stops where one of the numbers 3 to 6 is not met at each place 1 to 256, or 2 not at each place it is to be."""
    met = {(answer(asked).number, answer(asked).kept + 1) for asked in cases()}
    lacking = set(product(LINE_NUMBERS, range(1, MOST_LINES + 1))) - met
    require(not lacking, f"numbers and places {sorted(lacking)}")
    full = {(len(asked[1]), answer(asked).kept + 1) for asked in cases() if answer(asked).number == 2}
    require(full >= {(held, 257 - held) for held in HELD_BEFORE_2}, f"number 2 on columns of {sorted(full)}")
    require(all(place == 257 - held for held, place in full), f"number 2 at {sorted(full)}")


def require_features():
    """Stops where a feature is met too seldom."""
    met = Counter()
    for asked in cases():
        met.update(features(asked))
    for name, count in met.items():
        require(count >= LEAST_EACH, f"{name}: {count} times")


def require_fields():
    """Stops where a field lacks one of its limits, a number beside them, or one of more bits, in lines looked at."""
    fields = [set() for _ in range(4)]
    for asked in cases():
        for line in asked[2][: answer(asked).kept + 1]:
            for field, number in zip(fields, line):
                field.add(number)
    for field, most in zip(fields, (LAST_FLOOR, 3, GREATEST_LOAD, GREATEST_AREA)):
        tried = {0, 1, 2, most - 1, most, most + 1, 2**8 + 1, 2**16 + 1, 2**32 + 1, 2**63, GREATEST}
        require(tried <= field, f"a field lacks {sorted(tried - field)}")


def require_enough():
    """Stops where the cases lack something that they are to have."""
    require_numbers()
    require_counts()
    require_places()
    require_features()
    require_fields()


# ---- The lines of the text -----------------------------------------------


def told(found):
    """An answer: 'kept K number N held C lowest n X FIGURE', or 'lowest none' where no line is held."""
    lowest = "none" if found.lowest is None else " ".join(map(str, found.lowest))
    return f"kept {found.kept} number {found.number} held {found.held} lowest {lowest}"


def told_case(asked):
    """A case and its answer, parted by one blank: 'code held F C L A F C L A .. = ..', the held lines first."""
    code, held, lines = asked
    numbers = (code, len(held), *(number for line in held + lines for number in line))
    require(code in CODES and 0 <= min(numbers) and max(numbers) <= GREATEST, "a wrong code, or beyond 64 bits")
    return f"{' '.join(map(str, numbers))} = {told(answer(asked))}"


def text():
    """Every case, one line a paste."""
    require_enough()
    return "".join(told_case(asked) + "\n" for asked in cases())


def tally():
    """How many pastes there are, how many keep every line, and how many are refused under each number, a line each."""
    counts = counts_by_number()
    refusals = [f"{counts[number]} refused under {number}" for number in range(2, 7)]
    return [f"{len(cases())} pastes", f"{counts[0]} keep every line", *refusals]
