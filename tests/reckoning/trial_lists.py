"""Makes the lists of the trial of the call over a list of lines, kind by kind, each with its reckoned answer."""

from collections import Counter
from functools import lru_cache
from itertools import product

from reckoning.lists import Listed, listed
from reckoning.paper import INTERIOR, SHEET
from reckoning.trial_column import (
    AREA_HABITS,
    CLASS_HABITS,
    CODES_BY_FACTOR,
    EDGES,
    FAULTS,
    FLOOR_COLUMNS,
    LOAD_HABITS,
    MIXED_COLUMNS,
    PLAIN,
    REFUSED_CODES,
    STEPS,
    TRIED,
    edge_entries,
    parted,
    rising_lines,
    some_line,
    spoiled,
    with_part,
)
from reckoning.trial_reduction import GREATEST, PAPER_FIGURES, Lot, at_whole_load, near_whole_load, require
from reckoning.trial_whole import fresh_by_kind

CODES = range(1, 13)
LINE_NUMBERS = (3, 4, 5, 6)  # each has its field: floor, class, load, area
SEED = 20_250_256
LEAST_FIGURES, LEAST_EACH = 2_000, 50  # how many figures there are, and how often each number is met


# ---- A case and its answer -----------------------------------------------


def case(code, floor, lines):
    """A list as it is asked about: the code, the floor that is wanted, and lines of four numbers."""
    return code, floor, tuple(tuple(line) for line in lines)


@lru_cache(maxsize=None)
def answer(asked):
    """The reckoned answer of a case; reckoned once."""
    code, floor, lines = asked
    return listed(code, lines, floor)


def expected(asked, right):
    """A case whose answer is known when it is made; stops where another is reckoned."""
    if answer(asked) != right:
        raise AssertionError(f"{asked} is to give {right}, reckoned {answer(asked)}")
    return asked


def refused(asked, number, place):
    """A case that is known to be refused."""
    return expected(asked, Listed(refused=number, place=place))


# ---- Floors that are wanted ----------------------------------------------


def floors_of(lines):
    """The floors that the lines have, top first."""
    return sorted({line[0] for line in lines})


def top_middle_lowest(lines):
    """The top floor of the lines, one in the middle, and the lowest."""
    floors = floors_of(lines)
    return floors[0], floors[len(floors) // 2], floors[-1]


def floors_lacking(lines):
    """Floors that no line has: beside and between the lines' floors, and such that look like one of them when cut."""
    held = [floor for floor in floors_of(lines) if 1 <= floor <= 64] or [1]
    gaps = [floor for floor in range(held[0], held[-1]) if floor not in held]
    near = (0, 1, 64, 65, held[0] - 1, held[-1] + 1, *gaps[:1], *gaps[-1:])
    far = (257, 256 + held[0], 2**16 + held[-1], 2**32 + held[0], 2**63 + held[-1], 2**64 - 64, GREATEST)
    return [floor for floor in sorted({*near, *far}) if floor not in floors_of(lines)]


# ---- Lines that are refused ----------------------------------------------


def refused_line(lot, number, last):
    """A line refused with this number and no other fault, after a line at the last floor."""
    return spoiled(lot, some_line(lot, last), (number - 3,), last)


def last_floor(lines):
    """The floor of the last line, 1 where there is none."""
    return lines[-1][0] if lines else 1


def others_than(number):
    """The numbers of a line other than this one."""
    return [other for other in LINE_NUMBERS if other != number]


def with_refused(lot, good, place, number):
    """The good lines with the one at a place replaced by a line refused with this number."""
    above = good[: place - 1]
    return [*above, refused_line(lot, number, last_floor(above)), *good[place:]]


def refused_then_others(lot, above, number):
    """The good lines above, a line refused with this number, and below it lines refused with others, and good ones."""
    last = last_floor(above)
    below = [refused_line(lot, lot.one_of(others_than(number)), last) for _ in range(lot.between(1, 3))]
    between = [some_line(lot, last) for _ in range(lot.between(0, 2))]
    return [*above, refused_line(lot, number, last), *between, *below, *between[:1]]


# ---- The paper's columns and figures -------------------------------------


def paper_columns(_lot):
    """The column of 6,000 and 2,000 and that of the sample sheet: as printed, cut short, and turned about."""
    found = []
    for code, lines, printed in (INTERIOR, SHEET):
        for floor, *numbers in printed:
            found.append(expected(case(code, floor, lines), Listed(*numbers)))
        found.append(expected(case(code, 1, lines[:1]), Listed(*printed[0][1:])))
        found += [refused(case(code, floor, lines), 7, 0) for floor in (0, 3, 64, GREATEST)]
        found += [refused(case(code, 2, lines[:1]), 7, 0), refused(case(13, 2, lines), 1, 0)]
        found += [refused(case(code, floor, lines[::-1]), 3, 2) for floor in (1, 2, 3)]
    return found


def formula_row(load, floors, influence, printed):
    """A formula line's row of 'Figures to check against', for each code whose K allows its X; all lines are alike."""
    found = []
    for k, codes in CODES_BY_FACTOR.items():
        area = influence // k
        ends = [area * at // floors for at in range(floors + 1)]
        lines = [(at, 1, load, ends[at] - ends[at - 1]) for at in range(1, floors + 1)]
        if influence % k == 0:
            right = Listed(floors, influence, printed * area)
            found += [expected(case(code, floors, lines), right) for code in codes]
    return found


def other_row(load, cls, floors, printed):
    """A row of 'Figures to check against' for any X: a load of 1, whose R is always 1, makes the X."""
    found = []
    lines = [(at, cls, load, 40 + at) for at in range(1, floors + 1)]
    figure = sum(printed * line[3] for line in lines)
    for influence, (k, codes) in product((0, 12, 3_600, 6_400, 33_420, 92_824, 600_000), CODES_BY_FACTOR.items()):
        area = influence // k
        if influence % k == 0 and area <= 200_000:
            over = [(1, 1, 1, area)] if area else []
            right = Listed(floors, influence, figure + area)
            found.append(expected(case(codes[-1], floors, over + lines), right))
    return found


def paper_figures(_lot):
    """Every row of 'Figures to check against' as lists that have its n and its X."""
    found = []
    for load, cls, floors, influence, printed in PAPER_FIGURES:
        if influence is None:
            found += other_row(load, cls, floors, printed)
        else:
            found += formula_row(load, floors, influence, printed)
    return found


# ---- The empty list, and codes -------------------------------------------


def empty_lists(_lot):
    """The empty list with every code: no line has the floor."""
    floors = (0, 1, 2, 64, 65, 257, 2**32 + 1, GREATEST)
    return [refused(case(code, floor, ()), 7, 0) for code in CODES for floor in floors]


FIVE_LINES = (
    *((1, 1, 2_000, 3_000), (2, 2, 2_500, 500), (2, 1, 5_000, 4_000)),
    *((5, 3, 4_000, 700), (6, 1, 1_001, 30_000)),
)


def good_codes(lot):
    """Every member of Table 4.2 with the same lines, at each floor, and with lines by lot."""
    found = [case(code, floor, FIVE_LINES) for code in CODES for floor in (1, 2, 5, 6, 3)]
    for code in CODES:
        lines = lines_by_lot(lot, 6, 0)
        found += [case(code, floor, lines) for floor in top_middle_lowest(lines)]
    return found


def refused_codes(lot):
    """Codes not 1 to 12, also with a refused line, a floor that is lacking, both, no line, and a line too many."""
    found = []
    for code in (*REFUSED_CODES, 64, 65, 50_000, 200_000, 2**8 + 2, 2**16 + 3, 2**32 + 6):
        bad = with_refused(lot, FIVE_LINES, lot.between(1, 5), lot.one_of(LINE_NUMBERS))
        lists = ((FIVE_LINES, 6), (FIVE_LINES, 7), (bad, 1), (bad, 2**32 + 1), ((), 1))
        found += [refused(case(code, floor, lines), 1, 0) for lines, floor in lists]
    long = rising_lines(lot, 257, 9)
    return found + [refused(case(code, floor, long), 1, 0) for code in (0, 13, 257, GREATEST) for floor in (1, 0)]


# ---- How many lines ------------------------------------------------------


def short_lists(lot):
    """Lists of one, two and three good lines for every code, at each of their floors."""
    found = []
    for code, (count, floors) in product(CODES, ((1, 1), (2, 1), (2, 2), (3, 3))):
        lines = rising_lines(lot, count, floors)
        found += [case(code, floor, lines) for floor in floors_of(lines)]
    return found


def full_lists(lot):
    """Lists of 255 and 256 good lines, at the top, a middle and the lowest floor in turn; some at a lacking floor."""
    found = []
    for code, turn in product(CODES, range(2)):
        lines = rising_lines(lot, 255 + (code + turn) % 2, lot.one_of((64, 64, 20, 3, 1)))
        if turn == 0:
            found.append(case(code, top_middle_lowest(lines)[code // 2 % 3], lines))
        else:
            found.append(refused(case(code, lot.one_of(floors_lacking(lines)), lines), 7, 0))
    return found


def too_many_lines(lot):
    """Lists of 257 to 300 good lines: number 2 at place 257, whatever floor is wanted."""
    found = []
    for code, count in product(CODES, (257, 258, 279, 300)):
        lines = rising_lines(lot, count, lot.one_of((64, 20, 3, 1)))
        floor = lot.one_of(floors_lacking(lines) if code % 3 == 0 else floors_of(lines))
        found.append(refused(case(code, floor, lines), 2, 257))
    return found


def faults_at_257(lot):
    """Every set of faults in the 257th line, which has number 2 all the same, and in the 256th, which has its own."""
    found = []
    good = rising_lines(lot, 256, 40)
    for parts in FAULTS:
        bad = spoiled(lot, (40, 1, 2_000, 50), parts, 40)
        code, more = lot.between(1, 12), rising_lines(lot, lot.between(0, 5), 1)
        found.append(refused(case(code, lot.one_of((40, 40, 65)), [*good, bad, *more]), 2, 257))
        bad = spoiled(lot, good[255], parts, good[254][0])
        found.append(refused(case(code, 40, [*good[:255], bad, *good[255:]]), 3 + parts[0], 256))
    return found


def too_many_and_refused_before(lot):
    """Lists of 257 lines and more with a refused line before the 257th: that line counts."""
    found = []
    good = rising_lines(lot, 300, 30)
    for place, number in product((1, 2, 100, 254, 255, 256), LINE_NUMBERS):
        for count in (257, lot.between(258, 300)):
            lines = with_refused(lot, good[:count], place, number)
            found.append(refused(case(lot.between(1, 12), lot.one_of((1, 5, 26, 31)), lines), number, place))
    return found


# ---- Where the first refused line is -------------------------------------


def numbers_at(place):
    """The numbers tried at a place: all of 3 to 6 near both ends of 1 to 256, else one of them in turn."""
    return LINE_NUMBERS if place <= 8 or place > 248 else (LINE_NUMBERS[place % 4],)


def refused_at_each_place(lot):
    """A list refused at each place 1 to 256, the numbers 3 to 6 in turn, with lines of other numbers below it."""
    found = []
    good = {number: rising_lines(lot, 256, floors) for number, floors in zip(LINE_NUMBERS, (50, 20, 3, 64))}
    for place in range(1, 257):
        for number in numbers_at(place):
            above = good[number][: place - 1]
            lines = refused_then_others(lot, above, number)
            floor = lot.one_of((1, last_floor(above), last_floor(lines), 65))
            found.append(refused(case(lot.between(1, 12), floor, lines), number, place))
    return found


def first_or_last_refused(lot):
    """Lists of which only the first or only the last line is refused."""
    found = []
    for count, number in product((1, 2, 3, 4, 6, 9, 20), LINE_NUMBERS):
        good = rising_lines(lot, count, min(count, 5))
        for place in (1, count):
            lines = with_refused(lot, good, place, number)
            wanted = lot.one_of((*top_middle_lowest(good), 1, 65))
            found.append(refused(case(lot.between(1, 12), wanted, lines), number, place))
    return found


def two_refused(lot):
    """Two refused lines of any two numbers: the first counts, be its number the greater or the smaller."""
    found = []
    for first, second in product(LINE_NUMBERS, LINE_NUMBERS):
        for _ in range(5):
            count = lot.between(2, 9)
            good = rising_lines(lot, count, lot.between(1, count))
            place = lot.between(1, count - 1)
            lines = with_refused(lot, good, place, first)
            other = lot.between(place + 1, count)
            lines[other - 1] = refused_line(lot, second, last_floor(good[: place - 1]))
            found.append(refused(case(lot.between(1, 12), lot.one_of(floors_of(good)), lines), first, place))
    return found


def orders_of_faults(lot):
    """Every set of faults in one line; its number is that of the first fault."""
    found = []
    for parts, place in product(FAULTS, (1, 2, 4)):
        good = [(floor, 1, 2_000, 900) for floor in (3, 4, 4, 7)]
        last = last_floor(good[: place - 1])
        good[place - 1] = spoiled(lot, good[place - 1], parts, last)
        found.append(refused(case(lot.between(1, 12), lot.one_of((3, 4, 7)), good), 3 + parts[0], place))
    return found


def refused_below_the_floor(lot):
    """A refused line below the floor that is wanted, which would change no figure, and one at that floor."""
    found = []
    for number in LINE_NUMBERS * 20:
        lines = rising_lines(lot, lot.between(2, 8), 4)
        place = lot.between(2, len(lines))
        wanted = lot.one_of(floors_of(lines[: place - 1]))
        bad = with_refused(lot, lines, place, number)
        found.append(refused(case(lot.between(1, 12), wanted, bad), number, place))
    return found


# ---- Floors of the lines -------------------------------------------------

# Floors of the lines, and the place of the first that is smaller than the one above.
FALLING = (
    *(((2, 1), 2), ((64, 63), 2), ((64, 1), 2), ((1, 5, 3), 3), ((1, 3, 2, 3), 3), ((2, 1, 2), 2), ((5, 5, 4, 5), 3)),
    *(((1, 2, 3, 4, 3), 5), ((9, 8, 7, 6), 2), ((1, 64, 63, 64), 3), ((7, 7, 7, 1), 4), ((3, 9, 9, 8, 7, 9, 9), 4)),
    *(((10, 20, 15, 30), 3), ((10, 20, 30, 10, 20, 30), 4), ((1, 1, 2, 2, 1, 1, 2, 2), 5), ((33, 32), 2)),
)


def falling_floors(lot):
    """A floor smaller than the last line's, at each floor of the list; the same floors in order give a figure."""
    found = []
    for floors, place in FALLING:
        lines = [some_line(lot, floor) for floor in floors]
        for wanted in (*floors_of(lines), 65):
            found.append(refused(case(lot.between(1, 12), wanted, lines), 3, place))
            found.append(case(lot.between(1, 12), wanted, sorted(lines)))
    return found


def columns_as_lists(lot):
    """Columns whose refused lines bind no floor: as lists they end at the first one."""
    return [
        case(lot.between(1, 12), floor, lines)
        for lines in FLOOR_COLUMNS
        for floor in (*floors_of(lines), lot.one_of(floors_lacking(lines)))
    ]


# ---- Each limit, one beyond it, and numbers that look right when cut ------

LIMIT_NUMBERS = (
    *(0, 1, 2, 3, 4, 63, 64, 65, 255, 256, 2**8 + 1, 2**8 + 5, 49_999, 50_000, 50_001, 2**16, 2**16 + 1, 2**16 + 5),
    *(199_999, 200_000, 200_001, 2**31, 2**32 - 1, 2**32, 2**32 + 1, 2**32 + 5, 2**63 - 1, 2**63, 2**63 + 1, GREATEST),
)
TOP_LINE, LOWEST_LINE = (1, 1, 3_000, 900), (64, 2, 2_500, 700)


def numbers_at_limits(lot):
    """Every tried number in each of the four fields: in the only line, the first, one between, and the last."""
    found = []
    for part in range(4):
        for number in dict.fromkeys((*LIMIT_NUMBERS, *TRIED[part])):
            line, code = with_part(PLAIN, part, number), lot.between(1, 12)
            found.append(case(code, line[0], (line,)))
            found.append(case(code, 64, (line, LOWEST_LINE)))
            found.append(case(code, lot.one_of((64, line[0])), (TOP_LINE, line, LOWEST_LINE)))
            found.append(case(code, lot.one_of((1, line[0])), (TOP_LINE, TOP_LINE, line)))
    return found


def codes_and_floors_at_limits(lot):
    """Every tried number as the code and as the floor that is wanted, over good lines."""
    good = [some_line(lot, floor) for floor in (1, 3, 4, 5, 63, 64)]
    codes = [case(number, lot.one_of((1, 4, 64)), good) for number in LIMIT_NUMBERS]
    floors = [case(lot.between(1, 12), number, good) for number in (*LIMIT_NUMBERS, *TRIED[0])]
    alone = [case(lot.between(1, 12), number, good[3:4]) for number in (*LIMIT_NUMBERS, *TRIED[0])]
    return codes + floors + alone


# ---- Floors that no line has ---------------------------------------------


def lacking_floors(lot):
    """Floors that no line has: between two floors, above all, below all, 0, 65, 257 and far beyond."""
    found = []
    for _ in range(22):
        lines = [some_line(lot, floor) for floor in sorted(lot.between(2, 63) for _ in range(lot.between(1, 7)))]
        code = lot.between(1, 12)
        found += [refused(case(code, floor, lines), 7, 0) for floor in floors_lacking(lines)]
    return found


def lacking_floors_and_refused(lot):
    """A floor that no line has, or only the refused one or one below it, and a refused line: the line counts."""
    found = []
    for number in LINE_NUMBERS * 13:
        good = [some_line(lot, floor) for floor in sorted(lot.between(2, 63) for _ in range(lot.between(1, 7)))]
        place, code = lot.between(1, len(good)), lot.between(1, 12)
        lines = with_refused(lot, good, place, number)
        wanted = {lot.one_of(floors_lacking(lines)), lot.one_of(floors_lacking(lines)), 0, 65}
        wanted |= {lines[place - 1][0], lines[-1][0]}
        found += [refused(case(code, floor, lines), number, place) for floor in sorted(wanted)]
    return found


# ---- Classes, loads and influence areas ----------------------------------


def mixed_classes(lot):
    """Mixed classes at each floor, and loads about 5,000 in each class."""
    found = []
    for lines, code in product(MIXED_COLUMNS, (1, 3, 4, 7)):
        found += [case(code, floor, lines) for floor in floors_of(lines)]
    for cls, load, code in product((1, 2, 3), (4_999, 5_000, 5_001), (2, 3, 5, 8)):
        lines = ((1, cls, load, 2_000), (2, cls, load, 1), (2, 1, lot.between(1, 5_000), 1_500), (9, cls, load, 900))
        found += [case(code, floor, lines) for floor in (1, 2, 9)]
    return found


def edges_of_influence(lot):
    """Every edge of X that a factor K can give, for n = 1, 2 and 3, then with one floor more and the same X."""
    found = []
    for influence, (k, codes), floors in product(EDGES, CODES_BY_FACTOR.items(), (1, 2, 3)):
        if influence % k == 0:
            loads = lot.one_of(((2_000,), (5_000,), (1_000, 4_000), (lot.between(1, 5_000), 3, 4_999)))
            lines = edge_entries(lot, loads, influence // k, floors)
            found += [case(lot.one_of(codes), floor, lines) for floor in floors_of(lines)[-2:]]
    return found


def whole_loads(lot):
    """Lists where share * Lo is whole, or passes a whole number from one X to the next."""
    rows = [row for _ in range(45) for row in near_whole_load(lot)]
    rows += [row for _ in range(25) for row in at_whole_load(lot)]
    found = []
    for load, _cls, floors, influence in rows:
        k = lot.one_of([k for k in CODES_BY_FACTOR if influence % k == 0])
        areas = enumerate(parted(lot, influence // k, max(1, min(floors, 3))), start=lot.between(1, 60))
        lines = [(floor, 1, load, area) for floor, area in areas]
        found.append(case(lot.one_of(CODES_BY_FACTOR[k]), last_floor(lines), lines))
    return found


# Code, class, load, area and how many floors.
LARGEST = (
    *((1, 1, 50_000, 200_000, 64), (2, 2, 50_000, 200_000, 64), (1, 3, 50_000, 200_000, 64)),
    *((1, 1, 5_000, 200_000, 64), (2, 1, 5_000, 200_000, 1), (12, 3, 50_000, 200_000, 1)),
    *((1, 1, 1, 1, 64), (3, 1, 4_999, 121, 64), (7, 1, 1, 363, 1)),
)


def largest_sums(_lot):
    """256 lines of the largest and of the smallest numbers, at the top, a middle and the lowest floor."""
    found = []
    for code, cls, load, area, floors in LARGEST:
        lines = [(64 if floors == 1 else 1 + at * floors // 256, cls, load, area) for at in range(256)]
        found += [case(code, floor, lines) for floor in top_middle_lowest(lines)]
    return found


# ---- Lists by lot --------------------------------------------------------


def lines_by_lot(lot, count, faults):
    """Lines by lot; of so many lines one is spoiled, none where faults is 0."""
    classes, loads, areas = lot.one_of(CLASS_HABITS), lot.one_of(LOAD_HABITS), lot.one_of(AREA_HABITS)
    steps, floor, last = lot.one_of(STEPS), lot.one_of((1, 1, 1, 2, lot.between(1, 64))), 1
    lines = []
    for _ in range(count):
        line = (floor, lot.one_of(classes), lot.between(*loads), lot.between(*areas))
        if faults and lot.between(1, faults) == 1:
            line = spoiled(lot, line, lot.one_of(FAULTS[:4] if lot.between(1, 3) > 1 else FAULTS), last)
        else:
            last = floor
        lines.append(line)
        floor = min(64, floor + lot.one_of(steps))
    return lines


def floor_by_lot(lot, lines):
    """Mostly the top, a middle or the lowest floor of the lines, sometimes one that is lacking."""
    if lines and lot.between(1, 12) > 1:
        return lot.one_of(top_middle_lowest(lines))
    return lot.one_of(floors_lacking(lines))


def good_by_lot(lot):
    """Lists with no refused line."""
    counts = [lot.between(1, lot.one_of((3, 8, 12))) for _ in range(800)] + [40, 60, 80, 100, 120]
    lists = [lines_by_lot(lot, count, 0) for count in counts]
    return [case(lot.between(1, 12), floor_by_lot(lot, lines), lines) for lines in lists]


def few_faults_by_lot(lot):
    """Lists with few refused lines, or none."""
    lists = [lines_by_lot(lot, lot.between(1, lot.one_of((4, 8, 16))), 9) for _ in range(600)]
    return [case(lot.between(1, 12), floor_by_lot(lot, lines), lines) for lines in lists]


def many_faults_by_lot(lot):
    """Lists with many refused lines, now and then a refused code."""
    lists = [lines_by_lot(lot, lot.between(1, lot.one_of((4, 8, 16))), lot.one_of((2, 3))) for _ in range(500)]
    codes = (*CODES, *CODES, 0, 13)
    return [case(lot.one_of(codes), floor_by_lot(lot, lines), lines) for lines in lists]


def repeated_lines(lot):
    """A line twice and more, good or refused, so that lines must be told by their places."""
    found = []
    for number in (0, 0, *LINE_NUMBERS) * 8:
        first, second, third = (some_line(lot, floor) for floor in (2, 2, 5))
        odd = second if number == 0 else refused_line(lot, number, 2)
        lines = [*[first] * lot.between(1, 3), *[odd] * lot.between(1, 3), second, *[third] * 2]
        lines += [third if number == 0 else odd]
        found.append(case(lot.between(1, 12), lot.one_of((2, 5)), lines))
    return found


def raised(lot, number):
    """A number raised by a multiple of 2^8, 2^16, 2^32 or 2^63, so that it is the same when cut to fewer bits."""
    bits = lot.one_of((8, 16, 32, 63, 63))
    return number + (lot.between(1, min(2**bits, 2 ** (64 - bits)) - 1) << bits)


def raised_numbers(lot):
    """Good lists of which one number is raised, mostly beyond its limit: one of a line, the code, or the floor."""
    found = []
    for turn in range(180):
        code, lines = lot.between(1, 12), lines_by_lot(lot, lot.between(1, 5), 0)
        wanted = lot.one_of(floors_of(lines))
        place, part = lot.between(1, len(lines)), turn % 6
        if part < 4:
            lines[place - 1] = with_part(lines[place - 1], part, raised(lot, lines[place - 1][part]))
        code, wanted = raised(lot, code) if part == 4 else code, raised(lot, wanted) if part == 5 else wanted
        found.append(case(code, wanted, lines))
    return found


# ---- All of them ---------------------------------------------------------

MAKERS = (
    paper_columns,
    paper_figures,
    empty_lists,
    good_codes,
    refused_codes,
    short_lists,
    full_lists,
    too_many_lines,
    faults_at_257,
    too_many_and_refused_before,
    refused_at_each_place,
    first_or_last_refused,
    two_refused,
    orders_of_faults,
    refused_below_the_floor,
    falling_floors,
    columns_as_lists,
    numbers_at_limits,
    codes_and_floors_at_limits,
    lacking_floors,
    lacking_floors_and_refused,
    mixed_classes,
    edges_of_influence,
    whole_loads,
    largest_sums,
    good_by_lot,
    few_faults_by_lot,
    many_faults_by_lot,
    repeated_lines,
    raised_numbers,
)


@lru_cache(maxsize=None)
def cases_by_kind():
    """The lists kind by kind, in the order of the text; none is asked about twice; made once."""
    return fresh_by_kind(MAKERS, Lot(SEED))


@lru_cache(maxsize=None)
def cases():
    """Every list in the order of the text."""
    return tuple(asked for kind in cases_by_kind().values() for asked in kind)


def counts_by_number():
    """How many lists have each number; 0 is that of the lists that give a figure."""
    return Counter(answer(asked).refused or 0 for asked in cases())


def require_enough():
    """Stops where a number is met too seldom, a place 1 to 257 is not met, or too few figures are given."""
    counts = counts_by_number()
    require(set(counts) == set(range(8)), f"numbers {sorted(counts)}")
    require(counts[0] >= LEAST_FIGURES, f"{counts[0]} figures")
    for number in range(1, 8):
        require(counts[number] >= LEAST_EACH, f"number {number} is met {counts[number]} times")
    places = {answer(asked).place for asked in cases()} - {None, 0}
    require(places == set(range(1, 258)), f"places {sorted(places)}")


# ---- The lines of the text -----------------------------------------------


def told(found):
    """An answer: 'n X figure', or 'refused N place K'."""
    if found.refused is not None:
        return f"refused {found.refused} place {found.place}"
    return f"{found.floors} {found.influence} {found.figure}"


def told_case(asked):
    """A case and its answer, parted by one blank: 'code floor F C L A F C L A .. = ..'."""
    code, floor, lines = asked
    numbers = (code, floor, *(number for line in lines for number in line))
    require(0 <= min(numbers) and max(numbers) <= GREATEST, "a number beyond 64 bits")
    return f"{' '.join(map(str, numbers))} = {told(answer(asked))}"


def text():
    """Every case, one line a list."""
    require_enough()
    return "".join(told_case(asked) + "\n" for asked in cases())


def tally():
    """How many lists there are, how many give a figure, and how many are refused under each number, a line each."""
    counts = counts_by_number()
    refusals = [f"{counts[number]} refused under {number}" for number in range(1, 8)]
    return [f"{len(cases())} lists", f"{counts[0]} give a figure", *refusals]
