"""Makes the questions of the trial about columns: the lines the trial program reads and the lines it is to print."""

from functools import lru_cache
from itertools import combinations, product

from reckoning.column import Line, ask, ask_list, column_of, enter, open_member, require_asked, require_first
from reckoning.paper import INTERIOR, SHEET
from reckoning.passed import Passed, passed_over
from reckoning.trial_reduction import FAR_CODES, GREATEST, Lot, at_whole_load, near_whole_load, require

MOST_ENTRIES = 300  # after one line 'open'

# ---- The script: what the trial program keeps, and what it prints --------


def told(answer):
    """The printed line of an answer at a floor."""
    if answer.refused is not None:
        return f"refused={answer.refused}"
    return f"floors={answer.floors} influence={answer.influence} figure={answer.figure}"


class Script:
    """The questions as they are written, each answered and checked at once."""

    def __init__(self):
        self.reads, self.prints = [], []
        _number, self.column = open_member(1)
        self.code, self.numbers = 1, []  # of the last line 'open', and of all entries since
        self.columns = 1

    def put(self, question, printed):
        """Adds a question and the line to be printed for it."""
        require(all(0 <= number <= GREATEST for number in question[1:]), "a number beyond 64 bits")
        self.reads.append(" ".join(str(part) for part in question))
        self.prints.append(printed)

    def open(self, code):
        """Opens a member; a refused one leaves the column of before in place."""
        number, fresh = open_member(code)
        require(number == (0 if 1 <= code <= 12 else 1), f"code {code}: number {number}")
        self.code, self.numbers = code, []
        if number == 0:
            self.column = fresh
            self.columns += 1
        self.put(("open", code), f"number={number}")

    def enter(self, *entry):
        """Enters a line: floor, class, load and tributary area; gives the number."""
        line = Line(*entry)
        number, after = enter(self.column, line)
        require_first(self.column, line, number)
        self.column = after
        self.numbers += entry
        require(len(self.numbers) <= 4 * MOST_ENTRIES, "too many entries after one open")
        self.put(("enter", *entry), f"number={number}")
        return number

    def ask(self, floor):
        """Asks at a floor of the column; gives the answer."""
        answer = ask(self.column, floor)
        require_asked(self.column, floor, answer)
        self.put(("ask", floor), told(answer))
        return answer

    def list(self, floor, left_off=0):
        """Asks at a floor after all entries since 'open' as one list, its last numbers left off.

        Gives what was passed over of the list.
        """
        numbers = self.numbers[: max(len(self.numbers) - left_off, 0)]
        answer = ask_list(self.code, numbers, floor)
        number, column = column_of(self.code, numbers)
        if number == 0:
            require_asked(column, floor, answer)
        require(number == 0 or answer.refused == 1, f"code {self.code} is not refused in a list")
        passed = passed_over(self.code, numbers)
        over = f"refusals={passed.count} first={passed.first} place={passed.place}"
        self.put(("list", floor, left_off), f"{told(answer)} {over}")
        return passed

    def floors(self):
        """The floors that have an accepted line, top first."""
        return sorted({line.floor for line in self.column.lines})

    def last_floor(self):
        """The last accepted line's floor, 1 where there is none."""
        return self.column.lines[-1].floor if self.column.lines else 1


# ---- Asking after the entries --------------------------------------------


def floors_without_line(script, lot):
    """Floors no accepted line has; some look like one that has in their low 8, 16 or 32 bits."""
    held = script.floors()
    some = lot.one_of(held) if held else lot.between(1, 64)
    gaps = [floor for floor in range(held[0] if held else 1, (held or [64])[-1]) if floor not in held]
    near = (0, 65, some + 1, some - 1, held[-1] + 1 if held else 1, lot.one_of(gaps) if gaps else 64)
    far = (255, 256, 256 + some, 2**16 + some, 2**32 + some, 2**63 + some, GREATEST)
    chosen = [lot.one_of(near), lot.one_of(near), lot.one_of(far), lot.one_of((*near, *far))]
    kept = sorted({floor for floor in chosen if floor not in held})
    return kept if kept else [65]


def ask_around(script, lot):
    """Asks at every floor that has an accepted line, and at several that have none."""
    floors = script.floors()
    if lot.between(1, 4) == 1:
        floors.reverse()
    for floor in (*floors, *floors_without_line(script, lot)):
        script.ask(floor)


def list_around(script, lot, lists):
    """Asks by list at some floors, mostly with nothing left off."""
    for _ in range(lists):
        floors = (*script.floors(), script.last_floor())
        floor = lot.one_of(floors) if lot.between(1, 6) > 1 else lot.one_of(floors_without_line(script, lot))
        script.list(floor, lot.one_of((0, 0, 0, 0, 0, 0, 0, 0, 1, 2, 3)))


def finish(script, lot):
    """The questions that end a column."""
    ask_around(script, lot)
    list_around(script, lot, lot.one_of((1, 1, 2, 3)))


def column(script, lot, code, entries):
    """A whole column: opened, its entries, and the questions that end it."""
    script.open(code)
    for entry in entries:
        script.enter(*entry)
    finish(script, lot)


# ---- (a) The paper's columns ---------------------------------------------


def paper_lines(script, entries, printed):
    """Enters a column of the paper and holds its answers against the printed ones."""
    for entry in entries:
        require(script.enter(*entry) == 0, f"the paper's line {entry} is refused")
    for floor, *numbers in printed:
        answer = script.ask(floor)
        reckoned = [answer.floors, answer.influence, answer.figure]
        require(reckoned == numbers, f"paper prints {numbers} at floor {floor}, reckoned {reckoned}")
        script.list(floor)
        script.list(floor, 1)


def paper_columns(script, _lot):
    """The paper's columns; the first before any line 'open', where code 1 is meant."""
    for floor in (0, 1, 2, GREATEST):
        script.ask(floor)
        script.list(floor)
    _code, *rest = INTERIOR
    paper_lines(script, *rest)
    for code, *rest in (INTERIOR, SHEET):
        script.open(code)
        paper_lines(script, *rest)
        script.ask(3)


# ---- (b) Codes -----------------------------------------------------------

REFUSED_CODES = (0, *range(13, 21), *FAR_CODES)


def good_codes(script, lot):
    """Every member of Table 4.2 with the same lines."""
    above = ((1, 1, 2_000, 3_000), (2, 2, 2_500, 500), (2, 1, 5_000, 4_000))
    below = ((5, 3, 4_000, 700), (6, 1, 1_001, 30_000))
    for code in range(1, 13):
        column(script, lot, code, above + below)


def refused_codes(script, lot):
    """A refused member leaves the column of before in place: its lines go on there, and lists are refused."""
    for at, code in enumerate(REFUSED_CODES):
        if at % 4 == 0:
            script.open(1 + at // 4 % 12)
            script.enter(1, 1, lot.between(1, 5_000), lot.between(1, 9_000))
        floor = script.last_floor()
        script.open(code)
        if at % 2 == 0:
            script.ask(floor)
        script.list(floor, at % 4)
        script.enter(floor + lot.between(0, 3), lot.between(1, 3), lot.between(1, 6_000), lot.between(1, 9_000))
        script.enter(floor + 2, 1, 1_000, 0)
        finish(script, lot)


# ---- (c) Each limit, one beyond it, and numbers that look right when cut --

FLOORS_TRIED = (0, 1, 2, 63, 64, 65, 255, 256, 257, 320, 2**16 + 1, 2**32 + 1, 2**63 + 5, 2**64 - 255, GREATEST)
CLASSES_TRIED = (0, 1, 2, 3, 4, 255, 256, 257, 258, 259, 2**16 + 1, 2**32 + 1, 2**32 + 3, 2**63 + 2, GREATEST)
LOADS_TRIED = (
    *(0, 1, 4_999, 5_000, 5_001, 49_999, 50_000, 50_001, 65_535, 65_536, 65_537, 65_536 + 2_000),
    *(65_536 + 50_000, 2**32 + 1, 2**32 + 2_000, 2**63 + 2_000, GREATEST),
)
AREAS_TRIED = (
    *(0, 1, 255, 256, 65_535, 65_536, 65_636, 199_999, 200_000, 200_001, 2**18, 2**18 + 100),
    *(2**32 - 1, 2**32, 2**32 + 1, 2**32 + 100, 2**32 + 200_000, 2**63 + 100, GREATEST),
)
TRIED = (FLOORS_TRIED, CLASSES_TRIED, LOADS_TRIED, AREAS_TRIED)
PLAIN = (5, 1, 2_000, 1_600)


def with_part(entry, part, number):
    """An entry with one of its four numbers changed."""
    return (*entry[:part], number, *entry[part + 1 :])


def limit_columns(script, lot):
    """Every tried number as the first entry of a column and after accepted lines."""
    for part, numbers in enumerate(TRIED):
        for number in numbers:
            script.open(lot.between(1, 12))
            script.enter(*with_part(PLAIN, part, number))
            script.ask(5)
            script.enter(*PLAIN)
            script.enter(*with_part(PLAIN, part, number))
            script.ask(5)
            script.enter(6, 2, 2_500, 100)
            finish(script, lot)


# ---- (d) The order of the checks -----------------------------------------

BAD_CLASSES = (0, 4, 5, 255, 256, 257, 258, 259, 2**16 + 1, 2**32 + 1, GREATEST)
BAD_LOADS = (0, 50_001, 60_000, 65_536, 65_537, 67_536, 2**32 + 2_000, GREATEST)
BAD_AREAS = (0, 200_001, 2**18 + 100, 2**32, 2**32 + 100, GREATEST)


def bad_floor(lot, last):
    """A floor that is refused after a line at the last floor."""
    beyond = (0, 65, 66, 256 + last, 320, 2**16 + last, 2**32 + last, GREATEST)
    return lot.one_of((*beyond, last - 1, last - 1, lot.between(0, last - 1)))


def spoiled(lot, entry, parts, last):
    """An entry with the given ones of its four numbers made wrong."""
    makers = (
        lambda: bad_floor(lot, last),
        lambda: lot.one_of(BAD_CLASSES),
        lambda: lot.one_of(BAD_LOADS),
        lambda: lot.one_of(BAD_AREAS),
    )
    for part in parts:
        entry = with_part(entry, part, makers[part]())
    return entry


FAULTS = tuple(parts for size in range(1, 5) for parts in combinations(range(4), size))


def order_columns(script, lot):
    """Every set of faults in one entry; the number is that of the first."""
    for turn in range(12):
        script.open(turn + 1)
        script.enter(3, 1, 3_000, 2_000)
        for parts in FAULTS:
            number = script.enter(*spoiled(lot, (4, 1, 2_000, 900), parts, 3))
            require(number == 3 + parts[0], f"faults {parts}: number {number}")
        script.ask(4)
        script.enter(4, 1, 2_000, 900)
        finish(script, lot)


# ---- (e) Floors ----------------------------------------------------------

FLOOR_COLUMNS = (
    # A refused line's floor does not bind the next one; the last accepted line's does.
    ((2, 1, 2_000, 900), (10, 4, 2_000, 900), (3, 1, 2_000, 900), (64, 1, 2_000, 0), (3, 2, 2_500, 50), (2, 1, 1, 1)),
    ((9, 0, 1, 1), (8, 1, 0, 1), (7, 1, 1, 0), (1, 1, 1, 1), (1, 3, 2, 2), (2, 1, 50_001, 1), (1, 1, 3, 3)),
    ((65, 1, 2_000, 900), (64, 1, 2_000, 900), (63, 1, 2_000, 900), (64, 1, 5_000, 900), (65, 1, 2_000, 900)),
    ((64, 1, 2_000, 20_000), (64, 2, 2_000, 20_000), (64, 3, 2_000, 20_000), (64, 1, 5_001, 20_000)),
    ((1, 1, 2_000, 900), (64, 1, 2_000, 900)),
    ((2, 1, 4_000, 20_000), (2, 1, 4_000, 20_000), (7, 1, 4_000, 20_000), (7, 1, 4_000, 20_000), (40, 1, 1, 1)),
    ((5, 1, 100, 100), (5, 1, 100, 100), (4, 1, 100, 100), (6, 1, 100, 100), (5, 1, 100, 100), (6, 1, 100, 100)),
    ((3, 2, 100, 100), (2, 2, 100, 100), (1, 2, 100, 100), (4, 2, 100, 100), (1, 2, 100, 100)),
    # Not smaller than the refused line's floor, but smaller than the last accepted line's.
    ((5, 1, 900, 900), (3, 1, 900, 900), (4, 1, 900, 900), (3, 1, 900, 900), (5, 1, 900, 900), (4, 1, 900, 900)),
    ((0, 1, 900, 900), (9, 1, 900, 900), (1, 4, 900, 900), (1, 1, 900, 900), (8, 1, 900, 0), (8, 1, 900, 900)),
)


def floor_columns(script, lot):
    """Skipped and repeated floors, floor 64, and floors that go up again."""
    for turn, entries in enumerate(FLOOR_COLUMNS):
        column(script, lot, 1 + turn % 3, entries)
        column(script, lot, 7 + turn % 6, entries)


def empty_columns(script, lot):
    """Columns with no line accepted; asking is refused everywhere."""
    for turn in range(18):
        script.open(1 + turn % 12)
        for _ in range(turn % 5):
            script.enter(*spoiled(lot, PLAIN, lot.one_of(FAULTS), 1))
        require(not script.column.lines, "a spoiled line is accepted")
        for floor in (0, 1, 5, 64, 65, lot.any_size()):
            script.ask(floor)
        script.list(lot.between(0, 6), turn % 4)


# ---- (f) Influence areas at and beside the cap and the least shares ------

EDGES = (*range(3_699, 3_722), *range(33_412, 33_421), *range(92_818, 92_827))
CODES_BY_FACTOR = {4: (1, 2), 3: (3,), 2: (4, 5, 6), 1: (7, 8, 9, 10, 11, 12)}
OTHER_LINES = ((2, 2_500), (3, 4_000), (1, 5_001), (2, 1), (3, 50_000), (1, 6_000))  # class and load, no formula


def parted(lot, whole, parts):
    """A whole number parted by lot into numbers of 1 or more."""
    cuts = []
    while len(cuts) < parts - 1:
        cut = lot.between(1, whole - 1)
        if cut not in cuts:
            cuts.append(cut)
    ends = [0, *sorted(cuts), whole]
    return [after - before for before, after in zip(ends, ends[1:])]


def edge_entries(lot, loads, area, floors):
    """Formula lines of a summed area, one a floor, then a line on the next floor that adds nothing to X."""
    floor, entries = lot.between(1, 5), []
    for part in parted(lot, area, floors):
        entries.append((floor, 1, lot.one_of(loads), part))
        floor += lot.one_of((1, 1, 2, 9))
    return [*entries, (floor, *lot.one_of(OTHER_LINES), lot.between(1, 500))]


def edge_columns(script, lot):
    """Every edge of X that a factor K can give, for n = 1, 2 and 3, then with one floor more and the same X."""
    for influence in EDGES:
        for k, codes in CODES_BY_FACTOR.items():
            if influence % k == 0:
                for floors in (1, 2, 3):
                    loads = lot.one_of(((2_000,), (5_000,), (1_000, 4_000), (lot.between(1, 5_000), 3, 4_999)))
                    column(script, lot, lot.one_of(codes), edge_entries(lot, loads, influence // k, floors))


def whole_columns(script, lot):
    """Columns where share * Lo is whole, or passes a whole number from one X to the next."""
    cases = [case for _ in range(60) for case in near_whole_load(lot)]
    cases += [case for _ in range(30) for case in at_whole_load(lot)]
    for load, _cls, floors, influence in cases:
        k = lot.one_of([k for k in CODES_BY_FACTOR if influence % k == 0])
        script.open(lot.one_of(CODES_BY_FACTOR[k]))
        for floor, area in enumerate(parted(lot, influence // k, max(1, min(floors, 3))), start=lot.between(1, 60)):
            script.enter(floor, 1, load, area)
        for floor in script.floors():
            script.ask(floor)
        list_around(script, lot, 1)


# ---- (g) Classes ---------------------------------------------------------

MIXED_COLUMNS = (
    ((1, 2, 2_500, 1_000), (2, 1, 2_000, 2_000), (3, 3, 4_000, 1_000), (4, 1, 6_000, 1_000), (5, 1, 5_000, 9_000)),
    ((1, 1, 2_000, 8_000), (1, 2, 2_000, 90_000), (1, 3, 2_000, 90_000), (1, 1, 5_001, 90_000), (2, 1, 2_000, 100)),
    ((1, 1, 5_000, 5_000), (2, 1, 5_001, 5_000), (3, 1, 4_999, 5_000), (4, 1, 5_000, 40_000)),
    ((1, 3, 5_000, 5_000), (1, 3, 5_001, 5_000), (2, 3, 1, 1), (3, 3, 50_000, 200_000)),
    ((1, 2, 5_000, 5_000), (1, 2, 5_001, 5_000), (2, 2, 1, 1), (3, 2, 50_000, 200_000)),
    ((1, 1, 5_001, 5_000), (1, 1, 50_000, 5_000), (2, 1, 5_001, 1), (3, 1, 50_000, 200_000)),
    ((1, 3, 1, 1), (2, 1, 1, 1), (3, 2, 1, 1), (4, 2, 2, 1), (5, 2, 3, 1), (6, 2, 4, 1), (7, 2, 5, 1)),
    ((1, 1, 1, 200_000), (2, 1, 2, 200_000), (3, 1, 3, 200_000), (4, 1, 4, 200_000), (5, 1, 5, 200_000)),
)


def class_columns(script, lot):
    """Mixed classes, no formula line at all, and loads about 5,000 in each class."""
    for entries in MIXED_COLUMNS:
        for code in (1, 3, 4, 7):
            column(script, lot, code, entries)
    for cls in (1, 2, 3):
        for load in (4_999, 5_000, 5_001):
            column(script, lot, 1, ((1, cls, load, 2_000), (2, cls, load, 1), (2, 1, 2_000, 1_500)))


def falling_columns(script, lot):
    """Columns whose figure falls at the second floor: a great area above, a small one below."""
    for turn in range(30):
        code = lot.between(1, 12)
        kinds = ((1, lot.between(5_001, 50_000)), (2, lot.between(100, 50_000)), (1, lot.between(100, 5_000)))
        cls, load = kinds[turn % 3]
        floor = lot.between(1, 63)
        script.open(code)
        script.enter(floor, cls, load, lot.between(100_000, 200_000))
        script.enter(floor + 1, lot.between(1, 3), lot.between(1, 200), lot.between(1, 100))
        above, below = script.ask(floor).figure, script.ask(floor + 1).figure
        require(below < above, f"no falling figure: {above}, {below}")
        finish(script, lot)


# ---- (h) Long columns ----------------------------------------------------


def some_line(lot, floor):
    """A line that is accepted at a floor not above the last one."""
    cls, most = lot.one_of(((1, 5_000), (1, 5_000), (1, 5_000), (1, 50_000), (2, 5_000), (3, 9_000)))
    return floor, cls, lot.between(1, most), lot.between(1, lot.one_of((40, 400, 2_000)))


def rising_lines(lot, count, floors):
    """Accepted lines in number, over so many floors from the top."""
    return [some_line(lot, 1 + at * floors // count) for at in range(count)]


def counted_columns(script, lot):
    """Columns of 255, 256 and 257 entries and more, asked about each one at the end."""
    for tried, floors in ((255, 64), (256, 64), (257, 64), (255, 9), (256, 1), (257, 3), (258, 20), (300, 30)):
        script.open(lot.between(1, 12))
        for at, entry in enumerate(rising_lines(lot, tried, floors), start=1):
            script.enter(*entry)
            if at >= 254 and at <= 259:
                script.ask(script.last_floor())
                script.list(script.last_floor(), at % 4)
        finish(script, lot)


def full_columns(script, lot):
    """On a full column every entry is refused with 2, whatever else is wrong; on 255 lines not yet."""
    for code, held in ((1, 256), (6, 255)):
        script.open(code)
        for entry in rising_lines(lot, held, 40):
            script.enter(*entry)
        for round_ in range(2):
            for parts in ((), *FAULTS) if held + round_ >= 256 else FAULTS:
                number = script.enter(*spoiled(lot, (40, 1, 2_000, 50), parts, 40))
                require(number == (2 if held + round_ >= 256 else 3 + parts[0]), f"{parts}: number {number}")
            script.ask(40)
            script.enter(41, 1, 2_000, 50)
            script.ask(41)
        finish(script, lot)


def with_faults(lot, lines, faulty):
    """The lines with spoiled ones set between them at the given places of the whole."""
    rest, entries = list(lines), []
    while rest or len(entries) in faulty:
        if len(entries) in faulty:
            last = max((entry[0] for entry in entries if entry in lines), default=1)
            entries.append(spoiled(lot, some_line(lot, last), lot.one_of(FAULTS), last))
        else:
            entries.append(rest.pop(0))
    return entries


def tried_columns(script, lot):
    """300 entries tried: refused ones are not held, so fewer than 256, 255 or 256 lines are."""
    spread = tuple(range(3, 300, 7))  # 43 places
    for faulty, accepted in (
        (tuple(range(0, 300, 2)), 150),
        (tuple(range(0, 300, 5)), 240),
        ((*range(45),), 255),
        ((*range(44),), 256),
        ((*spread, 1, 2), 255),
        ((*spread, 0), 256),
        (spread, 256),  # the last entry is one too many
    ):
        script.open(lot.between(1, 12))
        lines = rising_lines(lot, 300 - len(faulty), lot.one_of((5, 20, 64)))
        for at, entry in enumerate(with_faults(lot, lines, faulty)):
            script.enter(*entry)
            if at in (99, 255, 256, 298):
                script.ask(script.last_floor())
        require(len(script.column.lines) == accepted, f"{len(script.column.lines)} lines held, not {accepted}")
        finish(script, lot)


def going_on_columns(script, lot):
    """A column filled up after refused members; the lines of before still count."""
    for code, refused in ((1, 0), (3, 2**32 + 3)):
        script.open(code)
        lines = rising_lines(lot, 270, 27)
        for at, entry in enumerate(lines):
            if at in (200, 230):
                script.open(refused + 13 * (at == 230 and refused == 0))
            script.enter(*entry)
        finish(script, lot)
        script.open(code)
        script.ask(1)
        script.enter(*lines[0])
        finish(script, lot)


def largest_columns(script, lot):
    """256 lines of the largest and of the smallest numbers, on one floor and on 64."""
    for code, cls, load, area, floors in (
        (1, 1, 50_000, 200_000, 64),
        (2, 2, 50_000, 200_000, 64),
        (1, 3, 50_000, 200_000, 64),
        (1, 1, 5_000, 200_000, 64),
        (2, 1, 5_000, 200_000, 1),
        (12, 3, 50_000, 200_000, 1),
        (1, 1, 1, 1, 64),
        (3, 1, 4_999, 121, 64),
        (7, 1, 1, 363, 1),
    ):
        script.open(code)
        for at in range(256):
            script.enter(64 if floors == 1 else 1 + at * floors // 256, cls, load, area)
        finish(script, lot)
        script.enter(64, cls, load, area)
        script.ask(64)


# ---- (i) Columns by lot --------------------------------------------------

CLASS_HABITS = ((1,), (1,), (1, 1, 1, 2, 3), (1, 2, 3), (1, 2), (2, 3), (1, 3))
LOAD_HABITS = ((1, 5_000), (1, 5_000), (1_000, 4_000), (1, 20), (4_998, 5_003), (1, 50_000), (5_001, 50_000))
AREA_HABITS = ((1, 300), (50, 1_500), (500, 5_000), (500, 5_000), (5_000, 40_000), (1, 200_000))
STEPS = ((0, 1), (1,), (0, 0, 1), (1, 2, 5), (0, 1, 1, 20))


def perhaps_ask(script, lot, number, floor):
    """Sometimes a question between two entries, more often after a refused one."""
    if number != 0 and lot.between(1, 3) == 1:
        script.ask(lot.one_of((script.last_floor(), floor)))
    elif lot.between(1, 12) == 1:
        script.ask(lot.one_of((script.last_floor(), floor, *floors_without_line(script, lot))))
    elif lot.between(1, 30) == 1:
        script.list(script.last_floor(), lot.between(0, 3))


def enter_by_lot(script, lot, count, faults):
    """Enters lines by lot; of so many entries one is spoiled, none where faults is 0."""
    habits = (lot.one_of(CLASS_HABITS), lot.one_of(LOAD_HABITS), lot.one_of(AREA_HABITS), lot.one_of(STEPS))
    classes, loads, areas, steps = habits
    floor = lot.one_of((1, 1, 1, 2, lot.between(1, 64)))
    for _ in range(count):
        entry = (floor, lot.one_of(classes), lot.between(*loads), lot.between(*areas))
        if faults and lot.between(1, faults) == 1:
            parts = lot.one_of(FAULTS[:4] if lot.between(1, 3) > 1 else FAULTS)
            entry = spoiled(lot, entry, parts, script.last_floor())
        number = script.enter(*entry)
        perhaps_ask(script, lot, number, entry[0])
        floor = min(64, floor + lot.one_of(steps))


def columns_by_lot(script, lot):
    """Short columns of every kind; now and then a member is refused between."""
    for _ in range(1_500):
        script.open(lot.between(1, 12))
        enter_by_lot(script, lot, lot.between(0, lot.one_of((3, 8, 12))), lot.one_of((0, 0, 5, 2)))
        finish(script, lot)
        if lot.between(1, 25) == 1:
            near, cut, far = 12 + lot.between(1, 244), 256 + lot.between(0, 12), 13 + lot.any_size() // 2
            script.open(lot.one_of((0, 13, near, cut, far)))
            enter_by_lot(script, lot, lot.between(0, 4), lot.one_of((0, 2)))
            finish(script, lot)


def long_columns_by_lot(script, lot):
    """Columns of 40 to 120 entries."""
    for _ in range(10):
        script.open(lot.between(1, 12))
        enter_by_lot(script, lot, lot.between(40, 120), lot.one_of((0, 4)))
        finish(script, lot)


# ---- (j) Lists with refused entries --------------------------------------

LISTED = 5  # entries of a short list


def short_lists(script, lot):
    """The first refused entry of each number at each place, then others or none; asked by list after every entry."""
    for number, place, others in product((3, 4, 5, 6), range(1, LISTED + 1), (0, 2)):
        script.open(lot.between(1, 12))
        for at in range(1, LISTED + 1):
            last = script.last_floor()
            entry = some_line(lot, last + lot.between(0, 4))
            if at == place:
                entry = spoiled(lot, entry, lot.one_of([parts for parts in FAULTS if parts[0] == number - 3]), last)
            elif at > place and lot.between(1, 3) <= others:
                entry = spoiled(lot, entry, lot.one_of(FAULTS), last)
            script.enter(*entry)
            passed = script.list(script.last_floor())
            right = (number, place) if at >= place else (0, 0)
            require((passed.first, passed.place) == right, f"{passed}, not {right}")
        script.list(script.last_floor(), lot.between(1, 3))


def long_lists(script, lot):
    """Lists of 300 entries: all refused, 44 past a full column, and the first one refused just before it is full."""
    for good, parts, passed in (
        (0, (0, 3), Passed(300, 3, 1)),
        (0, (3,), Passed(300, 6, 1)),
        (256, (1, 2), Passed(44, 2, 257)),
        (255, (2,), Passed(45, 5, 256)),
    ):
        script.open(lot.between(1, 12))
        for entry in rising_lines(lot, good, 50):
            script.enter(*entry)
        script.list(script.last_floor())
        for at in range(good + 1, 301):
            script.enter(*spoiled(lot, some_line(lot, script.last_floor()), parts, script.last_floor()))
            if at in (256, 257, 258, 300):
                script.list(script.last_floor(), at % 4)
        found = script.list(script.last_floor())
        require(found == passed, f"{found}, not {passed}")


def full_lists(script, lot):
    """A list whose first refused entry is no good line too many, though one comes later: at place 1, 2, 100 and 256."""
    for place, number in ((1, 4), (2, 6), (100, 3), (256, 5)):
        script.open(lot.between(1, 12))
        lines = rising_lines(lot, 260, 20)
        for at, entry in enumerate(lines, start=1):
            if at == place:
                entry = spoiled(lot, entry, (number - 3,), script.last_floor())
            script.enter(*entry)
            if at in (place, 257, 258):
                script.list(script.last_floor())
        found = script.list(script.last_floor())
        require(found == Passed(4, number, place), f"{found}")


# ---- The lines -----------------------------------------------------------

MAKERS = (
    paper_columns,
    good_codes,
    refused_codes,
    limit_columns,
    order_columns,
    floor_columns,
    empty_columns,
    edge_columns,
    whole_columns,
    class_columns,
    falling_columns,
    counted_columns,
    full_columns,
    tried_columns,
    going_on_columns,
    largest_columns,
    columns_by_lot,
    long_columns_by_lot,
    short_lists,
    long_lists,
    full_lists,
)


@lru_cache(maxsize=None)
def script():
    """All questions, one maker after another; made once."""
    made, lot = Script(), Lot(20_100_232)
    for maker in MAKERS:
        maker(made, lot)
    return made


def case_count():
    """How many questions about columns there are."""
    return len(script().reads)


def column_count():
    """How many columns they open, the one there at the start counted too."""
    return script().columns


def reads():
    """The lines the trial program reads."""
    return script().reads


def prints():
    """The lines the trial program is to print."""
    return script().prints
