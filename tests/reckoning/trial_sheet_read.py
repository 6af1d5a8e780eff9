"""Makes the sheets of the trial that are meant to be read: members, lines, effects, rows and figures of every kind."""

from collections import Counter
from itertools import product
from pathlib import Path

from reckoning.column import Line, ask
from reckoning.combination import LIMIT
from reckoning.paper import INTERIOR
from reckoning.sheet import live_effect, read, seven_effects, write
from reckoning.trial_column import (
    AREA_HABITS,
    CLASS_HABITS,
    LOAD_HABITS,
    MIXED_COLUMNS,
    STEPS,
    edge_entries,
    rising_lines,
)
from reckoning.trial_effects import accepted, alike, common, sharing, small, sparse, spread, with_place
from reckoning.trial_reduction import require

SIX = range(6)  # dead, roof, snow, rain, wind, quake
NO_EFFECTS = (0,) * 6

SAMPLE = (Path(__file__).resolve().parents[2] / "examples" / "sample.txt").read_bytes()  # the paper's sheet


def made(code, entries, effects):
    """A sheet from its numbers; an entry is floor, class, load and tributary area."""
    return write(code, [Line(*entry) for entry in entries], effects)


def six(lot, habit):
    """Six effects of a habit that gives seven; the live one is left out."""
    dead, _live, *others = habit(lot)
    return (dead, *others)


# ---- The paper's sheets, and effects without lines -------------------------


def paper_sheets(_lot):
    """The paper's sheet, its column of two loads, and its case of dead load and wind."""
    code, entries, _printed = INTERIOR
    return [SAMPLE, made(code, entries, NO_EFFECTS), made(1, (), (100_000, 0, 0, 0, 60_000, 0))]


def effects_alone(_lot):
    """One effect alone, of both signs: small, at 10^12 and just below it."""
    sizes = (1, 9, 10, LIMIT - 1, LIMIT)
    signed = [size * sign for size in sizes for sign in (1, -1)]
    return [made(12, (), with_place(NO_EFFECTS, place, size)) for place in SIX for size in signed]


def effects_at_limits(_lot):
    """All six at 10^12 or minus 10^12, in every pattern of signs."""
    return [made(1, (), [LIMIT * sign for sign in signs]) for signs in product((1, -1), repeat=6)]


def digit_counts(lot):
    """Effects of 1 to 13 digits: the least and the greatest number of so many digits, and some between."""
    found = []
    for digits in range(1, 13):
        least, greatest = 10 ** (digits - 1), 10**digits - 1
        found.append([least] * 6)
        found.append([-greatest if place % 2 else greatest for place in SIX])
        found.append([lot.between(least, greatest) * lot.one_of((1, -1)) for _ in SIX])
    return [made(3, (), effects) for effects in (NO_EFFECTS, *found, [LIMIT] * 6)]


def effects_without_lines(lot):
    """Sheets of effects only, of every habit."""
    return [made(lot.between(1, 12), (), six(lot, accepted)) for _ in range(110)]


# ---- Members, lines and floors --------------------------------------------


def every_code(lot):
    """Every member of Table 4.2 over lines of mixed uses."""
    found = []
    for code in range(1, 13):
        found.append(made(code, ((1, 1, 2_000, 3_000), (2, 2, 2_500, 500), (5, 1, 5_000, 40_000)), six(lot, common)))
        found.append(made(code, lot.one_of(MIXED_COLUMNS), six(lot, common)))
        found.append(made(code, ((1, 1, 3_000, 9_000),), six(lot, small)))
    return found


FLOOR_LISTS = (
    *((1,), (2,), (10,), (63,), (64,), (1, 64), (1, 2), (1, 1), (64, 64), (9, 10), (2, 2, 2), (1, 2, 3, 4)),
    *((3, 7, 8, 20), (5, 5, 9, 9, 64), (1, 1, 1, 2), (1, 2, 2, 2), (1, 9, 10, 11, 63, 64), (62, 63, 64)),
)


def floor_lists(lot):
    """Floors that skip, several lines on a floor, and the first and last floor."""
    found = []
    for floors, cls in product(FLOOR_LISTS, (1, 2, 3)):
        entries = [(floor, cls, lot.between(1, 6_000), lot.between(1, 9_000)) for floor in floors]
        found.append(made(lot.between(1, 12), entries, six(lot, lot.one_of((common, small)))))
    return found


def numbers_at_limits(lot):
    """Each number of a line at its limits and beside them, in each class."""
    loads, areas = (1, 2, 4_999, 5_000, 5_001, 49_999, 50_000), (1, 2, 199_999, 200_000)
    entries = [(floor, cls, 3_000, 1_000) for floor in (1, 2, 63, 64) for cls in (1, 2, 3)]
    entries += [(4, cls, load, 1_234) for cls in (1, 2, 3) for load in loads]
    entries += [(4, cls, 2_345, area) for cls in (1, 2, 3) for area in areas]
    return [made(lot.between(1, 12), (entry,), NO_EFFECTS) for entry in entries]


def influence_edges(lot):
    """Influence areas at the cap and at the least shares, then a floor that adds nothing to X."""
    found = []
    for influence, floors in product((3_700, 3_712, 3_716, 3_720, 33_416, 92_820, 92_824), (1, 2)):
        found.append(made(1, edge_entries(lot, (2_000, 5_000), influence // 4, floors), six(lot, small)))
    return found


# ---- The live effect ------------------------------------------------------


def hundredths(lot):
    """Figures that leave 0, 1, 50, 99 and others over when divided by 100; only the live effect, so max tells it."""
    found = []
    for rest, more in product((0, 1, 2, 49, 50, 51, 98, 99), (0, 1, 2)):
        area = lot.between(1, 900) * 100
        entries = [(1, 3, 100, area)] * more + [(2, 3, 1, lot.between(1, 99) * 100 + rest)]
        found.append(made(1, entries, NO_EFFECTS))
        require(ask(read(found[-1]).column, 2).figure % 100 == rest, f"not {rest} over")
    return found


def falling_figures(lot):
    """The figure falls at the last floor, and that floor's counts; with effects that let max tell it."""
    found = []
    for turn in range(24):
        cls, load = ((1, lot.between(5_001, 50_000)), (2, lot.between(100, 50_000)))[turn % 2]
        above = (lot.between(1, 30), cls, load, lot.between(1_000, 200_000))
        below = (lot.between(31, 64), lot.between(1, 3), lot.between(1, 50), lot.between(1, 99))
        found.append(made(lot.between(1, 12), (above, below), NO_EFFECTS))
    return found


# ---- Every row that can govern --------------------------------------------

TIMES_EACH, DRAWS = 5, 4_000
# L is never below 0 here. Where L or W is not 0, one of rows 14 to 19 is below these; else row 1, 5, 8, 11 or 22
# comes before them.
NEVER_LEAST = (2, 3, 4)


def scaled(lot, live):
    """Six effects of about the size of the live one, some of them 0."""
    most = max(1, live * lot.one_of((1, 1, 2, 5)) // lot.one_of((1, 3)))
    return [lot.between(-most, most) * lot.one_of((0, 1, 1, 1)) for _ in SIX]


def governed(lot):
    """Each row that can govern is the greatest, and the least, several times beside a live effect or without lines."""
    counts = Counter({(sign, row): 0 for sign in (1, -1) for row in range(1, 26)})
    for row in NEVER_LEAST:
        del counts[-1, row]
    found = []
    for _ in range(DRAWS):
        entries = [(1, lot.between(1, 3), lot.between(1, 5_000), lot.between(1, 9_000))] * lot.one_of((0, 1, 1))
        column = read(made(1, entries, NO_EFFECTS)).column
        sheet = made(1, entries, scaled(lot, live_effect(column) or 1_000))
        seven = seven_effects(read(sheet))
        wanting = [(sign, sharing(seven, sign)[0]) for sign in (1, -1)]
        if any(counts[each] < TIMES_EACH for each in wanting if each in counts):
            found.append(sheet)
            counts.update(wanting)
    require(min(counts.values()) >= TIMES_EACH, f"some row governs too seldom: {counts}")
    return found


# ---- Long sheets ----------------------------------------------------------

GREAT = (50_000, 200_000)  # the greatest load and tributary area


def longest_report():
    """The sheet with the longest report: every floor, as many digits of X and of the figure as go together.

    125 formula lines make X 100,000,000 at the first floor. The other 68 lines there, and one on each floor below,
    are heavy; 95 of them and the formula lines make a figure of 10^12, which is reached at floor 28.
    """
    entries = [(1, 1, 5_000, 200_000)] * 125 + [(1, 3, *GREAT)] * 68
    entries += [(floor, 3, *GREAT) for floor in range(2, 65)]
    return made(1, entries, (0, 0, -LIMIT, LIMIT, LIMIT, 0))


def longest_sheet():
    """The longest sheet that is read: 256 lines of as many digits as go, and the least effects."""
    return made(12, [(64, 3, *GREAT)] * 256, [-LIMIT] * 6)


def long_sheets(lot):
    """The longest ones, one line on each of the 64 floors, and some of tens of lines."""
    every_floor = [(floor, lot.between(1, 3), lot.between(1, 6_000), lot.between(1, 900)) for floor in range(1, 65)]
    counts = ((20, 7), (33, 33), (40, 3), (64, 20))
    some = [made(lot.between(1, 12), rising_lines(lot, *count), six(lot, common)) for count in counts]
    return [longest_report(), longest_sheet(), made(1, every_floor, six(lot, spread)), *some]


# ---- Sheets by lot --------------------------------------------------------


def entries_by_lot(lot, count):
    """Lines from the top down, with habits of their own."""
    habits = (lot.one_of(CLASS_HABITS), lot.one_of(LOAD_HABITS), lot.one_of(AREA_HABITS), lot.one_of(STEPS))
    classes, loads, areas, steps = habits
    floor, entries = lot.one_of((1, 1, 2, lot.between(1, 60))), []
    for _ in range(count):
        entries.append((floor, lot.one_of(classes), lot.between(*loads), lot.between(*areas)))
        floor = min(64, floor + lot.one_of(steps))
    return entries


def sheet_by_lot(lot, most_lines):
    """Any good sheet of no line to so many."""
    habit = lot.one_of((common, common, small, sparse, spread, alike))
    return made(lot.between(1, 12), entries_by_lot(lot, lot.between(0, most_lines)), six(lot, habit))


def sheets_by_lot(lot):
    """Good sheets of every kind, most of them short."""
    return [sheet_by_lot(lot, lot.one_of((1, 2, 3, 3, 4, 6))) for _ in range(560)]


MAKERS = (
    paper_sheets,
    effects_alone,
    effects_at_limits,
    digit_counts,
    effects_without_lines,
    every_code,
    floor_lists,
    numbers_at_limits,
    influence_edges,
    hundredths,
    falling_figures,
    governed,
    long_sheets,
    sheets_by_lot,
)
