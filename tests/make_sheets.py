"""Writes the sheets of the trial of takedown into a folder: NAME.txt, and NAME.expected with what it must print."""

import sys

sys.dont_write_bytecode = True  # leave no .pyc behind

from pathlib import Path

sys.path.insert(0, str(Path(__file__).resolve().parent))

from reckoning.combination import agreed
from reckoning.lists import at_floor
from reckoning.sheet import MOST_BYTES, read, read_by_lines, read_by_pattern, report_of
from reckoning.trial_reduction import Lot, require
from reckoning.trial_sheet_read import GREAT, made

LINES = 256
FLOORS = (1, 2, 3, 5, 6, 9, 10, 11, 14, 17, 20, 22, 25, 28, 31, 33, 36, 40, 44, 47, 50, 53, 57, 60, 62, 64)
EDGE_LOADS = (1, 4_999, 5_000, 5_001, 49_999, 50_000)
EDGE_AREAS = (1, 9, 10, 199_999, 200_000)
EFFECTS = (20_250_701, -7, 0, 314_159, -1_000_000_000_000, 98_765_432_109)


# ---- The sheets -----------------------------------------------------------


def of_any_size(lot, most):
    """A number from 1 to a greatest one, each count of digits about as often."""
    digits = lot.between(1, len(str(most)))
    return min(most, lot.between(10 ** (digits - 1), 10**digits - 1))


def entries_256(lot):
    """256 lines on 26 floors, of all classes, with loads and areas of every count of digits and at their limits."""
    loads = [*EDGE_LOADS, *(of_any_size(lot, 50_000) for _ in range(LINES))]
    areas = [*EDGE_AREAS, *(of_any_size(lot, 200_000) for _ in range(LINES))]
    floors = [FLOORS[at * len(FLOORS) // LINES] for at in range(LINES)]
    return [(floor, lot.between(1, 3), lot.one_of(loads), lot.one_of(areas)) for floor in floors]


def sheet_of_256_lines():
    """A sheet of as many lines as a member holds."""
    return made(2, entries_256(Lot(256)), EFFECTS)


def longest_text():
    """A text of 32,768 bytes that is refused in its last line only: `quake` has digits up to the last byte, a newline.

    Before it are 256 lines of as many digits as go, and the other effects: the reader has all of the text to look at.
    """
    sheet = made(12, [(1 + at // 4, 1 + at % 3, *GREAT) for at in range(LINES)], EFFECTS)
    start = sheet[: sheet.rindex(b"=") + 1]
    return start + b"9" * (MOST_BYTES - len(start) - 1) + b"\n"


def sheets():
    """The texts by name."""
    longest = longest_text()
    return {"lines256": sheet_of_256_lines(), "longest": longest, "toolong": longest + b"\n"}


# ---- What is printed for them ---------------------------------------------


def require_floors(reading):
    """Stops where n, X and the figure of a floor are not the same by another way."""
    for row in report_of(reading).decode("ascii").splitlines()[:-2]:
        floor, *numbers = (int(part.split("=")[1]) for part in row.split())
        listed = at_floor(reading.code, reading.column.lines, floor)
        agreed(numbers, [listed.floors, listed.influence, listed.figure], f"floor {floor}")


def require_many_sizes(reading):
    """Stops where the sheet of 256 lines has not every class, and loads and areas of every count of digits."""
    lines = reading.column.lines
    found = [len(lines), len({line.floor for line in lines}), {line.cls for line in lines}]
    require(found == [LINES, len(FLOORS), {1, 2, 3}], f"lines, floors and classes: {found}")
    require({len(str(line.load)) for line in lines} == set(range(1, 6)), "not every count of digits of a load")
    require({len(str(line.area)) for line in lines} == set(range(1, 7)), "not every count of digits of an area")


# The number of each sheet, 0 where it is read, its line K, and how many bytes it has where that matters.
RIGHT = {"lines256": (0, 263, None), "longest": (10, 263, MOST_BYTES), "toolong": (11, 0, MOST_BYTES + 1)}


def expected(name, text):
    """What takedown must print for a sheet, reckoned both ways."""
    reading = agreed(read_by_lines(text), read_by_pattern(text), name)
    number, line, length = RIGHT[name]
    require(reading == read(text) and (reading.number, reading.line) == (number, line), f"{name}: {reading}")
    require(length is None or len(text) == length, f"{name} has {len(text)} bytes")
    if number == 0:
        require_floors(reading)
        require_many_sizes(reading)
    if number == 10:
        require(reading.end == len(text) - 1, f"{name}: the refused line ends at {reading.end}")
    return report_of(reading)


def main(arguments):
    """Writes the files and says what they are; gives the exit status."""
    if len(arguments) != 1:
        print("usage: make_sheets.py FOLDER", file=sys.stderr)
        return 2
    folder = Path(arguments[0])
    folder.mkdir(parents=True, exist_ok=True)
    for name, text in sheets().items():
        printed = expected(name, text)
        (folder / f"{name}.txt").write_bytes(text)
        (folder / f"{name}.expected").write_bytes(printed)
        said = printed.decode("ascii").splitlines()
        what = said[0] if len(said) == 1 else f"{len(said)} lines"
        print(f"{name}.txt: {len(text)} bytes; {name}.expected: {what}")
    return 0


if __name__ == "__main__":
    sys.exit(main(sys.argv[1:]))
