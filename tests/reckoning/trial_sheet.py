"""Joins the good and the damaged sheets into the two texts of the trial of reading and of the program takedown."""

from collections import Counter
from functools import lru_cache

from reckoning import trial_sheet_damaged, trial_sheet_read
from reckoning.sheet import read, report_of
from reckoning.trial_reduction import Lot, require
from reckoning.trial_whole import fresh_by_kind
from reckoning.writes import written_back

STDIN = "crates/trial_sheet/stdin"
STDOUT = "crates/trial_sheet/stdout"
SIZE_LIMIT = 1_000_000  # of each text; the machine that runs the trial program takes at most 1,048,576

LEAST_READ, LEAST_REFUSED = 1_000, 1_500
LEAST_EACH = {1: 20, 2: 3, 3: 20, 4: 20, 5: 20, 6: 20, 9: 20, 10: 20, 11: 3}  # how often each number is met


# ---- The cases -----------------------------------------------------------


def cases_by_kind():
    """The sheets kind by kind, in the order of the text; none is asked twice."""
    return fresh_by_kind((*trial_sheet_read.MAKERS, *trial_sheet_damaged.MAKERS), Lot(20_250_101))


@lru_cache(maxsize=None)
def sheets():
    """Every sheet in the order of the text; made once."""
    return tuple(sheet for kind in cases_by_kind().values() for sheet in kind)


@lru_cache(maxsize=None)
def readings():
    """The reading of each sheet; made once."""
    return tuple(read(sheet) for sheet in sheets())


def case_count():
    """How many sheets the texts hold."""
    return len(sheets())


def counts_by_number():
    """How many sheets have each number; 0 is that of the sheets that are read."""
    return Counter(reading.number for reading in readings())


def tally():
    """What becomes of the sheets, counted."""
    count_read = counts_by_number()[0]
    return {"sheets read": count_read, "sheets refused": case_count() - count_read}


def require_enough():
    """Stops where too few sheets are read or refused, or a number is met too seldom, or one that no sheet has."""
    counts = counts_by_number()
    require(set(counts) == {0, *LEAST_EACH}, f"numbers {sorted(counts)}")
    for number, least in LEAST_EACH.items():
        require(counts[number] >= least, f"number {number} is met {counts[number]} times")
    require(counts[0] >= LEAST_READ, f"{counts[0]} sheets are read")
    require(case_count() - counts[0] >= LEAST_REFUSED, f"{case_count() - counts[0]} sheets are refused")


# ---- The texts -----------------------------------------------------------


def asked(sheet):
    """A sheet as the trial program reads it: a line with the count of its bytes, then the bytes."""
    return b"sheet %d\n" % len(sheet) + sheet


def told_back(sheet, reading):
    """What it is to print of writing a sheet that is read: the length, and that it is the sheet; else nothing."""
    return b"" if reading.number != 0 else b"written=%d same\n" % len(written_back(sheet, reading))


def told(sheet, reading):
    """What the trial program is to print for a sheet: the report, the place of the part and the part, the writing."""
    place = f"start={reading.start} end={reading.end} part=".encode("ascii")
    return report_of(reading) + place + sheet[reading.start : reading.end] + b"\n" + told_back(sheet, reading)


def files():
    """The two texts by their place in the repository; the answers come in the order of the sheets."""
    require_enough()
    stdin = b"".join(asked(sheet) for sheet in sheets())
    stdout = b"".join(told(*pair) for pair in zip(sheets(), readings(), strict=True))
    made = {STDIN: stdin, STDOUT: stdout}
    for place, content in made.items():
        require(len(content) < SIZE_LIMIT, f"{place} has {len(content)} bytes")
    return made
