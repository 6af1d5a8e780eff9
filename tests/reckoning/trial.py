"""Joins the questions about K and R and those about columns into the two texts of the one trial program."""

from reckoning import trial_column, trial_reduction
from reckoning.trial_reduction import require

STDIN = "crates/trial/stdin"
STDOUT = "crates/trial/stdout"
STDIN_LIMIT = 950_000
STDOUT_LIMIT = 1_000_000  # the machine that runs the trial program takes at most 1,048,576

PARTS = (trial_reduction, trial_column)


def text(lines):
    """The lines as bytes, each ended by one byte 10."""
    return "".join(line + "\n" for line in lines).encode("ascii")


def files():
    """The two texts by their place in the repository; line k of stdout answers line k of stdin."""
    stdin = text(line for part in PARTS for line in part.reads())
    stdout = text(line for part in PARTS for line in part.prints())
    require(len(stdin) < STDIN_LIMIT, f"stdin has {len(stdin)} bytes")
    require(len(stdout) < STDOUT_LIMIT, f"stdout has {len(stdout)} bytes")
    return {STDIN: stdin, STDOUT: stdout}


def case_count():
    """How many questions the texts hold."""
    return sum(part.case_count() for part in PARTS)


def column_count():
    """How many columns the questions open."""
    return trial_column.column_count()


def tally():
    """What the questions are about, counted."""
    return {"columns": column_count()}
