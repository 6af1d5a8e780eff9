"""Writes the texts of the trial programs from the second reckoning; with --check only compares the stored ones."""

import sys

sys.dont_write_bytecode = True  # leave no .pyc behind

from itertools import zip_longest
from pathlib import Path

TESTS = Path(__file__).resolve().parent
ROOT = TESTS.parent
sys.path.insert(0, str(TESTS))

from reckoning import trial, trial_combination, trial_sheet

TRIALS = (trial, trial_combination, trial_sheet)


def expected_files():
    """The texts of every trial by their place in the repository."""
    return {place: made for each in TRIALS for place, made in each.files().items()}


def write(expected):
    """Stores the texts, making folders where needed."""
    for place, made in expected.items():
        path = ROOT / place
        path.parent.mkdir(parents=True, exist_ok=True)
        path.write_bytes(made)
        print(f"{place}: {len(made)} bytes written")


def shown(line):
    """A line for the eye; None is the end of the text."""
    return "end of text" if line is None else ascii(line.decode("latin-1"))


def first_difference(stored, made):
    """The number of the first line that differs, and both lines."""
    pairs = zip_longest(stored.split(b"\n"), made.split(b"\n"))
    for number, (was, now) in enumerate(pairs, start=1):
        if was != now:
            return f"line {number}: stored {shown(was)}, reckoned {shown(now)}"
    raise AssertionError("the texts do not differ")


def complaint(place, made):
    """One line that says what is wrong with a stored text, or None."""
    path = ROOT / place
    if not path.is_file():
        return f"{place}: missing"
    stored = path.read_bytes()
    if stored == made:
        return None
    return f"{place}: differs at {first_difference(stored, made)}"


def tallies():
    """The cases of all trials, then what each trial counts for itself, by name."""
    cases = sum(each.case_count() for each in TRIALS)
    own = [f"{count} {name}" for each in TRIALS for name, count in each.tally().items()]
    return ", ".join((f"{cases} cases", *own))


def check(expected):
    """Compares the stored texts with the reckoned ones; gives the exit status."""
    complaints = [said for said in (complaint(*entry) for entry in expected.items()) if said]
    for said in complaints:
        print(said)
    if complaints:
        return 1
    print(f"{len(expected)} files compared, {tallies()}, no difference")
    return 0


def main(arguments):
    """Writes, or compares with --check."""
    if arguments == ["--check"]:
        return check(expected_files())
    if arguments:
        print("usage: make_expected.py [--check]", file=sys.stderr)
        return 2
    write(expected_files())
    return 0


if __name__ == "__main__":
    sys.exit(main(sys.argv[1:]))
