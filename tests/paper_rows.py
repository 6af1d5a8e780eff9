"""Compares the proved table of figures with the paper's rows marked P, and the proved examples with the reckoning."""

import sys

sys.dont_write_bytecode = True  # leave no .pyc behind

from pathlib import Path

TESTS = Path(__file__).resolve().parent
sys.path.insert(0, str(TESTS))

from reckoning import proved

FIGURES = "crates/reduction/specs/tables/Figures.antt"
ASKED = "crates/figure/specs/tables/Examples.antt"
EXAMPLES = "crates/error_bound/specs/tables/Examples.antt"  # may use the lists that ASKED defines
PASTES = "crates/column/specs/tables/Pasting.antt"
WRITES = "crates/sheet_writer/specs/tables/Examples.antt"


def read(root, place):
    """The text of a file; none where it cannot be read, which its own comparison says."""
    try:
        return (root / place).read_text(encoding="utf-8")
    except (OSError, UnicodeError):
        return ""


def complaints(root, place, look):
    """What is wrong with the table of a file, a line each; look tells it from the file's text."""
    try:
        return [f"{place}: {said}" for said in look((root / place).read_text(encoding="utf-8"))]
    except (OSError, UnicodeError, proved.Unreadable) as wrong:
        return [f"{place}: {wrong}"]


def compare(root):
    """Says what differs, or that nothing does; gives the exit status."""
    lists = read(root, ASKED)
    said = complaints(root, FIGURES, proved.complaints_of_figures)
    said += complaints(root, ASKED, proved.complaints_of_examples)
    for look in proved.complaints_of_examples, proved.complaints_of_pins, proved.complaints_of_refusing:
        said += complaints(root, EXAMPLES, lambda text, look=look: look(text, lists))
    said += complaints(root, PASTES, proved.complaints_of_pastes)
    said += complaints(root, WRITES, proved.complaints_of_writes)
    for each in said:
        print(each)
    if said:
        return 1
    rows, asked = len(proved.rows_of(read(root, FIGURES))), len(proved.examples_of(lists))
    examples = len(proved.examples_of(read(root, EXAMPLES), lists))
    pastes, written = len(proved.pastes_of(read(root, PASTES))), len(proved.writes_of(read(root, WRITES)))
    told = f"{asked} and {examples} proved examples, {pastes} pastes and {written} writes are as reckoned"
    print(f"{rows} proved rows of figures are the paper's with P; {told}")
    return 0


if __name__ == "__main__":
    if sys.argv[1:]:
        print("usage: paper_rows.py", file=sys.stderr)
        sys.exit(2)
    sys.exit(compare(TESTS.parent))
