"""Prints the cases of the writing of CR 2, one line a write, each with the answer of the second reckoning."""

import sys

sys.dont_write_bytecode = True  # leave no .pyc behind

from pathlib import Path

sys.path.insert(0, str(Path(__file__).resolve().parent))

from reckoning import trial_writes


def main(arguments):
    """The cases to standard output, what they are to standard error."""
    if arguments:
        print("usage: make_writes.py", file=sys.stderr)
        return 2
    sys.stdout.write(trial_writes.text())
    sys.stdout.flush()
    for said in trial_writes.tally():
        print(said, file=sys.stderr)
    return 0


if __name__ == "__main__":
    sys.exit(main(sys.argv[1:]))
