"""Prints the cases of the call over a list of lines, one line a list, each with the answer of the second reckoning."""

import sys

sys.dont_write_bytecode = True  # leave no .pyc behind

from pathlib import Path

sys.path.insert(0, str(Path(__file__).resolve().parent))

from reckoning import trial_lists


def main(arguments):
    """The cases to standard output, what they are to standard error."""
    if arguments:
        print("usage: make_lists.py", file=sys.stderr)
        return 2
    sys.stdout.write(trial_lists.text())
    sys.stdout.flush()
    for said in trial_lists.tally():
        print(said, file=sys.stderr)
    return 0


if __name__ == "__main__":
    sys.exit(main(sys.argv[1:]))
