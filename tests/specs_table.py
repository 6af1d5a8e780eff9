"""What must be believed: works out which definitions the contracts of reachable functions reach, and prints them.

    specs_table.py            prints the list, and writes it into docs/STATEMENTS.md
    specs_table.py --check    changes nothing, and fails where something is wrong: a reachable function or method that says
                              nothing, one that asks more than that a column is reached, or a type that asks more by a
                              ghost field, a function without a row among the promises, a definition of another shelf
                              that is reached, one at the top of specs/ that is not, one without a place in the paper
                              that is not marked so, a point of the book that nothing says, a list that is not as the
                              files are, more lines than a reviewer can take, or a line that this script does not
                              understand
"""

import sys

sys.dont_write_bytecode = True  # leave no .pyc behind

from pathlib import Path

TESTS = Path(__file__).resolve().parent
sys.path.insert(0, str(TESTS))

from believed import book, closure, contracts, definitions


def written_anew(text, listed):
    """The book with the list between its two marks made anew; none where a mark is missing."""
    if text.count(book.BEGIN) != 1 or text.count(book.END) != 1:
        return None
    start, end = text.index(book.BEGIN) + len(book.BEGIN), text.index(book.END)
    return text[:start] + "\n" + listed + "\n" + text[end:]


def wrong_list(before, after, lines):
    """What is wrong with the stored list, a line each, and whether there is more to believe than there may be."""
    said = []
    if after is None:
        said.append(f"{book.BOOK}: the marks {book.BEGIN.strip()} and {book.END.strip()} do not stand there once each")
    elif after != before:
        said.append(f"{book.BOOK}: the list of what must be believed is not as the files are; run tests/specs_table.py")
    if lines > book.MOST_LINES:
        said.append(f"{lines} lines must be believed, more than {book.MOST_LINES}")
    return said


def look(root, check):
    """Writes the list, or compares; says what is wrong, and gives the exit status."""
    readers = definitions.read_all(root)
    found = definitions.all_definitions(readers)
    contracted, strange = contracts.all_contracts(root)
    counted = [each for each in contracted if each.counts]
    by, by_any = closure.reached(found, counted), closure.reached(found, contracted)
    path = root / book.BOOK
    before = path.read_text(encoding="utf-8")
    listed = book.believed(found, counted, by)
    after = written_anew(before, listed)
    if not check and after:
        path.write_text(after, encoding="utf-8")
        print(listed)
    wrong = definitions.complaints(readers) + contracts.complaints(contracted, strange)
    wrong += closure.complaints(found, by, by_any) + book.complaints(root, before, found, by)
    wrong += book.wrong_promises((root / book.PROMISES).read_text(encoding="utf-8"), contracted)
    wrong += wrong_list(before if check else after, after, book.lines_of(found, by))
    for each in wrong:
        print(each)
    print(book.summary(found, counted, by, before))
    return 1 if wrong else 0


if __name__ == "__main__":
    if sys.argv[1:] not in ([], ["--check"]):
        print("usage: specs_table.py [--check]", file=sys.stderr)
        sys.exit(2)
    sys.exit(look(TESTS.parent, bool(sys.argv[1:])))
