"""Holds the proved tables against the paper and the reckoning: figures, examples of columns, pastes, and writes.

A table is read out of the text of its definition alone. The text must have the form that is looked for to the last
sign; what has another form is not passed over but said to be unreadable.
"""

import re
from collections import Counter
from dataclasses import astuple
from fractions import Fraction
from struct import pack

from reckoning import writes
from reckoning.column import Line, ask_list, column_of, require_asked
from reckoning.combination import agreed
from reckoning.lists import at_floor
from reckoning.paper import INTERIOR, PAPER_ROWS, SHEET
from reckoning.passed import Passed, passed_over
from reckoning.pastes import pasted
from reckoning.reduction import TABLE_4_2, factor

JOINED_BY, LIST_END = "\N{PROPORTION}", "[]"  # the sign is four dots
NUMBER = "[0-9]+"
LISTS = r"(?:\[\]|\w+|\([\w +()]+\))"  # no list, one by its name, or several joined by ++
DOUBLE = r"(nan|\(inf (?:true|false)\)|\((?:whole|uplift|halves) [0-9]+\))"


class Unreadable(Exception):
    """A text that has not the form that is looked for."""


# ---- A list's definition --------------------------------------------------


def without_comments(text):
    """The lines of a text, each up to its comment."""
    return [line.split("--")[0] for line in text.splitlines()]


def definition(text, name):
    """What stands behind `NAME =`, up to the next line that is not indented."""
    lines = without_comments(text)
    starts = [at for at, line in enumerate(lines) if re.match(re.escape(name) + r"\s*=(?:\s|$)", line)]
    if len(starts) != 1:
        raise Unreadable(f"`{name} =` is there {len(starts)} times, not once")
    (start,) = starts
    body = [lines[start].split("=", 1)[1]]
    for line in lines[start + 1 :]:
        if line.strip() and not line[0].isspace():
            break
        body.append(line)
    return " ".join(body)


def items_of(text, name):
    """The items of a list, its definition being items joined by the sign and then `[]`; one blank between words."""
    items = [" ".join(item.split()) for item in definition(text, name).split(JOINED_BY)]
    if items[-1] != LIST_END:
        raise Unreadable(f"`{name}` does not end with `{JOINED_BY} {LIST_END}`")
    return items[:-1]


def matched(form, item):
    """The match of a whole item."""
    match = re.fullmatch(form.replace("N", f"({NUMBER})"), item)
    if match is None:
        raise Unreadable(f"not of the form that is looked for: `{item}`")
    return match


# ---- Rows of figures ------------------------------------------------------


def written(row):
    """A row of the paper as the proved table has it: `row LOAD CLASS N (at X) R`, `any`, or `(uncapped X)`."""
    if row.influence is None:
        where = "any"
    else:
        where = f"({'uncapped' if row.is_uncapped else 'at'} {row.influence})"
    return f"row {row.load} {row.cls} {row.floors} {where} {row.r}"


def rows_of(text):
    """The rows of the definition `figures`, each a text with plain numbers."""
    rows = []
    for item in items_of(text, "figures"):
        matched(r"row N N N (?:any|\((?:at|uncapped) N\)) N", item)
        rows.append(re.sub(NUMBER, lambda digits: str(int(digits[0])), item))
    return rows


def complaints_of_figures(text):
    """What keeps the proved rows from being 'those with P', each once."""
    there, wanted = Counter(rows_of(text)), Counter(written(row) for row in PAPER_ROWS if row.is_proved)
    missing = [f"missing: {row}" for row in (wanted - there).elements()]
    return missing + [f"not a row of the paper with P, or there twice: {row}" for row in (there - wanted).elements()]


# ---- Examples of columns --------------------------------------------------


def is_defined(text, name):
    """Whether a text has a definition of this name."""
    return any(re.match(re.escape(name) + r"\s*=(?:\s|$)", line) for line in without_comments(text))


def numbers_of(text, lists, name):
    """The numbers of a list of lines, 'four decimal numbers' each, defined in the text or else among the lists."""
    numbers = [int(matched("N", item)[1]) for item in items_of(text if is_defined(text, name) else lists, name)]
    if len(numbers) % 4 != 0:
        raise Unreadable(f"`{name}` has {len(numbers)} numbers, not four a line")
    return tuple(numbers)


def examples_of(text, lists=""):
    """The rows of the definition `examples`: code, numbers of the lines, floor, and then n, X and the figure, or None for 7."""
    form = r"example N (\S+) N (?:N N N|\(working N N N\)|\(refused 7 nothing\))"
    examples = []
    for item in items_of(text, "examples"):
        code, name, floor, *asked = matched(form, item).groups()
        given = tuple(int(number) for number in asked if number is not None)
        examples.append((int(code), numbers_of(text, lists, name), int(floor), given or None))
    return examples


def reckoned(code, numbers, floor):
    """n, X and the figure at a floor after a list of entries, both ways alike, or None where it is refused."""
    answer = ask_list(code, numbers, floor)
    if answer.refused is not None:
        return None
    _number, column = column_of(code, numbers)
    require_asked(column, floor, answer)
    listed = at_floor(code, column.lines, floor)
    return agreed(
        (answer.floors, answer.influence, answer.figure),
        (listed.floors, listed.influence, listed.figure),
        f"code {code}, floor {floor} of {numbers}",
    )


def paper_examples():
    """The paper's two columns at each of their floors, in the form of `examples_of`."""
    return [
        (code, tuple(number for entry in entries for number in entry), floor, tuple(asked))
        for code, entries, printed in (INTERIOR, SHEET)
        for floor, *asked in printed
    ]


def complaints_of_examples(text, lists=""):
    """The examples that are not what is reckoned, and the paper's own ones that are not there; lists may stand elsewhere."""
    examples, said = examples_of(text, lists), []
    for example in examples:
        *question, asked = example
        right = reckoned(*question)
        if asked != right:
            said.append(f"example {example}: reckoned {'a refusal' if right is None else right}")
    return said + [f"missing: example {each}" for each in paper_examples() if each not in examples]


# ---- What the examples rule out -------------------------------------------


def other_readings(code, numbers, floor):
    """n and X at a floor as other readings of the paper would have them, each by its name."""
    _number, column = column_of(code, numbers)
    lines = [line for line in column.lines if line.floor <= floor]
    k, floors = factor(code).value, len({line.floor for line in lines})

    def influence(by, *others):
        return by * sum(line.area for line in lines if line.cls in others or line.cls == 1 and line.load <= 5_000)

    readings = {
        "n as the count of lines": (len(lines), influence(k)),
        "n as the floor's number": (floor, influence(k)),
        "garages in X": (floors, influence(k, 2)),
        "assembly areas in X": (floors, influence(k, 3)),
    }
    # another K for the codes of one K: told apart where one of them is among the examples
    readings.update({f"another K than {k}": (floors, influence(k + 1))})
    return readings


def complaints_of_pins(text, lists=""):
    """The other readings that every example leaves true; of each K a code must be there."""
    told, met = set(), {f"another K than {k}" for _name, k in TABLE_4_2.values()}
    for code, numbers, floor, asked in examples_of(text, lists):
        for name, reading in (other_readings(code, numbers, floor) if asked else {}).items():
            met.add(name)
            if reading != asked[:2]:
                told.add(name)
    return [f"no example rules out: {name}" for name in sorted(met - told)]


# ---- Refused entries ------------------------------------------------------


def refusing_of(text, lists=""):
    """The rows of the definition `refusing_examples`: code, numbers of the entries, and what is passed over."""
    rows = []
    for item in items_of(text, "refusing_examples"):
        code, name, *told = matched(r"refusing N (\S+) N N N", item).groups()
        rows.append((int(code), numbers_of(text, lists, name), Passed(*(int(number) for number in told))))
    return rows


def complaints_of_refusing(text, lists=""):
    """The rows that are not what is reckoned."""
    rows = refusing_of(text, lists)
    wrong = [(row, passed_over(*row[:2])) for row in rows if row[2] != passed_over(*row[:2])]
    return [f"refusing {row}: reckoned {right}" for row, right in wrong]


# ---- Pastes ----------------------------------------------------------------


def parts_of(item):
    """The parts of a row, which blanks outside brackets part."""
    parts, depth = [""], 0
    for sign in item:
        depth += {"(": 1, ")": -1}.get(sign, 0)
        if sign == " " and depth == 0:
            parts.append("")
        else:
            parts[-1] += sign
    return parts


def lines_of(text, part):
    """The lines of `[]`, of one list, or of lists joined by `++`, in whatever brackets."""
    numbers = [number for name in re.findall(r"\w+", part) for number in numbers_of(text, "", name)]
    return tuple(tuple(numbers[at : at + 4]) for at in range(0, len(numbers), 4))


def pastes_of(text):
    """The rows of the definition `examples` of pastes: lines held and pasted, number, how many kept, lines then."""
    rows = []
    for item in items_of(text, "examples"):
        matched(f"example {LISTS} {LISTS} N N {LISTS}", item)
        _word, held, lines, number, kept, then = parts_of(item)
        rows.append((lines_of(text, held), lines_of(text, lines), int(number), int(kept), lines_of(text, then)))
    return rows


def complaints_of_pastes(text):
    """The pastes, on a member of code 1, that are not what is reckoned."""
    said = []
    for held, lines, number, kept, then in pastes_of(text):
        right = pasted(1, held, lines)
        if (number, kept, then) != (right.number, right.kept, tuple(astuple(line) for line in right.lines)):
            said.append(f"paste of {lines} on {held}: reckoned {right}")
    return said


# ---- Writes ---------------------------------------------------------------


def pattern_of(word):
    """The pattern of a double: `nan`, `(inf true)` below 0, so many newtons, upwards with a minus sign, or halves."""
    if word == "nan":
        return 0x7FF8 << 48
    kind, value = word.strip("()").split()
    if kind == "inf":
        return (0xFFF0 if value == "true" else 0x7FF0) << 48
    size = Fraction(int(value), 2 if kind == "halves" else 1)
    if Fraction(float(size)) != size:
        raise Unreadable(f"no double has the value of `{word}`")
    return int.from_bytes(pack(">d", -float(size) if kind == "uplift" else float(size)), "big")


def told_of(item):
    """What a row of writing tells, as the reckoning has it: a text with | for the newline, a refused effect, or 12."""
    if item == "no_room":
        return writes.Written(12)
    if item.startswith("(puts "):
        (text,) = re.fullmatch(r'\(puts "([^"]*)"\)', item).groups()
        return writes.Written(0, text.replace("|", "\n").encode("ascii"))
    number, place, double = matched(rf"\(refuses N N {DOUBLE}\)", item).groups()
    return writes.Written(int(number), place=int(place), pattern=pattern_of(double))


def writes_of(text):
    """The rows of the definition `examples` of writing: code, lines, six doubles, bytes of the buffer, what is told."""
    form = rf'example N ({LISTS}) \(six {" ".join([DOUBLE] * 6)}\) N (no_room|\(puts "[^"]*"\)|\(refuses .*\))'
    rows = []
    for item in items_of(text, "examples"):
        code, lines, *doubles, room, told = matched(form, item).groups()
        patterns = tuple(pattern_of(double) for double in doubles)
        rows.append((int(code), lines_of(text, lines), patterns, int(room), told_of(told)))
    return rows


def complaints_of_writes(text):
    """The writes that are not what is reckoned."""
    said = []
    for code, lines, patterns, room, told in writes_of(text):
        right = writes.written(code, tuple(Line(*line) for line in lines), patterns, room)
        if told != right:
            said.append(f"write of code {code}, {lines} and {patterns} into {room} bytes: reckoned {right}")
    return said
