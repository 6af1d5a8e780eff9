"""Reads a sheet of paper 01 in two ways that must agree, and makes the report that the program takedown prints."""

import re
from dataclasses import dataclass

from reckoning.column import Column, Line, ask, conditions, enter, open_member, require_asked
from reckoning.combination import LIMIT, agreed, combined
from reckoning.reduction import TABLE_4_2, round_up_quotient

MOST_BYTES = 32_768
MOST_DIGITS = 13
NEWLINE = 10
ZERO, NINE = 48, 57  # the bytes of the digits


@dataclass(frozen=True)
class Reading:
    """The number (0 where read), the line K and the part handed back, from start to end; where read, the sheet.

    The part is told by its place: its first byte is at start, the byte after its last one at end. A sheet that is
    read has as K the number of its last line. Its effects are dead, roof, snow, rain, wind and quake.
    """

    number: int
    line: int
    start: int
    end: int
    code: int | None = None
    column: Column | None = None
    effects: tuple | None = None


# ---- The first way: line after line, byte after byte ----------------------

MEMBER_KEYS = (b"member",)
LINE_KEYS = (b"floor", b"class", b"load", b"area")
EFFECT_KEYS = (b"dead", b"roof", b"snow", b"rain", b"wind", b"quake")


def whole_number(digits):
    """'1 to 13 decimal digits and no needless leading zero': the number, or None where the form is another."""
    if not 1 <= len(digits) <= MOST_DIGITS or (digits[0] == ZERO and len(digits) > 1):
        return None
    number = 0
    for byte in digits:
        if not ZERO <= byte <= NINE:
            return None
        number = 10 * number + (byte - ZERO)
    return number


def signed_number(digits):
    """'A minus sign may stand only in the last six, never before 0': the number, or None."""
    if digits[:1] != b"-":
        return whole_number(digits)
    size = whole_number(digits[1:])
    return None if size is None or size == 0 else -size


def numbers_of(words, keys, number):
    """The numbers of the key=value fields of a line, 'parted by one blank', or None where the form is another."""
    fields = words.split(b" ")
    if len(fields) != len(keys):
        return None
    numbers = []
    for key, field in zip(keys, fields):
        found = number(field[len(key) + 1 :]) if field.startswith(key + b"=") else None
        if found is None:
            return None
        numbers.append(found)
    return numbers


class Draft:
    """A sheet as far as its lines are taken."""

    def __init__(self):
        self.code = self.column = None
        self.effects = []

    def is_whole(self):
        """Whether no line is due any more."""
        return len(self.effects) == len(EFFECT_KEYS)

    def take(self, words):
        """The number for the next line, its newline left off; 0 where it is taken. 'Form, then its values.'"""
        if self.is_whole():
            return 10  # 'text left over'
        if self.column is None:
            return self.take_member(words)
        line = None if self.effects else numbers_of(words, LINE_KEYS, whole_number)
        return self.take_effect(words) if line is None else self.take_line(line)

    def take_member(self, words):
        """The first line: 10 by its form, 1 by its value."""
        numbers = numbers_of(words, MEMBER_KEYS, whole_number)
        if numbers is None:
            return 10
        (self.code,) = numbers
        number, self.column = open_member(self.code)
        return number

    def take_line(self, numbers):
        """A line of a floor: 2 to 6 as entering it gives."""
        number, self.column = enter(self.column, Line(*numbers))
        return number

    def take_effect(self, words):
        """The effect that is due: 10 by its form, 9 where it is beyond the limit."""
        numbers = numbers_of(words, EFFECT_KEYS[len(self.effects) :][:1], signed_number)
        if numbers is None:
            return 10
        self.effects += numbers
        return 9 if numbers[0] > LIMIT or numbers[0] < -LIMIT else 0


def line_end(text, start):
    """The place of the newline that ends the line begun at start, or the end of the text."""
    at = start
    while at < len(text) and text[at] != NEWLINE:
        at += 1
    return at


def read_by_lines(text):
    """The reading, one line after another; a line that the text ends in, or before, is number 10."""
    if len(text) > MOST_BYTES:
        return Reading(11, 0, 0, 0)
    draft, line, start = Draft(), 0, 0
    while start < len(text) or not draft.is_whole():
        line += 1
        end = line_end(text, start)
        number = draft.take(text[start:end]) if end < len(text) else 10
        if number != 0:
            return Reading(number, line, start, end)
        start = end + 1
    return Reading(0, line, start, start, draft.code, draft.column, tuple(draft.effects))


# ---- The second way: the longest part in form, then its values ------------


def typed(pattern):
    """A pattern with N for a number and Z for one that may have a minus sign; each newline is written out."""
    whole, signed = b"(?:0|[1-9][0-9]{0,12})", b"(?:0|-?[1-9][0-9]{0,12})"
    return pattern.replace(b"N", whole).replace(b"Z", signed)


# The groups of lines in their fixed order.
GROUPS = (
    typed(b"member=N\n(?:floor=N class=N load=N area=N\n)*"),
    *(typed(b"dead=Z\n"), typed(b"roof=Z\n"), typed(b"snow=Z\n")),
    *(typed(b"rain=Z\n"), typed(b"wind=Z\n"), typed(b"quake=Z\n")),
)


def in_form(groups):
    """The pattern of as many lines from the start as are in form; a group comes only after those before it."""
    pattern = b""
    for group in reversed(groups):
        pattern = b"(?:" + group + pattern + b")?"
    return re.compile(pattern)


IN_FORM, WHOLE_SHEET = in_form(GROUPS), re.compile(b"".join(GROUPS))


def value_numbers(rows):
    """For each line in form the number that its values give, 0 for none; each told for itself."""
    found, lines = [], []
    for row in rows:
        numbers = [int(digits) for digits in re.findall(b"-?[0-9]+", row)]
        if row.startswith(b"member"):
            found.append(0 if numbers[0] in TABLE_4_2 else 1)
        elif row.startswith(b"floor"):
            holding = conditions(lines, Line(*numbers))
            found.append(min((which for which, holds in holding.items() if holds), default=0))
            lines.append(Line(*numbers))
        else:
            found.append(9 if abs(numbers[0]) > LIMIT else 0)
    return found


def read_whole(text, rows):
    """The reading of a sheet with nothing wrong, from its lines."""
    numbers = [[int(digits) for digits in re.findall(b"-?[0-9]+", row)] for row in rows]
    code, lines = numbers[0][0], tuple(Line(*four) for four in numbers[1:-6])
    effects = tuple(number for row in numbers[-6:] for number in row)
    return Reading(0, len(rows), len(text), len(text), code, Column(TABLE_4_2[code][1], lines), effects)


def read_by_pattern(text):
    """The reading, from the longest part in form: a bad value in it comes first, else the line after it is 10."""
    if text[MOST_BYTES:]:
        return Reading(11, 0, 0, 0)
    good = IN_FORM.match(text).end()
    rows = re.findall(b"[^\n]*\n", text[:good])
    numbers = value_numbers(rows)
    if not any(numbers) and WHOLE_SHEET.fullmatch(text):
        return read_whole(text, rows)
    numbers.append(10)
    before = next(at for at, number in enumerate(numbers) if number != 0)
    start = sum(len(row) for row in rows[:before])
    end = text.find(b"\n", start)
    return Reading(numbers[before], before + 1, start, len(text) if end < 0 else end)


# ---- Reading, and the checks of it ----------------------------------------


def write(code, lines, effects):
    """A sheet from its member, its lines and its six effects."""
    rows = [f"member={code}"]
    rows += [f"floor={line.floor} class={line.cls} load={line.load} area={line.area}" for line in lines]
    rows += [f"{key}={effect}" for key, effect in zip("dead roof snow rain wind quake".split(), effects, strict=True)]
    return "".join(row + "\n" for row in rows).encode("ascii")


def require_written_back(text, reading):
    """Stops where a sheet that is read is not the text again when it is written from what was read."""
    if write(reading.code, reading.column.lines, reading.effects) != text:
        raise AssertionError(f"{text!r} is not what was read, {reading}")


def require_part(text, reading):
    """Stops where the part is not one whole line 'without its newline', or not the line K."""
    number, line, start, end = reading.number, reading.line, reading.start, reading.end
    if number == 0:
        right = start == end == len(text) and line == text.count(b"\n")
    elif number == 11:
        right = (line, start, end) == (0, 0, 0)
    else:
        before, after = text[:start], text[end:]
        ends_are_right = before[-1:] in (b"", b"\n") and after[:1] in (b"", b"\n")
        right = ends_are_right and b"\n" not in text[start:end] and line == before.count(b"\n") + 1
    if not right:
        raise AssertionError(f"{text!r} has no such part: {reading}")


def read(text):
    """The reading of a sheet (bytes), both ways alike."""
    found = agreed(read_by_lines(text), read_by_pattern(text), f"sheet {text!r}")
    require_part(text, found)
    if found.number == 0:
        require_written_back(text, found)
    return found


# ---- The report -----------------------------------------------------------


def live_effect(column):
    """'The figure at the last floor, divided by 100 and rounded up; 0 without lines.'"""
    if not column.lines:
        return 0
    return round_up_quotient(ask(column, column.lines[-1].floor).figure, 100)


def seven_effects(reading):
    """The effects D, L, Lr, S, R, W, E of a sheet that is read."""
    dead, *others = reading.effects
    return (dead, live_effect(reading.column), *others)


def floor_rows(column):
    """'Each distinct floor has one line, top first.'"""
    rows = []
    for floor in sorted({line.floor for line in column.lines}):
        answer = ask(column, floor)
        require_asked(column, floor, answer)
        numbers = f"floors={answer.floors} influence={answer.influence} figure={answer.figure}"
        rows.append(f"floor={floor} {numbers}")
    return rows


def governing_rows(effects):
    """The greatest and the least sum in tenths of a newton, each with its row."""
    found = combined(effects)
    named = (("max", found.greatest), ("min", found.least))
    return [f"{name}={governing.tenths} row={governing.row}" for name, governing in named]


def report_of(reading):
    """All that takedown prints for a reading; 'a refused sheet prints only refused=N line=K'."""
    if reading.number != 0:
        rows = [f"refused={reading.number} line={reading.line}"]
    else:
        rows = floor_rows(reading.column) + governing_rows(seven_effects(reading))
    return "".join(row + "\n" for row in rows).encode("ascii")


def report(text):
    """All that takedown prints for a sheet (bytes)."""
    return report_of(read(text))
