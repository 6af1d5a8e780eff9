"""Reckons the writing of a sheet, paper 02's CR 2: the text 'for any column and six whole effects', or a refusal."""

from dataclasses import dataclass
from functools import lru_cache

from reckoning.combination import agreed, double_of, effect_by_fields, effect_by_float, float_of
from reckoning.pastes import column_holding
from reckoning.sheet import EFFECT_KEYS, LINE_KEYS, MEMBER_KEYS, NEWLINE, ZERO, read, write


@dataclass(frozen=True)
class Written:
    """The number, 0 where the sheet is written, and then its text.

    A refused effect, 8 or 9, has its place among the six, dead 1 to quake 6, and the double's pattern as it came.
    """

    number: int
    text: bytes | None = None
    place: int | None = None
    pattern: int | None = None


# ---- The first way: effect after effect, then the text line after line ----


def refused_in_turn(patterns):
    """The first refused effect, from dead on, each told from its double as a fraction; None where all are good."""
    for place, pattern in enumerate(patterns, start=1):
        number = effect_by_float(pattern).refused
        if number is not None:
            return Written(number, place=place, pattern=pattern)
    return None


def written_in_turn(code, lines, patterns, room):
    """'12: buffer shorter than the text, checked after the effects', told from the text itself."""
    refused = refused_in_turn(patterns)
    if refused is not None:
        return refused
    text = write(code, lines, [effect_by_float(pattern).value for pattern in patterns])
    return Written(12) if len(text) > room else Written(0, text)


# ---- The second way: the length by counting, then the text from its end ---


def refused_from_last(patterns):
    """The first refused effect, from quake back, so that an earlier one takes over; each told from its fields."""
    found = None
    for place in range(len(patterns), 0, -1):
        number = effect_by_fields(patterns[place - 1]).refused
        if number is not None:
            found = Written(number, place=place, pattern=patterns[place - 1])
    return found


WORDS_OF_LINE = len(b"floor= class= load= area=\n")
OTHER_WORDS = len(b"member=\ndead=\nroof=\nsnow=\nrain=\nwind=\nquake=\n")


def digit_count(number):
    """How many decimal digits a whole number has, told by the powers of ten that it reaches."""
    count = 1
    while abs(number) >= 10**count:
        count += 1
    return count


def four_numbers(line):
    """The four numbers of a line in the order of the sheet."""
    return line.floor, line.cls, line.load, line.area


def byte_count(code, lines, effects):
    """The length of the text, which is not made for it: the words, the digits, and the minus signs."""
    numbers = [code, *effects, *(number for line in lines for number in four_numbers(line))]
    digits, signs = sum(digit_count(number) for number in numbers), sum(effect < 0 for effect in effects)
    return OTHER_WORDS + len(lines) * WORDS_OF_LINE + digits + signs


def digits_from_end(number):
    """The bytes of a whole number, the last one first: what dividing by ten leaves over, then a minus sign."""
    size, found = abs(number), []
    while size > 0 or not found:
        size, digit = divmod(size, 10)
        found.append(ZERO + digit)
    return bytes(found) + (b"-" if number < 0 else b"")


def row_from_end(keys, numbers):
    """A line of key=value fields 'parted by one blank' and 'ended by one newline byte (10)', the last byte first."""
    fields = [digits_from_end(number) + b"=" + key[::-1] for key, number in zip(keys, numbers, strict=True)]
    return bytes([NEWLINE]) + b" ".join(fields[::-1])


def text_from_end(code, lines, effects):
    """The text put together from quake up to member and from each line's last byte, then turned about."""
    rows = [row_from_end((key,), (effect,)) for key, effect in zip(EFFECT_KEYS, effects, strict=True)][::-1]
    rows += [row_from_end(LINE_KEYS, four_numbers(line)) for line in reversed(lines)]
    rows.append(row_from_end(MEMBER_KEYS, (code,)))
    return b"".join(rows)[::-1]


def written_by_counting(code, lines, patterns, room):
    """The same, but the length decides before there is a text."""
    refused = refused_from_last(patterns)
    if refused is not None:
        return refused
    effects = [effect_by_fields(pattern).value for pattern in patterns]
    if room < byte_count(code, lines, effects):
        return Written(12)
    return Written(0, text_from_end(code, lines, effects))


# ---- Both, and the checks of the answer -----------------------------------


@lru_cache(maxsize=None)
def opened(code, lines):
    """The column that holds these lines; stops where one of them is refused. Made once."""
    return column_holding(code, lines)


@lru_cache(maxsize=None)
def read_again(text):
    """What a written text says when it is read; read once."""
    return read(text)


def require_read_back(code, lines, patterns, text):
    """'Reading it must return the same column and effects': stops where it does not; minus zero is read as 0."""
    found = read_again(text)
    column = (found.number, found.code, found.column) == (0, code, opened(code, lines))
    if not column or found.effects != tuple(float_of(pattern) for pattern in patterns):
        raise AssertionError(f"code {code}, {lines}, {patterns}: read back as {found}")
    if len(text) != byte_count(code, lines, found.effects):
        raise AssertionError(f"{text!r} has not the length counted")


def require_form(patterns, room, answer):
    """Stops where an answer is none that writing these six effects into a buffer of this length can have."""
    refused_effect = answer.number in (8, 9)
    right = (
        answer.number in (0, 8, 9, 12)
        and (answer.text is not None) == (answer.number == 0)
        and (answer.place is not None) == (answer.pattern is not None) == refused_effect
        and (answer.text is None or len(answer.text) <= room)
        and (not refused_effect or answer.place in range(1, 7) and patterns[answer.place - 1] == answer.pattern)
    )
    if not right:
        raise AssertionError(f"{patterns} into {room} bytes cannot have the answer {answer}")


def written(code, lines, patterns, room):
    """'Write the sheet for any column and six whole effects within limits into a lent buffer', both ways alike."""
    if len(patterns) != 6 or room < 0:
        raise AssertionError(f"{patterns} are not six effects, or {room} is no length")
    opened(code, lines)
    asked = (code, lines, patterns, room)
    answer = agreed(written_in_turn(*asked), written_by_counting(*asked), f"writing {asked}")
    require_form(patterns, room, answer)
    if answer.number == 0:
        require_read_back(code, lines, patterns, answer.text)
    return answer


def written_back(text, reading):
    """'Every sheet that reads well is written back byte for byte', here into a buffer just as long; stops where not."""
    patterns = tuple(double_of(effect) for effect in reading.effects)
    answer = written(reading.code, reading.column.lines, patterns, len(text))
    if answer != Written(0, text):
        raise AssertionError(f"{text!r} is written back as {answer}")
    return answer.text
