"""Makes the sheets of the trial that are damaged: bytes, lines, keys, numbers, lengths, and several faults at once."""

from itertools import combinations, permutations, product

from reckoning.combination import LIMIT
from reckoning.sheet import MOST_BYTES, read
from reckoning.trial_column import AREAS_TRIED, CLASSES_TRIED, FAULTS, FLOORS_TRIED, LOADS_TRIED, spoiled
from reckoning.trial_reduction import FAR_CODES, require
from reckoning.trial_sheet_read import SAMPLE, made, sheet_by_lot

EFFECT_KEYS = ("dead", "roof", "snow", "rain", "wind", "quake")
LINE_KEYS = ("floor", "class", "load", "area")
KEYS = ("member", *LINE_KEYS, *EFFECT_KEYS)

BARE = made(1, (), (7, 0, 0, 0, 5, 0))  # no lines
ONE_LINE = made(1, ((3, 1, 2_000, 1_600),), (7, 0, 0, 0, 5, 0))
GOOD_LINE = b"floor=3 class=1 load=2000 area=1600"
SHORT_LINE = b"floor=3 class=1 load=9 area=9"


def lines_of(text):
    """The lines of a text that ends with a newline, without their newlines."""
    return text.split(b"\n")[:-1]


def joined(lines):
    """The text of lines, each ended by one newline."""
    return b"".join(line + b"\n" for line in lines)


def with_item(items, at, *others):
    """A list with one of its items replaced by others, or by none."""
    return [*items[:at], *others, *items[at + 1 :]]


def ascii_of(number):
    """A number as it is written."""
    return str(number).encode("ascii")


# ---- Bytes ----------------------------------------------------------------


def put(text, before, byte, cut=0):
    """A text with a byte put after the first place of some words; so many bytes are cut out there."""
    at = text.index(before) + len(before)
    return text[:at] + bytes((byte,)) + text[at + cut :]


def any_byte(_lot):
    """Every byte value for a digit, an equals sign, a blank and a newline, within a number, and at the ends.

    Some of the sheets have no more lines after the changed one, so a missing line is refused where the byte is right.
    """
    found = []
    for byte in range(256):
        found += [put(BARE, b"dead=", byte, 1), put(BARE, b"wind=", byte), BARE + bytes((byte,))]
        found += [put(b"member=1\n", b"member=1", byte), put(b"member=1\n", b"", byte)]
        found += [put(b"member=1\ndead=1\n", b"dead", byte, 1), put(b"member=1\ndead=1\nroof=1\n", b"dead=1", byte, 1)]
        found.append(put(joined([b"member=1", SHORT_LINE]), b"class=1", byte, 1))
    return found


def bytes_of_sample(_lot):
    """The sample cut at every length, each byte deleted or doubled; a short sheet with neighbours exchanged."""
    found = [SAMPLE[:at] for at in range(len(SAMPLE) + 1)]
    for at in range(len(SAMPLE)):
        before, byte, after = SAMPLE[:at], SAMPLE[at : at + 1], SAMPLE[at + 1 :]
        found += [before + after, before + byte + byte + after]
    return found + [BARE[:at] + BARE[at : at + 2][::-1] + BARE[at + 2 :] for at in range(len(BARE) - 1)]


LINE_ENDINGS = (
    *(b"\r\n", b"\n\r", b"\r", b"\0", b"\0\n", b"\n\0", b" \n", b"\n ", b"\n\n", b"\t\n", b";\n", b"\\n"),
    *(b"\x0b", b"\x0c", b"\x1c", b"\x1d", b"\x1e", b"\x85", b"\xc2\x85", b"\xe2\x80\xa8", b"\x85\n", b"\xff\n"),
)


def line_endings(_lot):
    """Other line endings in the whole sample, at the first, the last and each line of a short sheet."""
    found, lines = [], lines_of(BARE)
    for ending in LINE_ENDINGS:
        found.append(SAMPLE.replace(b"\n", ending))
        found.append(lines[0] + ending + joined(lines[1:]))
        found.append(joined(lines[:-1]) + lines[-1] + ending)
    lines = lines_of(ONE_LINE)
    for ending, at in product((b"\r\n", b"\0", b" \n", b""), range(len(lines))):
        found.append(joined(lines[:at]) + lines[at] + ending + joined(lines[at + 1 :]))
    return found


def hardly_any_text(_lot):
    """Empty text, only newlines, single bytes, and other writings of the sheet's letters."""
    words = (b"", b"m", b"member", b"member=", b"member=1", b"=", b"=1", b"0", b"member=13", b"floor=1", b"quake=0")
    found = [word + b"\n" * count for word in words for count in (0, 1, 2, 3)]
    found += [b"\n" * count for count in (7, 8, 9, 300)] + [b"\0" * count for count in (1, 2, 52)]
    wide = BARE.decode().encode("utf-16-le")
    found += [b"\xef\xbb\xbf" + BARE, b"\xff\xfe" + wide, wide, BARE.decode().encode("utf-16-be")]
    return found + [BARE.upper(), BARE.title(), BARE.replace(b"\n", b" "), BARE[::-1], b"# sheet\n" + BARE]


# ---- Numbers in every field -----------------------------------------------


def spelled(key, number):
    """A short sheet with the number of one key written in another way; a good line stands before a changed floor."""
    fields = dict(zip(KEYS, (b"1", b"3", b"1", b"2000", b"1600", b"7", b"0", b"0", b"0", b"5", b"0"), strict=True))
    fields[key] = number
    written = [name.encode() + b"=" + fields[name] for name in KEYS]
    lines = [b" ".join(written[1:5])] if key in LINE_KEYS else []
    above = [SHORT_LINE] if key == "floor" else []
    return joined([written[0], *above, *lines, *written[5:]])


SPELLINGS = (
    *(b"", b"0", b"00", b"01", b"007", b"0" * 13, b"0" * 14, b"0" * 12 + b"1", b"0" * 13 + b"1"),
    *(b"-0", b"-00", b"-", b"--1", b"-1", b"-3", b"-01", b"- 1", b"1-", b"+0", b"+1", b"+3", b"+", b"+-1", b"-+1"),
    *(b"9" * 12, b"9" * 13, b"9" * 14, b"9" * 20, b"1" + b"0" * 11, b"1" + b"0" * 12, b"1" + b"0" * 13),
    *(b"-" + b"9" * 12, b"-" + b"9" * 13, b"-" + b"9" * 14, b"-1" + b"0" * 12, b"-1" + b"0" * 13),
    *(b"1" + b"0" * 11 + b"1", b"-1" + b"0" * 11 + b"1", ascii_of(2**32 + 3), ascii_of(2**40 + 3)),
    *(b" 3", b"3 ", b"3\t", b"\t3", b"1 3", b"3.", b"3.0", b"3,0", b"1,000", b"1_000", b"1e3", b"0x3", b"3h", b"'3'"),
    *(b"three", b"nan", b"inf", b"\xd9\xa3", b"\xef\xbc\x93", b"\xc2\xb3", b"\xb3", b"3\0", b"\xe2\x88\x923", b"3=3"),
    *(ascii_of(2**64 + 3), ascii_of(2**64), ascii_of(2**63)),
)


def spellings(_lot):
    """Every way of writing a number, good or not, in every field."""
    return [spelled(key, spelling) for key in KEYS for spelling in SPELLINGS]


EFFECTS_TRIED = (
    *(0, 1, LIMIT - 1, LIMIT, LIMIT + 1, LIMIT + 2, 2 * LIMIT, 10**13 - 1, 10**13, 2**31, 2**32, 2**32 + 5),
    *(2**40, 2**43, 2**53, 2**63, 2**64 + 5),
)


def limits(_lot):
    """Every number at, just below and just beyond its limits, and numbers that look right when cut."""
    tried = dict(zip(LINE_KEYS, (FLOORS_TRIED, CLASSES_TRIED, LOADS_TRIED, AREAS_TRIED), strict=True))
    tried["floor"] += (3, 4)  # the line before is at floor 3
    tried["member"] = (*range(16), *FAR_CODES)
    for key in EFFECT_KEYS:
        tried[key] = (*EFFECTS_TRIED, *(-number for number in EFFECTS_TRIED if number > 0))
    return [spelled(key, ascii_of(number)) for key, numbers in tried.items() for number in numbers]


# ---- Lines and keys -------------------------------------------------------


def moved_lines(_lot):
    """Lines of the sample that are missing, repeated, emptied, exchanged, moved or put in."""
    lines = lines_of(SAMPLE)
    places = range(len(lines))
    found = [joined(with_item(lines, at)) for at in places]
    found += [joined(with_item(lines, at, lines[at], lines[at])) for at in places]
    found += [joined(with_item(lines, at, b"")) for at in places]
    found += [joined(with_item(lines, at, b"", lines[at])) for at in places]
    for at, other in combinations(places, 2):
        found.append(joined(with_item(with_item(lines, at, lines[other]), other, lines[at])))
    for at in places:
        rest = with_item(lines, at)
        found += [joined([lines[at], *rest]), joined([*rest, lines[at]])]
    return [*found, joined(reversed(lines)), joined(lines[1:]), joined(lines[:-1]), joined(lines[3:])]


FOREIGN_LINES = (
    *(b"live=0", b"span=10", b"floors=2", b"floor=2", b"max=1 row=1", b"#", b" ", b"\0", b"\r", b"member=1"),
    *(b"floor=2 class=1 load=2000 area=1600 part=0", b"refused=10 line=1", b"quake=0", b"sheet 129", b"="),
    *(b"floor=2 class=1 load=1 area=1", b"floor=4 class=1 load=2000 area=1600", b"floor=65 class=1 load=1 area=1"),
)


def foreign_lines(_lot):
    """A line of another kind before each line, and after the last."""
    lines = lines_of(ONE_LINE)
    return [joined([*lines[:at], line, *lines[at:]]) for line in FOREIGN_LINES for at in range(len(lines) + 1)]


def cut_short(lot):
    """Good sheets that end after each of their lines, or without the last newline, or within the last line."""
    found = []
    for _ in range(10):
        lines = lines_of(sheet_by_lot(lot, 2))
        found += [joined(lines[:count]) for count in range(1, len(lines))]
    for _ in range(24):
        text = sheet_by_lot(lot, 1)
        found += [text[:-1], text[: -lot.between(2, 7)]]
    return found


def left_over(_lot):
    """Text left over after the last line, with and without a newline."""
    rests = (b"\n", b"\n\n", b" ", b" \n", b"\0", b"\0\n", b"\r", b"\r\n", b"x", b"x\n", b"x\ny\n", b"\x1a", b"0")
    rests += (b"quake=0", b"quake=0\n", b"dead=0\n", b"member=1\n", b"member=13\n", GOOD_LINE, GOOD_LINE + b"\n")
    rests += (b"floor=65 class=9 load=0 area=0\n", b"quake=9999999999999\n", b"\nquake=0\n", b"\xff\xfe", b"x\n\n\n")
    return [text + rest for text in (BARE, ONE_LINE) for rest in (*rests, text)]


def keys_spelled(key):
    """A key and its equals sign written in other ways."""
    small, title = key.encode(), key.title().encode()
    cut = (small[:-1], small[1:], b"", small + b"s", small + small, b"x" + small, small[::-1], small + b"\0")
    spaced = (b" " + small, small + b" ", b"\t" + small, b"-" + small)
    named = [name + b"=" for name in (small.upper(), title, small[:-1] + title[:1], *cut, *spaced)]
    return [*named, small, small + b":", small + b"==", small + b"= ", small + b" = ", small + b"\0", small + b"-"]


def wrong_keys(_lot):
    """Each key in other letters, cut short, made longer, with blanks, and with other signs for the equals sign."""
    found = []
    for key in KEYS:
        for name in keys_spelled(key):
            text = ONE_LINE if key in LINE_KEYS else BARE
            found.append(text.replace(key.encode() + b"=", name))
    for key, other in permutations(("member", "dead", "roof", "snow", "rain", "wind", "quake"), 2):
        found.append(BARE.replace(key.encode() + b"=", other.encode() + b"="))
    return found


def with_line(line):
    """The short sheet with its line of a floor written in another way."""
    return ONE_LINE.replace(GOOD_LINE, line)


def field_orders(_lot):
    """The four fields in other orders, too few or too many of them, and parted by something else."""
    fields = GOOD_LINE.split(b" ")
    found = [with_line(b" ".join(order)) for order in permutations(fields)]
    for at in range(4):
        found += [with_line(b" ".join(with_item(fields, at, *others))) for others in ((), (fields[at],) * 2, (b"",))]
        found.append(with_line(b" ".join(fields[: at + 1])))
    partings = (b"", b"  ", b"   ", b"\t", b" \t", b"\n", b"\r", b",", b", ", b"\0", b"\xa0", b"\xc2\xa0", b"\x0b")
    for at, parting in product(range(1, 4), partings):
        found.append(with_line(b" ".join(fields[:at]) + parting + b" ".join(fields[at:])))
    for parting in partings:
        found += [with_line(line) for line in (parting.join(fields), parting + GOOD_LINE, GOOD_LINE + parting)]
    return found


# ---- Several faults at once -----------------------------------------------

TWO_LINES = made(1, ((1, 1, 9, 9), (2, 1, 9, 9)), (7, 0, 0, 0, 5, 0))  # nine lines in all

# For each line of it: some that are not of its form, some with a wrong value, some with both faults.
MEMBER_FAULTS = {
    "form": (b"member=01", b"Member=1", b"member=-1", b"member=1 ", SHORT_LINE),
    "value": (b"member=0", b"member=13", b"member=9999999999999"),
    "both": (b"member=13 ", b"member=0x", b"member=00", b"member=10000000000000"),
}
LINE_FAULTS = {
    "form": (
        *(b"floor=2 class=1 load=9 area=x", b"floor=2 class=1 load=9", b"floor=2 class=1  load=9 area=9"),
        *(b"floor=02 class=1 load=9 area=9", b"dead=1 ", b"roof=0", b"floor=2 class=-1 load=9 area=9"),
    ),
    "value": (
        *(b"floor=65 class=1 load=9 area=9", b"floor=0 class=1 load=9 area=9", b"floor=2 class=4 load=9 area=9"),
        *(b"floor=2 class=1 load=50001 area=9", b"floor=2 class=1 load=9 area=200001"),
        *(b"floor=2 class=0 load=0 area=0", b"floor=0 class=0 load=0 area=0", b"floor=2 class=1 load=9 area=0"),
        *(b"floor=2 class=1 load=0 area=9999999999999", b"floor=2 class=1 load=9 area=9999999999999"),
    ),
    "both": (
        *(b"floor=65 class=1 load=1 area=x", b"floor=2 class=4 load=1 area=01", b"floor=2 class=1 load=0 area=1 "),
        *(b"floor=2 class=1 load=0 area=10000000000000", b"floor=x class=4 load=1 area=1"),
        *(b"floor=1 class=+1 load=50001 area=1", b"floor=0 class=0 load=0 area=-0"),
    ),
}
EFFECT_FAULTS = {
    "form": (b"%s=-0", b"%s=+1", b"%s=", b"%s=1 ", b"x%s=1", b"%s=00", SHORT_LINE + b" %s=1"),
    "value": (b"%s=1000000000001", b"%s=-1000000000001", b"%s=9999999999999"),
    "both": (b"%s=1000000000001 ", b"%s=10000000000000", b"%s=-01000000000001", b"+%s=1000000000001"),
}


def faults_at(at, kind):
    """Every faulty line of a kind for one of the nine places."""
    faults = MEMBER_FAULTS if at == 0 else LINE_FAULTS if at < 3 else EFFECT_FAULTS
    return [fault.replace(b"%s", EFFECT_KEYS[max(0, at - 3)].encode()) for fault in faults[kind]]


def with_faults(lot, faults):
    """The nine lines with faulty ones in the given places, each of the given kind."""
    lines = lines_of(TWO_LINES)
    return [lot.one_of(faults_at(at, faults[at])) if at in faults else line for at, line in enumerate(lines)]


def faulty_pairs(lot):
    """Faults in every pair of lines: a wrong form above a wrong value, the other way round, and twice the same."""
    found = []
    for (at, other), kinds in product(combinations(range(9), 2), product(("form", "value", "both"), repeat=2)):
        found.append(joined(with_faults(lot, {at: kinds[0], other: kinds[1]})))
    return found


def single_faults(_lot):
    """Every faulty line in its place, alone."""
    lines, found = lines_of(TWO_LINES), []
    for at, kind in product(range(9), ("form", "value", "both")):
        found += [joined(with_item(lines, at, fault)) for fault in faults_at(at, kind)]
    return found


def values_above_forms(lot):
    """Every wrong value with a wrong form in the next line, and in some later one."""
    found = []
    for at in range(8):
        for fault in faults_at(at, "value"):
            for later in (at + 1, lot.between(at + 1, 8)):
                found.append(joined(with_item(with_faults(lot, {later: "form"}), at, fault)))
    return found


def faulty_ends(lot):
    """A fault in each line, and the text cut after it, its last newline missing, or text left over."""
    found = []
    for at, kind in product(range(9), ("form", "value", "both")):
        lines = with_faults(lot, {at: kind})
        text = joined(lines)
        found += [text[:-1], text + b"\n", text + b"x", joined(lines[:-1]), joined(lines[: at + 1])[:-1]]
        found.append(joined(lines[: at + 1]))
    return found


def many_faults(lot):
    """Three to nine faulty lines."""
    found = []
    for _ in range(110):
        places = sorted(range(9), key=lambda _place: lot.draw())[: lot.between(3, 9)]
        text = joined(with_faults(lot, {at: lot.one_of(("form", "value", "value", "both")) for at in places}))
        found.append(lot.one_of((text, text, text[:-1], text + b"x")))
    return found


def spoiled_lines(lot):
    """Every set of wrong numbers in one line, after a line at floor 3; the number is that of the first."""
    found = []
    for parts in FAULTS * 7:
        wrong = spoiled(lot, (4, 1, 2_000, 900), parts, 3)
        while max(wrong) >= 10**13:
            wrong = spoiled(lot, (4, 1, 2_000, 900), parts, 3)
        found.append(made(2, ((3, 1, 2_000, 1_600), wrong), (0,) * 6))
        require(read(found[-1]).number == 3 + parts[0], f"faults {parts}: {read(found[-1])}")
    return found


def falling_floors(lot):
    """A floor above the one before: number 3, unless an earlier line is refused."""
    found = []
    for _ in range(40):
        floors = [lot.between(1, 64) for _ in range(lot.between(2, 5))]
        found.append(made(1, [(floor, 1, 9, 9) for floor in floors], (0,) * 6))
    return found


# ---- Full columns, and lengths --------------------------------------------

TINY = b"floor=%d class=1 load=1 area=1"


def full_rows():
    """A member and 256 short lines over 64 floors."""
    return [b"member=1", *(TINY % (1 + at // 4) for at in range(256))]


def full_columns(_lot):
    """256 lines, and a 257th that is good, wrong in its values, in its form, or cut short."""
    rows, rest = full_rows(), lines_of(BARE)[1:]
    wrong = (b"floor=1 class=0 load=0 area=0", b"floor=64 class=1 load=1 area=0")
    bad_form = (b"floor=64 class=1 load=1 area=01", b"floor=65 class=0 load=0 area=10000000000000")
    found = [joined([*rows, *rest]), joined([*rows, TINY % 64, *rest])]
    found += [joined([*rows, line, *rest]) for line in (*wrong, *bad_form)]
    found.append(joined([*rows, TINY % 64])[:-1])
    found.append(joined([*rows[:-1], b"floor=64 class=1 load=1 area=0", TINY % 64, *rest]))
    return found


def filled(start, end, fill, length):
    """A text of a length: its start, its end, and as much of the filling between as goes."""
    between = length - len(start) - len(end)
    return start + (fill * between)[:between] + end


def lengths(_lot):
    """Texts of about 32,768 bytes, the longest that is looked at; one byte more is 11, whatever the text."""
    too_many = joined([*full_rows(), *[TINY % 64] * 1_000])
    found = [
        filled(SAMPLE, b"", b"\0", MOST_BYTES - 1),  # left over, no newline
        filled(SAMPLE, b"\n", b"left over ", MOST_BYTES),  # left over, one line
        filled(BARE[:-2], b"", b"0", MOST_BYTES),  # the last line has no newline
        too_many[:MOST_BYTES],
        filled(BARE, b"", b"\n", MOST_BYTES + 1),
        filled(b"member=13\nfloor=0\n", b"", b"\xff", MOST_BYTES + 1),
        filled(SAMPLE, b"", SAMPLE, 33_000),
    ]
    numbers = [read(text).number for text in found]
    require(numbers == [10, 10, 10, 2, 11, 11, 11], f"numbers {numbers}")
    return found


# ---- Changes by lot -------------------------------------------------------

DIGITS, USUAL = b"0123456789", bytes(sorted(set(ONE_LINE + b"-4689+\t\r")))


def changed_byte(lot, text):
    """A byte replaced: a digit by a digit more often than not."""
    digits = [at for at, byte in enumerate(text) if byte in DIGITS]
    if digits and lot.between(1, 5) > 1:
        at, byte = lot.one_of(digits), lot.one_of(DIGITS)
    else:
        at, byte = lot.between(0, len(text) - 1), lot.one_of((lot.one_of(USUAL), lot.between(0, 255)))
    return text[:at] + bytes((byte,)) + text[at + 1 :]


def without_byte(lot, text):
    """A byte deleted."""
    at = lot.between(0, len(text) - 1)
    return text[:at] + text[at + 1 :]


def with_byte(lot, text):
    """A byte inserted; a digit or a minus sign after an equals sign or a digit more often than not."""
    after = [at + 1 for at, byte in enumerate(text) if byte in b"=" + DIGITS]
    if after and lot.between(1, 3) > 1:
        at, byte = lot.one_of(after), lot.one_of(DIGITS + b"--")
    else:
        at, byte = lot.between(0, len(text)), lot.one_of((lot.one_of(USUAL), lot.between(0, 255)))
    return text[:at] + bytes((byte,)) + text[at:]


def swapped_bytes(lot, text):
    """Two neighbouring bytes exchanged."""
    at = lot.between(0, max(0, len(text) - 2))
    return text[:at] + text[at : at + 2][::-1] + text[at + 2 :]


def changed_lines(lot, text):
    """A line doubled, deleted, or exchanged with another."""
    lines = text.split(b"\n")
    at, other = lot.between(0, len(lines) - 1), lot.between(0, len(lines) - 1)
    exchanged = with_item(with_item(lines, at, lines[other]), other, lines[at])
    ways = (with_item(lines, at, lines[at], lines[at]), with_item(lines, at), exchanged)
    return b"\n".join(lot.one_of(ways))


CHANGES = (*(changed_byte,) * 6, without_byte, without_byte, with_byte, with_byte, swapped_bytes, changed_lines)


def changed_by_lot(lot):
    """Good sheets with one to three changes by lot; many can still be read."""
    found = []
    for _ in range(840):
        text = sheet_by_lot(lot, lot.one_of((0, 1, 2, 3)))
        for _ in range(lot.one_of((1, 1, 1, 2, 3))):
            text = lot.one_of(CHANGES)(lot, text) if text else text
        found.append(text)
    return found


MAKERS = (
    any_byte,
    bytes_of_sample,
    line_endings,
    hardly_any_text,
    spellings,
    limits,
    moved_lines,
    foreign_lines,
    cut_short,
    left_over,
    wrong_keys,
    field_orders,
    single_faults,
    values_above_forms,
    faulty_pairs,
    faulty_ends,
    many_faults,
    spoiled_lines,
    falling_floors,
    full_columns,
    lengths,
    changed_by_lot,
)
