"""Makes the writes of the trial of CR 2, 'saving a column', kind by kind, each with its reckoned answer."""

from collections import Counter
from functools import lru_cache
from itertools import combinations, product

from reckoning import trial_whole
from reckoning.column import Line
from reckoning.combination import LIMIT, effect, is_nan, pattern_of
from reckoning.paper import INTERIOR, SHEET
from reckoning.trial_column import MIXED_COLUMNS, rising_lines
from reckoning.trial_effects import BAD, accepted, patterns, with_place
from reckoning.trial_lists import CODES
from reckoning.trial_reduction import GREATEST, Lot, require
from reckoning.trial_sheet_read import SIX, entries_by_lot, six
from reckoning.trial_whole import INFINITY, MINUS, QUIET, fresh_by_kind
from reckoning.writes import byte_count, digit_count, written

SEED = 20_250_258
SHORTEST, LONGEST = 52, 10_371  # bytes of a text
SHORTEST_LINE, LONGEST_LINE = (1, 1, 1, 1), (64, 3, 50_000, 200_000)
ZEROS = (0,) * 6
LEAST_EACH, LEAST_BY_CODE = 50, 10  # how often each number and each feature is met, and each number with each code


# ---- A case and its answer ------------------------------------------------


def case(code, lines, effects, room):
    """A write: the code, the length of the buffer, the patterns of six effects, and lines of four numbers each."""
    return code, room, tuple(effects), tuple(tuple(line) for line in lines)


@lru_cache(maxsize=None)
def answer(asked):
    """The reckoned answer of a case; reckoned once."""
    code, room, effects, lines = asked
    return written(code, tuple(Line(*line) for line in lines), effects, room)


@lru_cache(maxsize=None)
def least_length(code, lines, effects):
    """The length of the text; of refused effects, which have none, the length that it has with 0 for each of them."""
    numbers = [effect(pattern).value or 0 for pattern in effects]
    return byte_count(code, [Line(*line) for line in lines], numbers)


def sized(code, lines, effects, more):
    """A case whose buffer is so many bytes longer than the text, or shorter; stops where it is not reckoned as it is.

    The effects are good. With too few bytes it is known to have the number 12, otherwise to be written.
    """
    length = least_length(code, tuple(lines), tuple(effects))
    asked = case(code, lines, effects, max(length + more, 0))
    found = answer(asked)
    require(found.number == (12 if more < 0 else 0), f"{asked} has {length} bytes, reckoned {found}")
    return asked


def refused(asked, number, place):
    """A case that is known to have a refused effect at a place; stops where another answer is reckoned."""
    found = answer(asked)
    if (found.number, found.place) != (number, place):
        raise AssertionError(f"{asked} is to be refused with {number} at {place}, reckoned {found}")
    return asked


def lent(lot, code, lines, effects):
    """A case with a buffer by lot: as long as the text, a byte or more longer or shorter, or empty."""
    length = least_length(code, tuple(lines), tuple(effects))
    short = lot.one_of((0, 1, length - 1, length - 1, lot.between(0, length - 1)))
    long = lot.one_of((length, length, length, length + 1, length + lot.between(2, 400), LONGEST, 20_000))
    return case(code, lines, effects, lot.one_of((short, long, long)))


def good_six(lot):
    """Six good effects of any habit."""
    return patterns(six(lot, accepted))


def few_lines(lot):
    """No line to four lines."""
    return entries_by_lot(lot, lot.one_of((0, 0, 1, 1, 2, 3, 4)))


# ---- The paper's sheets, and the lengths of the buffer --------------------

SAMPLE_EFFECTS = patterns((100_000, 0, 0, 0, 0, 0))
BOTH_LIMITS = patterns((LIMIT, -LIMIT, LIMIT - 1, 1 - LIMIT, 7, -LIMIT))


def paper_sheets(_lot):
    """The sample sheet, the column of 6,000 and 2,000, and the effects of dead load and wind without lines."""
    found = []
    rows = ((*SHEET[:2], SAMPLE_EFFECTS), (*INTERIOR[:2], ZEROS), (1, (), patterns((100_000, 0, 0, 0, 60_000, 0))))
    for code, lines, effects in rows:
        found += [sized(code, lines, effects, more) for more in (0, 1, -1, 200, -40, 40_000, -1_000)]
    return found


def every_room(_lot):
    """Every length of the buffer to beyond the text: of the shortest sheet, the sample, and one of mixed lines."""
    found = []
    for code, lines, effects in ((1, (), ZEROS), (*SHEET[:2], SAMPLE_EFFECTS), (12, MIXED_COLUMNS[3], BOTH_LIMITS)):
        length = least_length(code, lines, effects)
        found += [sized(code, lines, effects, room - length) for room in range(length + 4)]
    return found


ROOMS = (0, 1, 51, 52, 53, 5_000, 10_239, 10_240, 10_369, 10_370, 10_371, 10_372, 10_400)
GREAT_ROOMS = (16_384, 32_767, 32_768, 32_769, 65_535, 65_536, 65_537, 100_000)


def shortest_and_longest(_lot):
    """The shortest text and the longest one, and those a little longer or shorter, with buffers of many lengths."""
    least, most = patterns([-LIMIT] * 6), (LONGEST_LINE,) * 256
    found = [case(1, (), ZEROS, room) for room in (*ROOMS, *GREAT_ROOMS)]
    found += [case(12, most, least, room) for room in (*ROOMS, *GREAT_ROOMS)]
    shorter = [(1, most, least), (12, most[1:], least), (12, (SHORTEST_LINE, *most[1:]), least)]
    shorter += [(12, most, with_place(least, place, pattern_of(LIMIT))) for place in SIX]
    longer = [(10, (), ZEROS), (1, (SHORTEST_LINE,), ZEROS)]
    longer += [(1, (), with_place(ZEROS, place, pattern_of(-1))) for place in SIX]
    for row in (*shorter, *longer):
        found += [sized(*row, more) for more in (0, -1, 1)]
    found += [sized(1, (SHORTEST_LINE,) * 256, ZEROS, more) for more in (0, -1, 1)]
    return found


# ---- Codes, lines and their counts ----------------------------------------


def every_code(lot):
    """Every member of Table 4.2, without lines and with a few, and with a buffer that is just enough or not."""
    found = []
    for code, count, more in product(CODES, (0, 1, 2, 3, 8), (0, -1, 1, 500)):
        found.append(sized(code, entries_by_lot(lot, count), good_six(lot), more))
    return found


def every_count(lot):
    """Every count of lines, 0 to 256: the buffer just as long as the text, and for some of them a byte shorter."""
    found = []
    for count in range(257):
        lines = rising_lines(lot, count, min(max(count, 1), lot.one_of((1, 9, 40, 64))))
        row = (lot.between(1, 12), lines, good_six(lot))
        found += [sized(*row, more) for more in ((0,) if count % 4 else (0, -1))]
    return found


def full_columns(lot):
    """255 and 256 lines, and counts about a power of two or ten, with buffers of every kind."""
    found = []
    for count in (9, 10, 11, 63, 64, 65, 99, 100, 127, 128, 254, 255, 256, 256):
        row = (lot.between(1, 12), entries_by_lot(lot, count), good_six(lot))
        found += [sized(*row, more) for more in (0, -1, 1, lot.between(2, 9_000), -lot.between(2, 60), -20_000)]
    return found


AT_DIGITS = tuple(number for power in (1, 10, 100, 1_000, 10_000) for number in (power, 5 * power, 10 * power - 1))


def numbers_of_lines(lot):
    """Each number of a line at its limits and beside them, and the least and greatest of each count of digits."""
    floors, loads = (1, 2, 9, 10, 11, 63, 64), (*AT_DIGITS, 4_999, 5_001, 49_999)
    lines = [(floor, cls, 3_000, 1_000) for floor, cls in product(floors, (1, 2, 3))]
    lines += [(4, cls, load, 1_234) for cls, load in product((1, 2, 3), loads) if load <= 50_000]
    lines += [(4, cls, 2_345, area) for cls, area in product((1, 2, 3), (*AT_DIGITS, 100_000, 199_999, 200_000))]
    return [sized(lot.between(1, 12), (line,), good_six(lot), lot.one_of((0, 0, 1, 30))) for line in lines]


# ---- Good effects ---------------------------------------------------------


def sizes_of_each_length(lot):
    """Sizes of 1 to 13 digits: the least and the greatest of each count of digits, and one between."""
    found = [LIMIT, LIMIT - 1]
    for count in range(1, 13):
        least, greatest = 10 ** (count - 1), 10**count - 1
        found += [least, greatest, lot.between(least, greatest)]
    return found


def effects_in_place(lot):
    """Sizes of every count of digits with both signs at each place, the others 0 or any good ones."""
    found = []
    for place, sign in product(SIX, (1, -1)):
        for turn, size in enumerate(sizes_of_each_length(lot)):
            others = ZEROS if turn % 2 else good_six(lot)
            effects = with_place(others, place, pattern_of(sign * size))
            found.append(sized(lot.between(1, 12), few_lines(lot), effects, lot.one_of((0, 0, 0, -1, 1, 77))))
    return found


def signs(_lot):
    """Six zeros and six effects of 10^12 in every pattern of signs: 'minus zero counts as 0'."""
    found = [sized(1, (), [MINUS * bit for bit in bits], 0) for bits in product((0, 1), repeat=6)]
    found += [sized(2, (), patterns(LIMIT * sign for sign in row), 0) for row in product((1, -1), repeat=6)]
    found += [sized(3, (), patterns(row), 5) for row in list(product((-1, 0, 1), repeat=6))[::7]]
    return found


def minus_zeros(lot):
    """Minus zero at each place among other effects, good ones and refused ones, before it and after it."""
    found = []
    for place, turn in product(SIX, range(8)):
        effects = with_place(good_six(lot), place, MINUS)
        found.append(sized(lot.between(1, 12), few_lines(lot), effects, (0, 0, -1, 1)[turn % 4]))
        other, number = (place + 1 + turn % 5) % 6, 8 + turn % 2
        asked = lent(lot, lot.between(1, 12), few_lines(lot), with_place(effects, other, lot.one_of(BAD[number])))
        found.append(refused(asked, number, other + 1))
    return found


# ---- Refused effects ------------------------------------------------------

NANS = (
    *(INFINITY + 1, INFINITY + MINUS + 1, INFINITY + QUIET - 1, INFINITY + MINUS + QUIET - 1),  # signalling
    *(INFINITY + 0x4_5678_9ABC_DEF0, INFINITY + MINUS + 0x2_0000_0001_0000),
    *(INFINITY + QUIET, INFINITY + MINUS + QUIET, INFINITY + QUIET + 1, INFINITY + MINUS + QUIET + 1),  # quiet
    *(GREATEST, INFINITY + QUIET + 0x3_DEAD_BEEF_0001, INFINITY + MINUS + QUIET + 0x4_0000_0000_0123),
)
WRONG = (*((8, bad) for bad in dict.fromkeys((*BAD[8], *NANS))), *((9, bad) for bad in BAD[9]))


def refused_alone(lot):
    """Each bad double at each place, the other five good: once with room for any text, and once by lot."""
    found = []
    for place, (number, bad) in product(SIX, WRONG):
        row = (lot.between(1, 12), few_lines(lot), with_place(good_six(lot), place, bad))
        found.append(refused(case(*row, LONGEST), number, place + 1))
        found.append(refused(lent(lot, *row), number, place + 1))
    return found


def refused_in_short_buffers(lot):
    """Each number at each place, and a buffer that is too short for any text: the effects come first."""
    found = []
    for place, number, count in product(SIX, (8, 9), (0, 2)):
        code, lines = lot.between(1, 12), tuple(entries_by_lot(lot, count))
        effects = with_place(good_six(lot), place, lot.one_of(BAD[number]))
        rooms = (0, 1, SHORTEST - 1, least_length(code, lines, effects) - 1)
        found += [refused(case(code, lines, effects, room), number, place + 1) for room in rooms]
    return found


def refused_pairs(lot):
    """Two refused effects in every pair of places, with both numbers in both orders: the first decides."""
    found = []
    for (first, second), numbers in product(combinations(SIX, 2), product((8, 9), repeat=2)):
        for _ in range(5):
            effects = with_place(good_six(lot), first, lot.one_of(BAD[numbers[0]]))
            effects = with_place(effects, second, lot.one_of(BAD[numbers[1]]))
            asked = lent(lot, lot.between(1, 12), few_lines(lot), effects)
            found.append(refused(asked, numbers[0], first + 1))
    return found


def refused_many(lot):
    """Three to six refused effects."""
    found = []
    for turn in range(160):
        effects, places = good_six(lot), sorted(SIX, key=lambda _place: lot.draw())[: 3 + turn % 4]
        numbers = {place: lot.one_of((8, 9)) for place in places}
        for place in places:
            effects = with_place(effects, place, lot.one_of(BAD[numbers[place]]))
        asked = lent(lot, lot.between(1, 12), few_lines(lot), effects)
        found.append(refused(asked, numbers[min(places)], min(places) + 1))
    return found


def refused_on_full_columns(lot):
    """A refused effect at each place beside many lines."""
    found = []
    for place, number, count in product(SIX, (8, 9), (40, 255, 256)):
        effects = with_place(good_six(lot), place, lot.one_of(BAD[number]))
        found.append(refused(lent(lot, lot.between(1, 12), entries_by_lot(lot, count), effects), number, place + 1))
    return found


DOUBLES = (
    *(trial_whole.at_limit, trial_whole.no_numbers, trial_whole.at_53_bits, trial_whole.subnormals),
    *(trial_whole.halves, trial_whole.at_units_place, trial_whole.wholes_by_lot, trial_whole.patterns_by_lot),
)


def doubles_of_every_kind(lot):
    """Doubles about the limit, about 2^53, very small and very great ones, and no numbers, each at a place by lot."""
    found = []
    for double in dict.fromkeys(double for maker in DOUBLES for double in maker(lot)):
        effects = with_place(lot.one_of((ZEROS, good_six(lot))), lot.one_of(SIX), double)
        found.append(lent(lot, lot.between(1, 12), entries_by_lot(lot, lot.one_of((0, 0, 0, 1))), effects))
    return found


# ---- Writes by lot --------------------------------------------------------


def good_by_lot(lot):
    """Columns of a few lines and good effects, with any buffer."""
    return [lent(lot, lot.between(1, 12), entries_by_lot(lot, lot.between(0, 9)), good_six(lot)) for _ in range(600)]


def long_by_lot(lot):
    """Columns of many lines and good effects, with any buffer."""
    counts = [lot.between(10, lot.one_of((40, 256))) for _ in range(90)]
    return [lent(lot, lot.between(1, 12), entries_by_lot(lot, count), good_six(lot)) for count in counts]


# ---- All of them ----------------------------------------------------------

MAKERS = (
    paper_sheets,
    every_room,
    shortest_and_longest,
    every_code,
    every_count,
    full_columns,
    numbers_of_lines,
    effects_in_place,
    signs,
    minus_zeros,
    refused_alone,
    refused_in_short_buffers,
    refused_pairs,
    refused_many,
    refused_on_full_columns,
    doubles_of_every_kind,
    good_by_lot,
    long_by_lot,
)


@lru_cache(maxsize=None)
def cases_by_kind():
    """The writes kind by kind, in the order of the text; none is asked about twice; made once."""
    return fresh_by_kind(MAKERS, Lot(SEED))


@lru_cache(maxsize=None)
def cases():
    """Every write in the order of the text."""
    return tuple(asked for kind in cases_by_kind().values() for asked in kind)


# ---- What the cases hold --------------------------------------------------


def features(asked):
    """The features that the cases are to have, by name, and which of them this one has."""
    code, room, effects, lines = asked
    found, length = answer(asked), least_length(code, lines, effects)
    numbers = [effect(pattern).refused for pattern in effects]
    later = [number for number in numbers[found.place :] if number is not None] if found.place else []
    fraction_beyond = found.number == 8 and pattern_of(LIMIT) < found.pattern % MINUS < INFINITY
    return {
        "buffer just as long": found.number == 0 and room == length,
        "a byte longer": found.number == 0 and room == length + 1,
        "much longer": found.number == 0 and room >= 2 * length,
        "a byte short": found.number == 12 and room == length - 1,
        "empty buffer": found.number == 12 and room == 0,
        "refused effect, buffer too short": found.place is not None and room < length,
        "refused effect, empty buffer": found.place is not None and room == 0,
        "refused effect, room for any text": found.place is not None and room >= LONGEST,
        "8, and a 9 later": found.number == 8 and 9 in later,
        "9, and an 8 later": found.number == 9 and 8 in later,
        "fraction beyond the limit": fraction_beyond,
        "NaN handed back": found.number == 8 and is_nan(found.pattern),
        "minus zero written": found.number == 0 and MINUS in effects,
        "negative effect written": found.number == 0 and b"=-" in found.text,
        "effect at the limit written": found.number == 0 and b"1000000000000\n" in found.text,
    }


def require_features():
    """Stops where a feature is met too seldom."""
    met = Counter()
    for asked in cases():
        met.update(features(asked))
    for name, count in met.items():
        require(count >= LEAST_EACH, f"{name}: {count} times")


def counts_by_number():
    """How many writes have each number; 0 is that of the sheets that are written."""
    return Counter(answer(asked).number for asked in cases())


def require_numbers():
    """Stops where a number is met too seldom: in all, with one of the twelve codes, or 8 or 9 at one of the places."""
    counts = counts_by_number()
    require(set(counts) == {0, 8, 9, 12}, f"numbers {sorted(counts)}")
    codes = Counter((asked[0], answer(asked).number) for asked in cases())
    for number, code in product(counts, CODES):
        require(codes[code, number] >= LEAST_BY_CODE, f"number {number}, code {code}: {codes[code, number]} times")
    places = Counter((answer(asked).number, answer(asked).place) for asked in cases())
    for number, place in product((8, 9), range(1, 7)):
        require(places[number, place] >= LEAST_EACH, f"number {number}, place {place}: {places[number, place]} times")


def require_pairs():
    """Stops where 8 or 9 is not met alone at a place, or before another 8 or 9 at a later place."""
    met = Counter()
    for asked in cases():
        numbers = enumerate((effect(pattern).refused for pattern in asked[2]), start=1)
        bad = [(place, number) for place, number in numbers if number is not None]
        met.update(bad if len(bad) == 1 else ((bad[0], later) for later in bad[1:]))
    alone = list(product(range(1, 7), (8, 9)))
    before = [pair for pair in product(alone, repeat=2) if pair[0][0] < pair[1][0]]
    for wanted in (*alone, *before):
        require(met[wanted] >= 5, f"place and number {wanted}: {met[wanted]} times")


def require_lengths():
    """Stops where a count of lines is not written, or the shortest or the longest text, or one is beyond them."""
    done = [(asked, answer(asked).text) for asked in cases() if answer(asked).number == 0]
    counts = Counter(len(asked[3]) for asked, _text in done)
    require(set(counts) == set(range(257)), f"counts of lines {sorted(set(range(257)) - set(counts))} are not written")
    require(min(counts[count] for count in (0, 1, 2, 255, 256)) >= 5, f"counts of lines {counts}")
    lengths = [len(text) for _asked, text in done]
    require((min(lengths), max(lengths)) == (SHORTEST, LONGEST), f"{min(lengths)} to {max(lengths)} bytes")


def require_digits():
    """Stops where an effect is not written with each count of digits and either sign."""
    met = Counter()
    for asked in cases():
        if answer(asked).number == 0:
            numbers = enumerate(effect(pattern).value for pattern in asked[2])
            met.update((place, digit_count(number), number < 0) for place, number in numbers)
    for key in product(SIX, range(1, 14), (False, True)):
        require(met[key] >= 3, f"place, count of digits and sign {key}: {met[key]} times")


def require_enough():
    """Stops where the cases lack something that they are to have."""
    require_numbers()
    require_pairs()
    require_features()
    require_lengths()
    require_digits()


# ---- The lines of the text ------------------------------------------------


def told(found):
    """An answer: 'written LENGTH TEXT' with | for each newline, 'refused N place P double BITS', or 'refused 12'."""
    if found.number == 0:
        return f"written {len(found.text)} {found.text.decode('ascii').replace(chr(10), '|')}"
    if found.place is None:
        return f"refused {found.number}"
    return f"refused {found.number} place {found.place} double {found.pattern:016x}"


def told_case(asked):
    """A case and its answer, parted by one blank: 'code room D R S N W Q F C L A F C L A .. = ..'."""
    code, room, effects, lines = asked
    doubles = [f"{pattern:016x}" for pattern in effects]
    numbers = [str(number) for line in lines for number in line]
    return f"{' '.join((str(code), str(room), *doubles, *numbers))} = {told(answer(asked))}"


def text():
    """Every case, one line a write."""
    require_enough()
    return "".join(told_case(asked) + "\n" for asked in cases())


def tally():
    """How many writes there are, how many are written, and how many are refused under each number, a line each."""
    counts = counts_by_number()
    refusals = [f"{counts[number]} refused under {number}" for number in (8, 9, 12)]
    return [f"{len(cases())} writes", f"{counts[0]} written", *refusals]
