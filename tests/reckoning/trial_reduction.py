"""Makes the questions of the trial about K and R: the lines the trial program reads and the lines it is to print."""

from itertools import product

from reckoning.paper import PAPER_ROWS
from reckoning.reduction import factor, is_least, reduced_load

GREATEST = 2**64 - 1  # the greatest number a case may hold


def require(holds, what):
    """Stops the making of the texts where a check of the reckoning itself fails."""
    if not holds:
        raise AssertionError(what)


# ---- Numbers by lot, the same on every machine ---------------------------


class Lot:
    """Splitmix64: whole numbers of 64 bits from a fixed seed."""

    def __init__(self, seed):
        self.state = seed

    def draw(self):
        """The next number, 0 to 2^64 - 1."""
        self.state = (self.state + 0x9E3779B97F4A7C15) & GREATEST
        z = self.state
        z = ((z ^ (z >> 30)) * 0xBF58476D1CE4E5B9) & GREATEST
        z = ((z ^ (z >> 27)) * 0x94D049BB133111EB) & GREATEST
        return z ^ (z >> 31)

    def between(self, low, high):
        """A whole number from low to high, both taken in."""
        return low + self.draw() % (high - low + 1)

    def one_of(self, choices):
        """One of the given choices."""
        return choices[self.draw() % len(choices)]

    def any_size(self):
        """A number of 1 to 64 bits, each size about as often."""
        return self.draw() >> (64 - self.between(1, 64))


# ---- (a) Codes -----------------------------------------------------------

# Most of the far ones look like a code of Table 4.2 in their low 8, 16 or 32 bits.
FAR_CODES = (
    *(99, 100, 112, 127, 128, 255, 256, 257, 261, 268, 269, 1_000, 2**16, 2**16 + 1, 2**16 + 12),
    *(2**31, 2**31 + 1, 2**32 - 1, 2**32, 2**32 + 1, 2**32 + 4, 2**32 + 12, 2**32 + 13),
    *(2**63 - 1, 2**63, 2**63 + 1, 2**63 + 12, 10**19, 2**64 - 2**32 + 1, 2**64 - 255, 2**64 - 244),
    *(2**64 - 12, 2**64 - 2, 2**64 - 1),
)


def code_cases():
    """Codes about 'code not 1 to 12', near and far."""
    return [(code,) for code in (*range(21), *FAR_CODES)]


# ---- (b) The paper's figures ---------------------------------------------

# 'Figures to check against' but for the uncapped one: load, class, n, X (None is 'any') and R.
PAPER_FIGURES = tuple(
    (row.load, row.cls, row.floors, row.influence, row.r) for row in PAPER_ROWS if not row.is_uncapped
)
ANY_INFLUENCE = (0, 1, 3_699, 3_700, 6_400, 33_416, 92_821, 92_822, 2**32, GREATEST)


def paper_cases():
    """Every row of 'Figures to check against'; 'any' is tried at several influence areas."""
    found = []
    for load, cls, floors, influence, printed in PAPER_FIGURES:
        for x in ANY_INFLUENCE if influence is None else (influence,):
            reckoned = reduced_load(load, cls, floors, x).value
            require(reckoned == printed, f"paper prints {printed}, reckoned {reckoned}")
            found.append((load, cls, floors, x))
    return found


# ---- (c) Edges -----------------------------------------------------------

FORMULA_LOADS = (1, 2, 3, 4, 5, 7, 19, 20, 21, 999, 1_000, 2_000, 2_001, 4_999, 5_000)
HEAVY_LOADS = (5_001, 5_002, 49_999, 50_000)
EDGE_FLOORS = (0, 1, 2, 3, 64)
EDGE_INFLUENCES = (
    *(0, 1, 2),
    *(3_698, 3_699, 3_700, 3_701, 3_711, 3_712, 3_713, 3_714, 3_720, 3_722),
    *(33_414, 33_415, 33_416, 33_417),
    *(92_820, 92_821, 92_822, 92_823),
    *(10**6, 2**32 - 1, 2**32, 2**63, GREATEST),
)
# Where X does not count, a few of them will do.
FEW_INFLUENCES = (0, 1, 3_700, 3_713, 33_416, 92_822, GREATEST)

# Counts that look like 0 or 1 in their low bits, but are 2 or more.
FAR_FLOORS = (255, 256, 257, 2**16, 2**16 + 1, 2**32, 2**32 + 1, 2**63, 2**63 + 1, GREATEST)
# Influence areas that look like small ones in their low 16 or 32 bits.
FAR_INFLUENCES = (
    *(2**16, 2**16 + 3_700, 2**17 + 6_400, 2**32 + 1, 2**32 + 3_700, 2**32 + 6_400),
    *(2**32 + 33_415, 2**33 + 92_821, 2**63 + 6_400, 2**64 - 2**32, 2**64 - 2**32 + 6_400),
)


def edge_cases():
    """Loads, classes, counts and influence areas about the paper's thresholds."""
    every_load = FORMULA_LOADS + HEAVY_LOADS
    return [
        *((l, 1, n, x) for l, n, x in product(FORMULA_LOADS, EDGE_FLOORS, EDGE_INFLUENCES)),
        *((l, 1, n, x) for l, n, x in product(HEAVY_LOADS, EDGE_FLOORS, FEW_INFLUENCES)),
        *((l, c, n, x) for c, l, n, x in product((2, 3), every_load, EDGE_FLOORS, FEW_INFLUENCES)),
        *((2_000, 1, n, x) for n, x in product(FAR_FLOORS, (6_400, 33_416, 92_821, 92_822))),
        *((l, c, n, 6_400) for (l, c), n in product(((5_001, 1), (2_500, 2), (4_000, 3)), FAR_FLOORS)),
        *((l, 1, n, x) for l, n, x in product((1, 2_000, 5_000), (1, 2), FAR_INFLUENCES)),
    ]


# ---- (d) Refused lines ---------------------------------------------------

REFUSED_LOADS = (0, 50_001, 2**16, 2**16 + 2_000, 2**32 + 2_000, 2**63 + 2_000, GREATEST)
REFUSED_CLASSES = (0, 4, 5, 255, 256, 257, 258, 259, 2**16 + 1, 2**32 + 1, 2**32 + 3, 2**63 + 2, GREATEST)
ACCEPTED_LOADS = (1, 2_000, 5_000, 5_001, 50_000)
SITES = ((0, 0), (1, 6_400), (2, 92_822), (64, 2**32), (GREATEST, GREATEST))  # n and X


def refused_cases():
    """'Class not 1 to 3' and 'load not 1 to 50,000', alone and together (class comes first)."""
    return [
        *((l, c, n, x) for l, c, (n, x) in product(REFUSED_LOADS, (1, 2, 3), SITES)),
        *((l, c, n, x) for l, c, (n, x) in product(ACCEPTED_LOADS, REFUSED_CLASSES, SITES)),
        *((l, c, n, x) for l, c, (n, x) in product(REFUSED_LOADS, REFUSED_CLASSES, SITES)),
    ]


# ---- (e) Generated cases -------------------------------------------------

ROOT_RANGE = (3_713, 92_821)  # the influence areas where neither bound stands, n 2 or more


def in_root_range(lot):
    """A formula line where the root decides."""
    return [(lot.between(1, 5_000), 1, lot.between(0, 70), lot.between(*ROOT_RANGE))]


def at_small_influence(lot):
    """A formula line at or near the cap."""
    return [(lot.between(1, 5_000), 1, lot.between(0, 70), lot.between(0, 4_200))]


def at_any_influence(lot):
    """Any accepted line at an influence area of any size."""
    return [(lot.between(1, 50_000), lot.between(1, 3), lot.between(0, 70), lot.any_size())]


def formula_at_any_influence(lot):
    """A formula line at an influence area of any size."""
    return [(lot.between(1, 5_000), 1, lot.between(0, 70), lot.any_size())]


def near_heavy(lot):
    """Loads about 5,000, the last that is not heavy."""
    return [(lot.between(4_970, 5_030), lot.one_of((1, 1, 1, 2, 3)), lot.between(0, 4), lot.between(*ROOT_RANGE))]


def of_any_class(lot):
    """Any accepted line at a common influence area."""
    return [(lot.between(1, 50_000), lot.between(1, 3), lot.between(0, 70), lot.between(1, 200_000))]


def near_whole_load(lot):
    """The least X at which the formula falls to r or below, and the X before it."""
    load = lot.between(1, 5_000)
    r = lot.between((2 * load + 4) // 5, load)
    x = -(-((914 * load) ** 2) // (25 * (4 * r - load) ** 2))
    floors = lot.one_of((0, 1, 2, 2, 3, 64))
    return [(load, 1, floors, x), (load, 1, floors, x - 1)]


def at_whole_load(lot):
    """X a square and share * Lo whole, with the X before and after it."""
    # With X = s^2 the formula gives Lo * (5s + 914) / 20s; the load is a multiple that clears it.
    while True:
        s = lot.between(61, 304)
        step = next(l for l in range(1, 20 * s + 1) if l * (5 * s + 914) % (20 * s) == 0)
        if step <= 5_000:
            break
    load = step * lot.between(1, 5_000 // step)
    floors = lot.one_of((1, 2, 7))
    return [(load, 1, floors, s * s + d) for d in (-1, 0, 1)]


def near_overflow(lot):
    """X where 25 * X * (4r - Lo)^2 passes a multiple of 2^64 for some r."""
    load = lot.between(1, 5_000)
    r = lot.between((load + 4) // 4, load)
    x = lot.between(1, 3) * 2**64 // (25 * max(4 * r - load, 1) ** 2) + lot.between(0, 2)
    return [(load, 1, lot.between(0, 4), min(x, GREATEST))]


def with_small_low_part(lot):
    """X that looks like one of the root range in its low 32 bits."""
    x = (lot.draw() >> 32 << 32) + lot.between(*ROOT_RANGE)
    return [(lot.between(1, 5_000), 1, lot.between(0, 70), x)]


def with_many_floors(lot):
    """A count n of any size."""
    return [(lot.between(1, 6_000), lot.between(1, 3), lot.any_size(), lot.between(1, 120_000))]


def perhaps_refused(lot):
    """Classes 0 to 5 and loads to 70,000, so that many lines are refused."""
    return [(lot.between(0, 70_000), lot.between(0, 5), lot.between(0, 70), lot.between(0, 120_000))]


# Each maker with the number of its draws.
MAKERS = (
    (in_root_range, 2_000),
    (at_small_influence, 400),
    (at_any_influence, 400),
    (formula_at_any_influence, 400),
    (near_heavy, 500),
    (of_any_class, 500),
    (near_whole_load, 1_000),
    (at_whole_load, 200),
    (near_overflow, 300),
    (with_small_low_part, 200),
    (with_many_floors, 200),
    (perhaps_refused, 300),
)


def generated_cases():
    """The cases by lot, one maker after another."""
    lot = Lot(20_250_701)
    return [case for maker, draws in MAKERS for _ in range(draws) for case in maker(lot)]


# ---- The lines --------------------------------------------------------


def cases_by_kind():
    """All cases in the order of the text, kind by kind."""
    return {
        "codes": code_cases(),
        "paper": paper_cases(),
        "edges": edge_cases(),
        "refused": refused_cases(),
        "generated": generated_cases(),
    }


def cases():
    """All cases in the order of the text."""
    return [case for kind in cases_by_kind().values() for case in kind]


def case_count():
    """How many cases the texts hold."""
    return len(cases())


def told(answer, name):
    """The printed line of an answer: the value by its name, or the number of the refusal."""
    if answer.refused is not None:
        return f"refused={answer.refused}"
    return f"{name}={answer.value}"


def checked_load(load, cls, floors, influence):
    """R or the number of the refusal; R is held against the definition each time."""
    answer = reduced_load(load, cls, floors, influence)
    if answer.refused is None:
        require(1 <= cls <= 3 and 1 <= load <= 50_000, "a value for a refused line")
        require(is_least(load, cls, floors, influence, answer.value), "R is not the least")
    else:
        require(answer.refused == (4 if cls not in (1, 2, 3) else 5), "class is refused before load")
        require(answer.refused == 4 or load < 1 or load > 50_000, "a line refused for nothing")
    return answer


def read_line(case):
    """The line of a case as the trial program reads it."""
    require(all(0 <= number <= GREATEST for number in case), "a number beyond 64 bits")
    word = "factor" if len(case) == 1 else "reduced"
    return " ".join((word, *(str(number) for number in case)))


def printed_line(case):
    """The line of a case as the trial program is to print it; the case itself is not said again."""
    return told(factor(*case), "factor") if len(case) == 1 else told(checked_load(*case), "reduced")


def reads():
    """The lines the trial program reads."""
    return [read_line(case) for case in cases()]


def prints():
    """The lines the trial program is to print."""
    return [printed_line(case) for case in cases()]
