"""Joins the questions about doubles and about seven effects, as doubles and as whole numbers, into the two texts."""

from functools import lru_cache

from reckoning import trial_effects, trial_govern, trial_whole
from reckoning.combination import Refused, RefusedNumber, agreed, combine, double_of, effect, govern, is_nan
from reckoning.trial import text
from reckoning.trial_reduction import require

STDIN = "crates/trial_combination/stdin"
STDOUT = "crates/trial_combination/stdout"
SIZE_LIMITS = {STDIN: 1_040_000, STDOUT: 1_048_576}  # the machine that runs the trial program takes at most 1,048,576


# ---- The cases -----------------------------------------------------------


@lru_cache(maxsize=None)
def wholes():
    """Every pattern that is asked about alone, in the order of the text; made once."""
    return tuple(case for kind in trial_whole.cases_by_kind().values() for case in kind)


@lru_cache(maxsize=None)
def sevens():
    """Every seven patterns that are combined, in the order of the text; made once."""
    return tuple(case for kind in trial_effects.cases_by_kind().values() for case in kind)


@lru_cache(maxsize=None)
def governs():
    """Every seven whole numbers that are combined, in the order of the text; made once."""
    return tuple(case for kind in trial_govern.cases_by_kind().values() for case in kind)


def case_count():
    """How many questions the texts hold."""
    return len(wholes()) + len(sevens()) + len(governs())


def tally():
    """What the questions are about, counted."""
    return {"doubles": len(wholes()), "combinations": len(sevens()), "combinations of whole numbers": len(governs())}


# ---- The lines -----------------------------------------------------------


def digits(pattern):
    """A pattern as 16 hexadecimal digits, most significant first."""
    require(0 <= pattern < 2**64, f"{pattern} is no pattern of 64 bits")
    return f"{pattern:016x}"


def signed_digits(number):
    """A whole number as the 16 hexadecimal digits of its 64-bit two's complement, made two ways."""
    require(-(2**63) <= number < 2**63, f"{number} is no number of 64 bits with a sign")
    return agreed(digits(number % 2**64), number.to_bytes(8, "big", signed=True).hex(), f"digits of {number}")


def as_it_came(pattern):
    """The pattern of a refused double; a program cannot read the bits of a NaN, so those are not said."""
    return "nan" if is_nan(pattern) else digits(pattern)


def told_whole(pattern):
    """The printed line of a single double: its whole number, or the number of the refusal."""
    answer = effect(pattern)
    if answer.refused is not None:
        return f"refused={answer.refused} double={as_it_came(pattern)}"
    return f"whole={answer.value}"


def told_governing(name, governing):
    """A governing sum by its name: whole tenths, the row, and the double that is exactly the sum."""
    return f"{name}={governing.tenths} row={governing.row} double={digits(double_of(governing.tenths))}"


def told_both(answer):
    """Both governing sums, the greatest first."""
    return f"{told_governing('max', answer.greatest)} {told_governing('min', answer.least)}"


def told_combined(case):
    """The printed line of seven effects: both governing sums, or the first refused effect."""
    answer = combine(case)
    if isinstance(answer, Refused):
        return f"refused={answer.number} effect={answer.name} double={as_it_came(answer.pattern)}"
    return told_both(answer)


def told_govern(case):
    """The printed line of seven whole numbers: both governing sums, or the first refused effect with no double."""
    answer = govern(case)
    if isinstance(answer, RefusedNumber):
        return f"refused={answer.number} effect={answer.name}"
    return told_both(answer)


def reads():
    """The lines the trial program reads."""
    alone = [f"whole {digits(pattern)}" for pattern in wholes()]
    doubles = [" ".join(("combine", *(digits(pattern) for pattern in case))) for case in sevens()]
    return alone + doubles + [" ".join(("govern", *(signed_digits(number) for number in case))) for case in governs()]


def prints():
    """The lines the trial program is to print."""
    alone, doubles = [told_whole(pattern) for pattern in wholes()], [told_combined(case) for case in sevens()]
    return alone + doubles + [told_govern(case) for case in governs()]


def files():
    """The two texts by their place in the repository; line k of stdout answers line k of stdin."""
    made = {STDIN: text(reads()), STDOUT: text(prints())}
    for place, content in made.items():
        require(len(content) < SIZE_LIMITS[place], f"{place} has {len(content)} bytes")
    return made
