"""What paper 01 prints of reduced loads and of columns: the rows of 'Figures to check against', and two columns."""

from dataclasses import dataclass


@dataclass(frozen=True)
class Row:
    """A row of 'Figures to check against': load, class, n, X (None is 'any'), R, the mark P, and whether uncapped."""

    load: int
    cls: int
    floors: int
    influence: int | None
    r: int
    is_proved: bool
    is_uncapped: bool = False


# 'Those with P are proved.' A printed row with 'n 1 / 2', or with an uncapped R beside the other, is two rows here; the
# mark P behind '5,001 / 4,001' stands for both.
PAPER_ROWS = (
    Row(2_000, 1, 1, 3_699, 2_000, False),
    Row(2_000, 1, 1, 3_700, 2_000, True),
    Row(2_000, 1, 1, 3_700, 2_003, True, is_uncapped=True),
    Row(2_000, 1, 1, 3_720, 1_999, True),
    Row(2_000, 1, 1, 6_400, 1_643, True),
    Row(5_000, 1, 2, 10_000, 3_535, True),
    Row(2_000, 1, 1, 33_415, 1_001, True),
    Row(2_000, 1, 1, 33_416, 1_000, True),
    Row(2_000, 1, 2, 92_821, 801, True),
    Row(2_000, 1, 2, 92_822, 800, True),
    Row(2_001, 1, 1, 40_000, 1_001, True),
    Row(5_001, 1, 1, None, 5_001, True),
    Row(5_001, 1, 2, None, 4_001, True),
    Row(2_500, 2, 1, None, 2_500, False),
    Row(2_500, 2, 2, None, 2_000, False),
    Row(4_000, 3, 9, None, 4_000, True),
)

# The two columns: code, entries, and the printed floor, n, X and figure.
INTERIOR = (1, ((1, 1, 6_000, 10_000), (2, 1, 2_000, 100)), ((1, 1, 0, 60_000_000), (2, 2, 400, 48_200_000)))
SHEET = (1, ((1, 1, 2_000, 1_600), (2, 1, 2_000, 1_600)), ((1, 1, 6_400, 2_628_800), (2, 2, 12_800, 4_185_600)))
