// What paper 01 prints, for the trials: its sample sheet with the report, and its reduced loads.

pub const SAMPLE: &[u8] = include_bytes!("../examples/sample.txt");
pub const SAMPLE_REPORT: &[u8] = include_bytes!("../examples/expected/report.txt");

// 'Figures to check against': load, class, n, X and R.
const REDUCED: [[u64; 5]; 10] = [
    [2_000, 1, 1, 3_699, 2_000],
    [2_000, 1, 1, 3_700, 2_000],
    [2_000, 1, 1, 3_720, 1_999],
    [2_000, 1, 1, 6_400, 1_643],
    [5_000, 1, 2, 10_000, 3_535],
    [2_000, 1, 1, 33_415, 1_001],
    [2_000, 1, 1, 33_416, 1_000],
    [2_000, 1, 2, 92_821, 801],
    [2_000, 1, 2, 92_822, 800],
    [2_001, 1, 1, 40_000, 1_001],
];

// The same where any X will do: load, class, n and R.
const REDUCED_AT_ANY: [[u64; 4]; 5] =
    [[5_001, 1, 1, 5_001], [5_001, 1, 2, 4_001], [2_500, 2, 1, 2_500], [2_500, 2, 2, 2_000], [4_000, 3, 9, 4_000]];

// All of them; where any X will do, several are taken.
pub fn reduced_loads() -> Vec<[u64; 5]> {
    let mut figures = REDUCED.to_vec();
    for influence in [0, 1, 3_700, 6_400, 10_000, 33_416, 92_822, 200_000_000, u64::MAX] {
        figures.extend(REDUCED_AT_ANY.map(|[load, class, floors, reduced]| [load, class, floors, influence, reduced]));
    }
    figures
}
