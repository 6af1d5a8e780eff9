// The 25 load combinations of seven effects in plain Rust, and the rows that govern.
use super::{Refusal, RefusedAt};

// The greatest effect taken, in newtons, either way.
const LIMIT: i64 = 1_000_000_000_000;

// The factors of each row in tenths: D, L, Lr, S, R, W, E.
const FACTORS: [[i64; 7]; 25] = [
    [14, 0, 0, 0, 0, 0, 0],
    [12, 16, 5, 0, 0, 0, 0],
    [12, 16, 0, 5, 0, 0, 0],
    [12, 16, 0, 0, 5, 0, 0],
    [12, 10, 16, 0, 0, 0, 0],
    [12, 0, 16, 0, 0, 5, 0],
    [12, 0, 16, 0, 0, -5, 0],
    [12, 10, 0, 16, 0, 0, 0],
    [12, 0, 0, 16, 0, 5, 0],
    [12, 0, 0, 16, 0, -5, 0],
    [12, 10, 0, 0, 16, 0, 0],
    [12, 0, 0, 0, 16, 5, 0],
    [12, 0, 0, 0, 16, -5, 0],
    [12, 10, 5, 0, 0, 10, 0],
    [12, 10, 5, 0, 0, -10, 0],
    [12, 10, 0, 5, 0, 10, 0],
    [12, 10, 0, 5, 0, -10, 0],
    [12, 10, 0, 0, 5, 10, 0],
    [12, 10, 0, 0, 5, -10, 0],
    [12, 10, 0, 2, 0, 0, 10],
    [12, 10, 0, 2, 0, 0, -10],
    [9, 0, 0, 0, 0, 10, 0],
    [9, 0, 0, 0, 0, -10, 0],
    [9, 0, 0, 0, 0, 0, 10],
    [9, 0, 0, 0, 0, 0, -10],
];

// A row, 1 to 25, and its sum in tenths of a newton, as a whole number and as a double.
#[derive(Clone, Copy, Debug, PartialEq)]
pub struct Row {
    pub row: u64,
    pub tenths: i64,
    pub double: f64,
}

impl Row {
    // A row with this sum; seven effects within the limit stay far below 2^53 tenths, so the double loses nothing.
    fn new(row: u64, tenths: i64) -> Row {
        Row { row, tenths, double: tenths as f64 }
    }
}

// The rows with the greatest and the least sum.
#[derive(Clone, Copy, Debug, PartialEq)]
pub struct Governing {
    pub greatest: Row,
    pub least: Row,
}

// The first refused effect: its place among those handed over, counted from 1, and the double as it came.
#[derive(Clone, Copy, Debug)]
pub struct RefusedEffect {
    pub refusal: Refusal,
    pub place: u64,
    pub double: f64,
}

// The sum of a row.
fn sum(factors: &[i64; 7], newtons: &[i64; 7]) -> i64 {
    factors.iter().zip(newtons).map(|(factor, newtons)| factor * newtons).sum()
}

// The rows that govern; of equal sums the lowest row does.
pub fn governing(newtons: &[i64; 7]) -> Governing {
    let first = Row::new(1, sum(&FACTORS[0], newtons));
    let mut governing = Governing { greatest: first, least: first };
    for (row, factors) in (1..).zip(&FACTORS).skip(1) {
        let tenths = sum(factors, newtons);
        if tenths > governing.greatest.tenths {
            governing.greatest = Row::new(row, tenths);
        }
        if tenths < governing.least.tenths {
            governing.least = Row::new(row, tenths);
        }
    }
    governing
}

// A double as an effect in whole newtons.
fn whole(effect: f64) -> Result<i64, Refusal> {
    let newtons = effect as i64;
    if effect.abs() <= LIMIT as f64 && newtons as f64 == effect {
        return Ok(newtons);
    }
    // An infinity or a NaN has the fraction NaN.
    Err(if effect.fract() == 0.0 { Refusal::EffectOutOfRange } else { Refusal::EffectNotWhole })
}

// Effects handed over as doubles in whole newtons, or the first refused one; a sheet has six, a combination seven.
pub fn checked<const COUNT: usize>(effects: &[f64; COUNT]) -> Result<[i64; COUNT], RefusedEffect> {
    let mut newtons = [0; COUNT];
    for (place, (newtons, &double)) in (1..).zip(newtons.iter_mut().zip(effects)) {
        *newtons = whole(double).map_err(|refusal| RefusedEffect { refusal, place, double })?;
    }
    Ok(newtons)
}

// The rows that govern seven effects handed over as doubles, or the first refused effect.
pub fn combine(effects: &[f64; 7]) -> Result<Governing, RefusedEffect> {
    Ok(governing(&checked(effects)?))
}

// Whether an effect in whole newtons is beyond the limit.
pub fn is_beyond_limit(newtons: i64) -> bool {
    !(-LIMIT..=LIMIT).contains(&newtons)
}

// The rows that govern seven effects handed over as whole newtons, or the place of the first beyond the limit.
pub fn combine_newtons(newtons: &[i64; 7]) -> Result<Governing, RefusedAt> {
    match (1..).zip(newtons).find(|(_, &effect)| is_beyond_limit(effect)) {
        Some((place, _)) => Err(RefusedAt { refusal: Refusal::EffectOutOfRange, place }),
        None => Ok(governing(newtons)),
    }
}
