// Holds calls to the second reckoning's stored answers about doubles and combinations: the library's, and the plain
// Rust's, which are here too.
use crate::plain::combination::{checked, combine, combine_newtons, Governing, RefusedEffect, Row};
use std::fs;

const NAMES: [&str; 7] = ["dead", "live", "roof", "snow", "rain", "wind", "quake"];

// What a call gives, or the refused effect: its number, its place and the bits of its double.
pub type Given<T> = Result<T, (u64, u64, u64)>;

// The governing rows, the greatest sum first, each with its tenths, its row and the bits of its double.
pub type Rows = [(i64, u64, u64); 2];

// The calls that answer: two for effects as the bits of doubles, and one for whole newtons, whose refusal has no
// double.
pub struct Calls {
    pub check: fn([u64; 7]) -> Given<[i64; 7]>,
    pub combine: fn([u64; 7]) -> Given<Rows>,
    pub govern: fn([i64; 7]) -> Result<Rows, (u64, u64)>,
}

// Those of the plain Rust.
pub const PLAIN: Calls = Calls {
    check: |bits| checked(&bits.map(f64::from_bits)).map_err(refusal),
    combine: |bits| combine(&bits.map(f64::from_bits)).map(rows).map_err(refusal),
    govern: |newtons| combine_newtons(&newtons).map(rows).map_err(|refused| (refused.refusal.number(), refused.place)),
};

// A refused effect by its numbers.
fn refusal(refused: RefusedEffect) -> (u64, u64, u64) {
    (refused.refusal.number(), refused.place, refused.double.to_bits())
}

// The governing rows by their numbers.
fn rows(governing: Governing) -> Rows {
    let row = |each: Row| (each.tenths, each.row, each.double.to_bits());
    [row(governing.greatest), row(governing.least)]
}

// A refused double as it is stored, with no bits for a NaN.
fn told_double(bits: u64) -> String {
    match f64::from_bits(bits).is_nan() {
        true => "nan".to_string(),
        false => format!("{bits:016x}"),
    }
}

// The governing rows as they are stored.
fn told_rows([greatest, least]: Rows) -> String {
    let row = |(tenths, row, bits): (i64, u64, u64)| format!("{tenths} row={row} double={bits:016x}");
    format!("max={} min={}", row(greatest), row(least))
}

// A number and the effect at a place as they are stored.
fn told_effect(number: u64, place: u64) -> String {
    format!("refused={number} effect={}", NAMES[place as usize - 1])
}

// The 64 bits of a number.
fn bits_of(digits: &str) -> u64 {
    u64::from_str_radix(digits, 16).expect("hexadecimal digits")
}

// Those of seven numbers.
fn seven(digits: &str) -> [u64; 7] {
    let bits: Vec<u64> = digits.split(' ').map(bits_of).collect();
    bits.try_into().expect("seven numbers")
}

impl Calls {
    // A stored double, checked at each of the seven places, where it is alone and a refusal hands it back bit for bit.
    fn try_whole(&self, digits: &str, answer: &str) {
        let double = bits_of(digits);
        for place in 0..7 {
            let mut bits = [0; 7];
            bits[place] = double;
            let told = match (self.check)(bits) {
                Ok(newtons) => {
                    assert!((0..7).all(|at| at == place || newtons[at] == 0), "{digits} gives {newtons:?}");
                    format!("whole={}", newtons[place])
                }
                Err((number, at, came)) => {
                    assert_eq!((at, came), (place as u64 + 1, double), "{digits}");
                    format!("refused={number} double={}", told_double(came))
                }
            };
            assert_eq!(told, answer, "{digits} at place {}", place + 1);
        }
    }

    // A stored combination, with a check that agrees; a refused double comes back bit for bit.
    fn try_combination(&self, digits: &str, answer: &str) {
        let bits = seven(digits);
        let told = match (self.combine)(bits) {
            Ok(rows) => {
                assert_eq!((self.check)(bits), Ok(bits.map(|each| f64::from_bits(each) as i64)), "{digits}");
                told_rows(rows)
            }
            Err((number, place, came)) => {
                assert_eq!((self.check)(bits), Err((number, place, came)), "{digits}");
                assert_eq!(came, bits[place as usize - 1], "{digits}");
                format!("{} double={}", told_effect(number, place), told_double(came))
            }
        };
        assert_eq!(told, answer, "{digits}");
    }

    // A stored combination of whole newtons.
    fn try_govern(&self, digits: &str, answer: &str) {
        let given = (self.govern)(seven(digits).map(|each| each as i64));
        assert_eq!(given.map_or_else(|(number, place)| told_effect(number, place), told_rows), answer, "{digits}");
    }

    // Every stored question: how many doubles, and how many combinations of doubles and of whole newtons.
    pub fn try_stored(&self) -> [u64; 3] {
        let read = |path| fs::read_to_string(path).unwrap_or_else(|error| panic!("{path}: {error}"));
        let (asked, answers) = (read("crates/trial_combination/stdin"), read("crates/trial_combination/stdout"));
        assert_eq!(asked.lines().count(), answers.lines().count(), "questions and answers");
        let mut tried = [0; 3];
        for (question, answer) in asked.lines().zip(answers.lines()) {
            let (word, digits) = question.split_once(' ').expect("a word and its numbers");
            let (kind, hold): (usize, fn(&Calls, &str, &str)) = match word {
                "whole" => (0, Calls::try_whole),
                "combine" => (1, Calls::try_combination),
                "govern" => (2, Calls::try_govern),
                _ => panic!("no such question: {question}"),
            };
            hold(self, digits, answer);
            tried[kind] += 1;
        }
        let [doubles, combinations, of_newtons] = tried;
        assert!(doubles >= 15_000 && combinations >= 5_000 && of_newtons >= 300, "too few stored questions: {tried:?}");
        tried
    }
}
