// The paper's whole job in plain Rust, beside which the trials under tests/ put the library, and the benchmark its
// times. tests/plain_trial.rs holds it to the second reckoning in Python.
pub mod column;
pub mod combination;
pub mod reduction;
pub mod report;
pub mod sheet;

// Why something is refused, with the paper's number.
#[derive(Clone, Copy, Debug, PartialEq)]
pub enum Refusal {
    UnknownCode = 1,
    TooManyLines = 2,
    FloorOutOfRange = 3,
    UnknownClass = 4,
    LoadOutOfRange = 5,
    AreaOutOfRange = 6,
    NoLineAtFloor = 7,
    EffectNotWhole = 8,
    EffectOutOfRange = 9,
    SheetMalformed = 10,
    SheetTooLong = 11,
    BufferTooShort = 12,
}

impl Refusal {
    // The paper's number.
    pub fn number(self) -> u64 {
        self as u64
    }
}

// A refusal and its place: of a line in a list or on a sheet, or of an effect, counted from 1; 0 where it has none.
#[derive(Clone, Copy, Debug, PartialEq)]
pub struct RefusedAt {
    pub refusal: Refusal,
    pub place: u64,
}
