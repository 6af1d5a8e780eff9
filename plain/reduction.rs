// Live load reduction by CIRSOC 101, 4.7, in plain Rust: the share of a load, and the reduced load.
use super::Refusal;

// The use of a floor area, with the paper's number.
#[derive(Clone, Copy, PartialEq)]
pub enum Class {
    Ordinary = 1,
    Garage = 2,
    Assembly = 3,
}

impl Class {
    // The class with this number.
    pub fn from_number(number: u64) -> Result<Class, Refusal> {
        match number {
            1 => Ok(Class::Ordinary),
            2 => Ok(Class::Garage),
            3 => Ok(Class::Assembly),
            _ => Err(Refusal::UnknownClass),
        }
    }

    // Its number.
    pub fn number(self) -> u64 {
        self as u64
    }
}

// What a load is multiplied by: so many twentieths, or 1/4 + 45.7/√X, which is about `near`.
#[derive(Clone, Copy, PartialEq)]
enum Share {
    Twentieths(u32),
    Root { influence: u64, near: f64 },
}

impl Share {
    // The least whole number not below share × load: a guess in floating point, made right by squares.
    fn reduced(self, load: u32) -> u32 {
        match self {
            Share::Twentieths(twentieths) => (twentieths * load).div_ceil(20),
            Share::Root { influence, near } => {
                let square = |number: u32| u64::from(number).pow(2);
                let root_part = square(914 * load);
                let reaches = |r: u32| 4 * r >= load && 25 * influence * square(4 * r - load) >= root_part;
                let mut reduced = (near * f64::from(load)) as u32 + 1;
                while !reaches(reduced) {
                    reduced += 1;
                }
                while reaches(reduced - 1) {
                    reduced -= 1;
                }
                reduced
            }
        }
    }
}

// The shares of all lines at one count of floors and one influence area.
#[derive(Clone, Copy, PartialEq)]
pub struct Shares {
    formula: Share,
    other: Share,
}

impl Shares {
    // The shares at so many floors and this influence area.
    pub fn at(floors: u64, influence: u64) -> Shares {
        let (least, least_from, other) = if floors <= 1 { (10, 33_416, 20) } else { (8, 92_822, 16) };
        let formula = match influence {
            0..=3_712 => Share::Twentieths(20),
            _ if influence >= least_from => Share::Twentieths(least),
            _ => Share::Root { influence, near: 0.25 + 45.7 / (influence as f64).sqrt() },
        };
        Shares { formula, other: Share::Twentieths(other) }
    }

    // The reduced load of a line.
    pub fn reduced(&self, class: Class, load: u32) -> u32 {
        let share = match class {
            Class::Ordinary if is_formula(class, load) => self.formula,
            Class::Ordinary | Class::Garage => self.other,
            Class::Assembly => return load,
        };
        share.reduced(load)
    }
}

// Whether a line's load is reduced by the formula.
pub fn is_formula(class: Class, load: u32) -> bool {
    class == Class::Ordinary && load <= 5_000
}

// The reduced load of a line at so many floors and this influence area.
pub fn reduced_load(load: u64, class: u64, floors: u64, influence: u64) -> Result<u64, Refusal> {
    let class = Class::from_number(class)?;
    if !(1..=50_000).contains(&load) {
        return Err(Refusal::LoadOutOfRange);
    }
    Ok(Shares::at(floors, influence).reduced(class, load as u32).into())
}
