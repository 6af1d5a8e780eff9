// A member and its lines in plain Rust: opening, entering, pasting, asking at one floor or all, and the figure of a lent
// list.
use super::reduction::{is_formula, Class, Shares};
use super::{Refusal, RefusedAt};

// The factor K of each member, by its code from 1 on (Table 4.2).
const FACTORS: [u64; 12] = [4, 4, 3, 2, 2, 2, 1, 1, 1, 1, 1, 1];

const MOST_LINES: usize = 256;

// A line as it is handed over.
#[derive(Clone, Copy, Debug)]
pub struct Entry {
    pub floor: u64,
    pub class: u64,
    pub load: u64,
    pub area: u64,
}

impl From<[u64; 4]> for Entry {
    // In the paper's order.
    fn from([floor, class, load, area]: [u64; 4]) -> Entry {
        Entry { floor, class, load, area }
    }
}

impl Entry {
    // Its class, if it may follow so many lines, the last of them at floor `last`.
    fn check(&self, held: usize, last: u64) -> Result<Class, Refusal> {
        if held >= MOST_LINES {
            return Err(Refusal::TooManyLines);
        }
        if !(last..=64).contains(&self.floor) {
            return Err(Refusal::FloorOutOfRange);
        }
        let class = Class::from_number(self.class)?;
        if !(1..=50_000).contains(&self.load) {
            return Err(Refusal::LoadOutOfRange);
        }
        if !(1..=200_000).contains(&self.area) {
            return Err(Refusal::AreaOutOfRange);
        }
        Ok(class)
    }
}

// An accepted line, in eight bytes.
#[derive(Clone, Copy)]
struct Line {
    floor: u8,
    class: Class,
    load: u16,
    area: u32,
}

impl Line {
    // The tributary area that it adds to X.
    fn formula_area(&self) -> u64 {
        formula_area(self.class, self.load.into(), self.area.into())
    }
}

// What holds at a floor: the count of floors, the influence area, and the figure in hundredths of a newton.
#[derive(Clone, Copy, Debug, PartialEq)]
pub struct Working {
    pub floors: u64,
    pub influence: u64,
    pub figure: u64,
}

// A member's factor, its accepted lines from the top down, and the floor of the last one, 1 without lines.
pub struct Column {
    factor: u64,
    lines: Vec<Line>,
    last_floor: u64,
}

impl Column {
    // Opens a member.
    pub fn open(code: u64) -> Result<Column, Refusal> {
        Ok(Column { factor: factor(code)?, lines: Vec::with_capacity(MOST_LINES), last_floor: 1 })
    }

    // Enters a line.
    pub fn enter(&mut self, entry: &Entry) -> Result<(), Refusal> {
        let class = entry.check(self.lines.len(), self.last_floor)?;
        self.last_floor = entry.floor;
        self.lines.push(Line { floor: entry.floor as u8, class, load: entry.load as u16, area: entry.area as u32 });
        Ok(())
    }

    // Enters lines in order, up to and with the first refused one, whose place counts from 1; those before it are kept.
    pub fn paste(&mut self, entries: &[Entry]) -> Result<(), RefusedAt> {
        for (kept, entry) in entries.iter().enumerate() {
            self.enter(entry).map_err(|refusal| RefusedAt { refusal, place: kept as u64 + 1 })?;
        }
        Ok(())
    }

    // The accepted lines as they were handed over.
    pub fn entries(&self) -> impl Iterator<Item = Entry> + '_ {
        self.lines.iter().map(|&Line { floor, class, load, area }| Entry {
            floor: floor.into(),
            class: class.number(),
            load: load.into(),
            area: area.into(),
        })
    }

    // What holds at a floor.
    pub fn ask(&self, floor: u64) -> Result<Working, Refusal> {
        // The lines are in the order of their floors, so those carried come first.
        let carried = &self.lines[..self.lines.partition_point(|line| u64::from(line.floor) <= floor)];
        if carried.last().map(|line| line.floor.into()) != Some(floor) {
            return Err(Refusal::NoLineAtFloor);
        }
        let (mut floors, mut area, mut above) = (0, 0, 0);
        for line in carried {
            floors += u64::from(line.floor != above);
            above = line.floor;
            area += line.formula_area();
        }
        let influence = self.factor * area;
        Ok(Working { floors, influence, figure: figure(carried, Shares::at(floors, influence)) })
    }

    // What holds at each floor that has a line, top first, in one walk down the lines.
    pub fn workings(&self) -> impl Iterator<Item = (u64, Working)> + '_ {
        let mut working = Working { floors: 0, influence: 0, figure: 0 };
        let mut shares = Shares::at(0, 0);
        let mut carried = 0;
        self.lines.chunk_by(|above, below| above.floor == below.floor).map(move |lines| {
            working.floors += 1;
            working.influence += self.factor * lines.iter().map(Line::formula_area).sum::<u64>();
            carried += lines.len();
            let shares_above = std::mem::replace(&mut shares, Shares::at(working.floors, working.influence));
            // Where the shares are those of the floor above, the lines above keep their part of the figure.
            if shares == shares_above {
                working.figure += figure(lines, shares);
            } else {
                working.figure = figure(&self.lines[..carried], shares);
            }
            (lines[0].floor.into(), working)
        })
    }
}

// The figure of lines that have these shares.
fn figure(lines: &[Line], shares: Shares) -> u64 {
    lines.iter().map(|line| u64::from(shares.reduced(line.class, line.load.into())) * u64::from(line.area)).sum()
}

// The tributary area that a line adds to X: 0 unless it is a formula line.
fn formula_area(class: Class, load: u32, area: u64) -> u64 {
    if is_formula(class, load) {
        area
    } else {
        0
    }
}

// The factor K of the member with this code.
pub fn factor(code: u64) -> Result<u64, Refusal> {
    match code {
        1..=12 => Ok(FACTORS[code as usize - 1]),
        _ => Err(Refusal::UnknownCode),
    }
}

// What holds at a floor of a member with all of these lines, or the first refusal and its place.
pub fn figure_of(code: u64, entries: &[Entry], floor: u64) -> Result<Working, RefusedAt> {
    let at_no_line = |refusal| RefusedAt { refusal, place: 0 };
    let factor = factor(code).map_err(at_no_line)?;
    let mut carried = 0;
    let (mut floors, mut area, mut last) = (0, 0, 0);
    for (held, entry) in entries.iter().enumerate() {
        let refused = |refusal| RefusedAt { refusal, place: held as u64 + 1 };
        let class = entry.check(held, last.max(1)).map_err(refused)?;
        if entry.floor <= floor {
            carried += 1;
            floors += u64::from(entry.floor != last);
            area += formula_area(class, entry.load as u32, entry.area);
        }
        last = entry.floor;
    }
    let carried = &entries[..carried];
    if carried.last().map(|entry| entry.floor) != Some(floor) {
        return Err(at_no_line(Refusal::NoLineAtFloor));
    }
    let influence = factor * area;
    let shares = Shares::at(floors, influence);
    let part = |entry: &Entry| {
        let class = Class::from_number(entry.class).expect("a line that was checked");
        u64::from(shares.reduced(class, entry.load as u32)) * entry.area
    };
    Ok(Working { floors, influence, figure: carried.iter().map(part).sum() })
}
