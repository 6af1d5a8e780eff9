// Tries pasting by the raw and the safe calls: the second reckoning's pastes from a file, single entries and pastes in
// random mixtures beside the plain Rust and beside entering line by line, numbers left over, and no lines at all.
mod beside;
#[path = "../bindings/bungero.rs"]
mod bungero;
#[allow(dead_code)]
#[path = "../plain/mod.rs"]
mod plain;
#[path = "../bench/random.rs"]
mod random;
#[allow(dead_code)]
mod raw_column;
mod stored_pastes;

use bungero::raw::bungero_paste;
use bungero::{Column, Line, Refused, RefusedPaste, Working};
use plain::column::Entry;
use random::Random;
use raw_column::RawColumn;
use stored_pastes::{try_stored, Answer};

// The list as the library takes it.
fn records(entries: &[Entry]) -> Vec<Line> {
    entries.iter().map(|&entry| entry.into()).collect()
}

// One column by the raw calls, by the safe ones, by the safe ones line by line, and in plain Rust.
struct Trial {
    raw: RawColumn,
    safe: Column,
    entered: Column,
    plain: plain::column::Column,
}

impl Trial {
    fn open(code: u64) -> Trial {
        let open = || Column::open(code).unwrap();
        let plain = plain::column::Column::open(code).unwrap();
        Trial { raw: RawColumn::open(code), safe: open(), entered: open(), plain }
    }

    // Enters lines one by one, up to and with the first refused one: its number, and how many are kept.
    fn one_by_one(&mut self, lines: &[Line]) -> (u64, usize) {
        for (kept, &line) in lines.iter().enumerate() {
            if let Err(Refused { number }) = self.entered.enter(line) {
                return (number, kept);
            }
        }
        (0, lines.len())
    }

    // Pastes lines by every way; the same number and lines kept, and the same column then.
    fn paste(&mut self, entries: &[Entry]) -> (u64, usize) {
        let lines = records(entries);
        let (number, kept) = self.raw.paste(entries);
        let safe = self.safe.paste(&lines).map_err(|RefusedPaste { number, kept }| (number, kept));
        let plain = self.plain.paste(entries).map_err(|at| (at.refusal.number(), at.place as usize - 1));
        assert_eq!(safe, plain, "pasting {entries:?}");
        assert_eq!((number, kept), safe.map_or_else(|refused| refused, |()| (0, lines.len())), "pasting {entries:?}");
        assert_eq!((number, kept), self.one_by_one(&lines), "pasting {entries:?}");
        assert!(self.safe == self.entered, "the column after pasting is not that after entering");
        (number, kept)
    }

    // Enters one line, by the single call; its number.
    fn enter(&mut self, entry: Entry) -> u64 {
        let number = self.plain.enter(&entry).map_or_else(|refusal| refusal.number(), |()| 0);
        assert_eq!(self.raw.enter(entry), number, "entering {entry:?}");
        for column in [&mut self.safe, &mut self.entered] {
            assert_eq!(column.enter(entry.into()).map_or_else(|refused| refused.number, |()| 0), number);
        }
        number
    }

    // Asks at every floor, by every way; gives what is last, at the lowest floor.
    fn ask_all(&self) -> Option<Working> {
        let mut lowest = None;
        for floor in 0..=65 {
            let asked = self.plain.ask(floor).map(Working::from).map_err(Refused::from);
            assert_eq!(self.raw.ask(floor), asked, "asking at {floor}");
            assert_eq!(self.safe.ask(floor), asked, "asking at {floor}");
            lowest = asked.ok().or(lowest);
        }
        lowest
    }
}

// The library's answer for a paste on a column that holds some lines.
fn answer(code: u64, held: &[Entry], lines: &[Entry]) -> Answer {
    let mut trial = Trial::open(code);
    assert_eq!(trial.paste(held), (0, held.len()), "lines that are held first");
    let (number, kept) = trial.paste(lines);
    let lowest = trial.ask_all().map(|working| [working.floors, working.influence, working.figure]);
    Answer { number, kept, count: trial.raw.count.into(), lowest }
}

// A line at a floor, now and then with a number outside its limits.
fn random_line(random: &mut Random, floor: u64, faults: u64) -> Entry {
    let most_area = random.pick(&[300, 3_000, 200_000]);
    let mut numbers = [floor, random.between(1, 3), random.between(1, 7_000), random.between(1, most_area)];
    if random.below(faults) == 0 {
        let value = random.pick(&[0, 1, 4, 65, 257, 50_001, 65_536 + 2_000, 200_001, (1 << 32) + 1, u64::MAX]);
        numbers[random.index(4)] = value;
    }
    numbers.into()
}

// Single entries and pastes in random mixtures, on columns that fill up. How many calls had each number.
fn try_mixtures(columns: u64) -> [u64; 7] {
    let random = &mut Random(7);
    let mut counts = [0; 7];
    for _ in 0..columns {
        let mut trial = Trial::open(random.between(1, 12));
        let (mut floor, faults) = (1, random.pick(&[4, 40, 1_000]));
        for _ in 0..random.between(1, 12) {
            let length = random.pick(&[0, 1, 1, 2, 5, 40, 100]);
            let steps = random.between(1, 3);
            let mut lines = Vec::new();
            for _ in 0..length {
                floor = (floor + random.below(steps) * random.below(2)).min(64);
                lines.push(random_line(random, floor, faults));
            }
            let number = if length == 1 { trial.enter(lines[0]) } else { trial.paste(&lines).0 };
            counts[number as usize] += 1;
        }
        trial.ask_all();
    }
    assert_eq!(counts[1], 0, "an entry has the number of an opening");
    assert!(counts[2..].iter().all(|&count| count >= 50), "a number is met too seldom: {counts:?}");
    counts
}

// One to three numbers left over are no line; a list of no lines, lent from nowhere, leaves a column as it is.
fn try_left_over() {
    let good = [[1, 1, 2_000, 1_600], [2, 1, 2_000, 1_600]].concat();
    for length in 0..=good.len() {
        let mut column = unsafe { bungero::raw::bungero_open(1) }.column;
        let pasted = unsafe { bungero_paste(&mut column.held, column.member, 0, good.as_ptr(), length) };
        let kept = length as u16 / 4;
        assert_eq!((pasted.number, pasted.kept, pasted.count), (0, kept, kept), "{length} numbers");
        assert!(column.held[kept.into()..].iter().all(|&place| place == 0), "{length} numbers");
        for nowhere in [std::ptr::null(), [].as_ptr()] {
            let before = column.held;
            let pasted = unsafe { bungero_paste(&mut column.held, column.member, kept, nowhere, 0) };
            assert_eq!((pasted.number, pasted.kept, pasted.count), (0, 0, kept), "no lines, lent from nowhere");
            assert!(column.held == before, "no lines changed the column");
        }
    }
}

fn main() {
    let path = std::env::args().nth(1).expect("the file of the second reckoning's pastes");
    try_left_over();
    let stored = try_stored(&path, answer);
    let columns = 4_000;
    let counts = try_mixtures(columns);
    println!("{stored} pastes as in the second reckoning in Python, each column then as after entering line by line");
    println!("{columns} random mixtures of single entries and pastes: by raw and safe calls, line by line and plain alike");
    println!("calls without a refusal {}, refused with 2 to 6: {:?}", counts[0], &counts[2..]);
}
