// Tries random columns by the safe calls, by the raw ones and by the plain Rust: entries with refused ones among them,
// asking at floors, and columns with more lines than they hold. The raw calls' places lie between canaries.
mod beside;
#[path = "../bindings/bungero.rs"]
mod bungero;
#[allow(dead_code)]
#[path = "../plain/mod.rs"]
mod plain;
#[path = "../bench/random.rs"]
mod random;
#[allow(dead_code)]
mod raw_column;

use bungero::{Column, Refused, Working, LINES};
use plain::column::Entry;
use random::Random;
use raw_column::RawColumn;

// Numbers outside the limits of a floor, a class, a load and an area; some look right when cut to fewer bits.
const OUTSIDE: [[u64; 5]; 4] = [
    [0, 65, 256 + 64, (1 << 32) + 64, u64::MAX],
    [0, 4, 256 + 1, (1 << 32) + 1, u64::MAX],
    [0, 50_001, 65_536 + 2_000, (1 << 32) + 2_000, u64::MAX],
    [0, 200_001, 1 << 32, (1 << 32) + 1_600, u64::MAX],
];

// One column by all three ways.
struct Trial {
    safe: Column,
    raw: RawColumn,
    plain: plain::column::Column,
}

impl Trial {
    fn open(code: u64) -> Trial {
        let plain = plain::column::Column::open(code).unwrap();
        Trial { safe: Column::open(code).unwrap(), raw: RawColumn::open(code), plain }
    }

    // The accepted lines, for the message where something is wrong.
    fn accepted(&self) -> Vec<Entry> {
        self.plain.entries().collect()
    }

    // Enters a line; gives its number.
    fn enter(&mut self, entry: Entry) -> u64 {
        let entered = self.plain.enter(&entry).map_err(Refused::from);
        let number = entered.map_or_else(|refused| refused.number, |()| 0);
        assert_eq!(self.raw.enter(entry), number, "entering {entry:?}, then there are {:?}", self.accepted());
        assert_eq!(self.safe.enter(entry.into()), entered, "entering {entry:?}, then there are {:?}", self.accepted());
        number
    }

    // Asks at a floor.
    fn ask(&self, floor: u64) -> Option<Working> {
        let asked = self.plain.ask(floor).map(Working::from).map_err(Refused::from);
        assert_eq!(self.raw.ask(floor), asked, "asking at {floor} after {:?}", self.accepted());
        assert_eq!(self.safe.ask(floor), asked, "asking at {floor} after {:?}", self.accepted());
        asked.ok()
    }

    // Asks at every floor and beyond; gives how many have a line. The plain Rust's walk down must give the same.
    fn ask_all(&self) -> u64 {
        let wide = [256 + 1, 256 + 64, (1 << 32) + 1, (1 << 32) + 64, u64::MAX];
        let asked = (0..=66).chain(wide).filter_map(|floor| Some((floor, self.ask(floor)?)));
        let asked: Vec<(u64, Working)> = asked.collect();
        let walked = self.plain.workings().map(|(floor, working)| (floor, working.into()));
        assert_eq!(asked, walked.collect::<Vec<_>>(), "walking down {:?}", self.accepted());
        asked.len() as u64
    }
}

// A good line at a floor, its load and area at a limit now and then.
fn good_line(random: &mut Random, floor: u64) -> Entry {
    let most_load = random.pick(&[5_000, 6_000, 50_000]);
    let most_area = random.pick(&[90, 900, 9_000, 200_000]);
    let (any_load, any_area) = (random.between(1, most_load), random.between(1, most_area));
    let load = random.pick(&[any_load, any_load, any_load, 1, 5_000, 5_001, 50_000]);
    let area = random.pick(&[any_area, any_area, any_area, any_area, any_area, 1, 200_000]);
    Entry { floor, class: random.between(1, 3), load, area }
}

// The line at a floor further up, often above the last accepted one, or with some of its numbers outside their limits.
fn damaged_line(random: &mut Random, good: Entry) -> Entry {
    if random.below(4) == 0 {
        return Entry { floor: good.floor.saturating_sub(random.between(1, 3)), ..good };
    }
    let mut numbers = [good.floor, good.class, good.load, good.area];
    for _ in 0..random.between(1, 4) {
        let field = random.index(4);
        numbers[field] = random.pick(&OUTSIDE[field]);
    }
    numbers.into()
}

// What was met: floors asked at that have a line, entries of each number, and accepted ones just after a refused one.
#[derive(Default)]
struct Tally {
    figures: u64,
    entries: [u64; 7],
    accepted_after_refused: u64,
}

// Random columns, about one entry in five damaged.
fn try_random(columns: u64) -> Tally {
    let random = &mut Random(5);
    let mut tally = Tally::default();
    for _ in 0..columns {
        let mut trial = Trial::open(random.between(1, 12));
        let (mut floor, mut last) = (random.pick(&[1, 1, 1, 2, 40]), 0);
        for _ in 0..random.below(40) {
            floor = (floor + random.pick(&[0, 0, 0, 1, 1, 2])).min(64);
            let good = good_line(random, floor);
            let line = if random.below(5) == 0 { damaged_line(random, good) } else { good };
            let number = trial.enter(line);
            tally.entries[number as usize] += 1;
            tally.accepted_after_refused += u64::from(number == 0 && last != 0);
            last = number;
        }
        tally.figures += trial.ask_all();
    }
    tally
}

// Columns with four good lines more than they hold, which are refused with 2. How many figures they gave.
fn try_full(columns: u64) -> u64 {
    let random = &mut Random(6);
    let mut figures = 0;
    for _ in 0..columns {
        let mut trial = Trial::open(random.between(1, 12));
        let lines_a_floor = random.pick(&[5, 6, 9, 20, 260]);
        for entry in 0..LINES + 4 {
            let line = good_line(random, 1 + entry as u64 / lines_a_floor);
            assert_eq!(trial.enter(line), if entry < LINES { 0 } else { 2 }, "line {} of a full column", entry + 1);
        }
        assert_eq!(usize::from(trial.raw.count), LINES);
        figures += trial.ask_all();
    }
    figures
}

fn main() {
    let (random, full) = (10_000, 200);
    let Tally { figures, entries, accepted_after_refused } = try_random(random);
    assert!(figures >= 5 * random, "only {figures} figures");
    assert!(entries[3..].iter().all(|&count| count >= random / 5), "too few entries with a number: {entries:?}");
    assert!(accepted_after_refused >= random, "only {accepted_after_refused} lines accepted after a refused one");
    println!("{random} random columns by safe calls, raw calls and plain Rust alike: {figures} figures");
    println!("{} entries accepted, {accepted_after_refused} of them just after a refused one", entries[0]);
    println!("entries refused with 3 to 6: {:?}", &entries[3..]);
    println!("{full} columns with 4 lines too many, {} figures, nothing written beside their places", try_full(full));
}
