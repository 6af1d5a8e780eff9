// What the benchmark times, and its inputs: lines, effects, and the texts of sheets.
use crate::plain::column::Entry;
use crate::plain::sheet::written;
use crate::random::Random;

// The paper's sample sheet.
const SAMPLE: &[u8] = include_bytes!("../examples/sample.txt");

// The effects of a common sheet: dead, roof, snow, rain, wind and quake.
const COMMON: [i64; 6] = [3_250_000, 48_000, 36_000, 12_000, -410_000, 730_000];

// A load, a class, a count of floors and an influence area.
pub type Reducible = [u64; 4];

// What is timed: a job and its input. Columns are those of an interior column, and are asked at their last floor, as
// lists are; what is written is the sheet of a text.
pub enum Work {
    Reducing(Vec<Reducible>),
    Entering(Vec<Entry>),
    Pasting(Vec<Entry>),
    Listing(Vec<Entry>),
    Asking(Vec<Entry>),
    TakingDown(Vec<u8>),
    Writing(Vec<u8>),
    Combining(Vec<[f64; 7]>),
}

// Jobs of every kind, by what they are called.
pub fn jobs() -> Vec<(String, Work)> {
    let mut random = Random(1);
    let jobs = [
        ("reduced load, root share", Work::Reducing(root_shares(&mut random, 4_096))),
        ("reduced load, all shares of formula lines", Work::Reducing(all_shares(&mut random, 4_096))),
        ("open and enter 256 lines", Work::Entering(formula_lines(64, 150))),
        ("open and paste 40 lines", Work::Pasting(formula_lines(10, 150))),
        ("open and paste 256 lines", Work::Pasting(formula_lines(64, 150))),
        ("list call, 256 lines, at the last floor", Work::Listing(formula_lines(64, 150))),
        ("ask, 256 lines, root share", Work::Asking(formula_lines(64, 150))),
        ("ask, 256 lines, least share", Work::Asking(formula_lines(64, 200_000))),
        ("ask, 256 lines, mixed classes", Work::Asking(mixed_lines())),
        ("take-down, the paper's sample (2 lines)", Work::TakingDown(SAMPLE.to_vec())),
        ("take-down, office (60 lines, 20 floors)", Work::TakingDown(office())),
        ("take-down, largest (256 lines, 64 floors)", Work::TakingDown(largest())),
        ("write, the paper's sample (2 lines)", Work::Writing(SAMPLE.to_vec())),
        ("write, largest (256 lines, 64 floors)", Work::Writing(largest())),
        ("combine seven effects", Work::Combining(effects(&mut random, 256))),
    ];
    jobs.map(|(what, work)| (what.into(), work)).into()
}

// The floors of ever larger take-downs, which have four lines a floor.
pub const GROWTH: [u64; 7] = [1, 2, 4, 8, 16, 32, 64];

// The larger take-downs, by what they are called.
pub fn growing_jobs() -> Vec<(String, Work)> {
    let job = |floors| {
        let text = written(1, &formula_lines(floors, 150), &COMMON);
        (format!("{floors:5} floors, {:3} lines", 4 * floors), Work::TakingDown(text))
    };
    GROWTH.map(job).into()
}

// Formula lines with the root share.
fn root_shares(random: &mut Random, count: usize) -> Vec<Reducible> {
    let mut each = || {
        let floors = random.between(1, 10);
        let least_share_from = if floors == 1 { 33_416 } else { 92_822 };
        [random.between(1, 5_000), 1, floors, random.between(3_713, least_share_from - 1)]
    };
    (0..count).map(|_| each()).collect()
}

// Formula lines, a third each with the share capped at 1, with the root share and with the least share.
fn all_shares(random: &mut Random, count: usize) -> Vec<Reducible> {
    let mut lines = root_shares(random, count);
    for line in &mut lines {
        match random.below(3) {
            0 => line[3] = random.between(1, 3_712),
            1 => line[3] = random.between(92_822, 1_000_000),
            _ => {}
        }
    }
    lines
}

// Four formula lines a floor, with areas of 1 to `most_area` dm²: up to 150 the share stays the root's on 64 floors.
fn formula_lines(floors: u64, most_area: u64) -> Vec<Entry> {
    let mut random = Random(2);
    let line = |i: u64| {
        let (load, area) = (random.between(1, 5_000), random.between(1, most_area));
        Entry { floor: 1 + i / 4, class: 1, load, area }
    };
    (0..4 * floors).map(line).collect()
}

// Four lines a floor on 64 floors, of all classes and mixed loads; the formula lines have the root share.
fn mixed_lines() -> Vec<Entry> {
    let mut random = Random(3);
    let line = |i: u64| {
        let (class, load, area) = (random.between(1, 3), random.between(1, 7_500), random.between(1, 500));
        Entry { floor: 1 + i / 4, class, load, area }
    };
    (0..256).map(line).collect()
}

// The sheet of an office of 20 floors: offices, corridors and storage; at the bottom a garage on three floors.
fn office() -> Vec<u8> {
    let mut random = Random(4);
    let mut lines = Vec::new();
    for floor in 1..=20 {
        let uses = match floor {
            1..=17 => [(1, 2_500), (3, random.between(40, 50) * 100), (1, 6_000)],
            _ => [(2, 2_500), (2, 2_500), (1, 6_000)],
        };
        for (class, load) in uses {
            lines.push(Entry { floor, class, load, area: random.between(1_000, 4_000) });
        }
    }
    written(1, &lines, &COMMON)
}

// The largest sheet: four lines a floor on 64 floors, and numbers as long as they may be.
fn largest() -> Vec<u8> {
    let mut random = Random(5);
    let mut lines = Vec::new();
    for floor in 1..=64 {
        for (class, low, high) in [(1, 1_000, 5_000), (1, 10_000, 50_000), (2, 10_000, 50_000), (3, 10_000, 50_000)] {
            let (load, area) = (random.between(low, high), random.between(100_000, 200_000));
            lines.push(Entry { floor, class, load, area });
        }
    }
    let most = 1_000_000_000_000;
    written(1, &lines, &[most, -most, most - 1, 1 - most, -most, most])
}

// Seven effects of up to 12 digits and either sign.
fn effects(random: &mut Random, count: usize) -> Vec<[f64; 7]> {
    let mut newtons = || random.between(0, 1_999_999_999_998) as f64 - 999_999_999_999.0;
    (0..count).map(|_| std::array::from_fn(|_| newtons())).collect()
}
