// Tries the exported list call from Rust: figures of the paper, counts of lines, a refusal at every place, random lists
// beside the column's own calls and the plain Rust, and the second reckoning's lists from a file.
mod beside;
#[path = "../bindings/bungero.rs"]
mod bungero;
#[allow(dead_code)]
#[path = "../plain/mod.rs"]
mod plain;
#[path = "../bench/random.rs"]
mod random;
mod stored_lists;

use bungero::raw::bungero_figure_of;
use bungero::{figure_of, Column, Line, Refused, Working};
use plain::column::Entry;
use random::Random;
use stored_lists::{plain_answer, try_stored, Answer};

// The list as the library takes it.
fn records(entries: &[Entry]) -> Vec<Line> {
    entries.iter().map(|&entry| entry.into()).collect()
}

// Numbers that answer the call, the unused ones being 0.
fn answer(number: u64, place: u64, working: [u64; 3]) -> Answer {
    if number == 0 {
        assert_eq!(place, 0, "a place without a refusal");
        return Ok(working);
    }
    assert_eq!(working, [0; 3], "a refusal with a figure");
    Err([number, place])
}

// The call, on a list lent from the middle of a larger one, all of which stays as it was.
fn listed(code: u64, entries: &[Entry], floor: u64) -> Answer {
    let beside = Line { floor: 1, use_class: 1, load: 4999, area: 199_999 };
    let lent = [&[beside; 2], &records(entries)[..], &[beside; 2]].concat();
    let before = lent.clone();
    let given = unsafe { bungero_figure_of(code, lent[2..].as_ptr(), entries.len(), floor) };
    assert!(lent == before, "a lent list was written to");
    answer(given.number, given.place, [given.floors, given.influence, given.figure])
}

fn gives(working: Working) -> [u64; 3] {
    [working.floors, working.influence, working.figure]
}

// The same by the safe call.
fn listed_safely(code: u64, entries: &[Entry], floor: u64) -> Answer {
    figure_of(code, &records(entries), floor).map(gives).map_err(|refused| [refused.number, refused.place])
}

// The same by the column's own calls: open, enter until a line is refused, ask.
fn entered(code: u64, entries: &[Entry], floor: u64) -> Answer {
    let at = |place| move |Refused { number }| [number, place];
    let mut column = Column::open(code).map_err(at(0))?;
    for (place, &entry) in (1..).zip(entries) {
        column.enter(entry.into()).map_err(at(place))?;
    }
    column.ask(floor).map(gives).map_err(at(0))
}

// The columns of which the paper prints figures, and its sample sheet.
fn try_printed() {
    let heavy_above = [[1, 1, 6000, 10_000], [2, 1, 2000, 100]].map(Entry::from);
    assert_eq!(listed(1, &heavy_above, 1), Ok([1, 0, 60_000_000]));
    assert_eq!(listed(1, &heavy_above, 2), Ok([2, 400, 48_200_000]));
    let sample = [[1, 1, 2000, 1600], [2, 1, 2000, 1600]].map(Entry::from);
    assert_eq!(listed(1, &sample, 1), Ok([1, 6400, 2_628_800]));
    assert_eq!(listed(1, &sample, 2), Ok([2, 12_800, 4_185_600]));
}

// Good lines, four a floor.
fn good_lines(count: u64) -> Vec<Entry> {
    (0..count).map(|i| [1 + i / 4 % 64, 1 + i % 3, 1 + i * 190, 1 + i * 777].into()).collect()
}

// No line, 256 and one more, with good codes and bad ones.
fn try_counts() {
    for code in 0..=14 {
        let refused = |number, place| match code {
            1..=12 => Err([number, place]),
            _ => Err([1, 0]),
        };
        assert_eq!(listed(code, &[], 1), refused(7, 0));
        let lines = good_lines(256);
        assert_eq!(listed(code, &lines, 64), entered(code, &lines, 64));
        assert_eq!(listed(code, &lines, 65), refused(7, 0));
        let one_more = [&lines[..], &[[64, 1, 1, 1].into()]].concat();
        assert_eq!(listed(code, &one_more, 64), refused(2, 257));
        assert_eq!(listed(code, &one_more, 65), refused(2, 257));
    }
    for nowhere in [std::ptr::null(), [].as_ptr()] {
        let given = unsafe { bungero_figure_of(1, nowhere, 0, 1) };
        assert_eq!((given.number, given.place), (7, 0), "no lines, lent from nowhere");
    }
}

// The line with one of its numbers out of range, 0 for the floor to 3 for the area: three less than the refusal's
// number.
fn damaged(good: &Entry, which: u64) -> Entry {
    let mut bad = *good;
    match which {
        0 => bad.floor = 0,
        1 => bad.class = 4,
        2 => bad.load = 50_001,
        _ => bad.area = (1 << 32) + 1,
    }
    bad
}

// A refusal at every place of every list of some lengths, with each number, alone and before a later refusal with
// another number, whether a line has the floor or not.
fn try_places() -> u64 {
    let mut tried = 0;
    for count in [1, 2, 3, 64, 255, 256, 257] {
        let good = good_lines(count);
        for place in 0..good.len().min(256) {
            for which in 0..4 {
                let mut lines = good.clone();
                lines[place] = damaged(&good[place], which);
                let refused = Err([which + 3, place as u64 + 1]);
                assert_eq!(listed(1, &lines, 1), refused);
                let last = good.len() - 1;
                if place < last {
                    lines[last] = damaged(&good[last], (which + 1) % 4);
                }
                assert_eq!(listed(1, &lines, 99), refused);
                tried += 2;
            }
        }
    }
    tried
}

// A random list: floors from the top down, and about one line in `faults` damaged, none where that is 0.
fn random_list(random: &mut Random, faults: u64) -> Vec<Entry> {
    let (few, some, many) = (random.below(8), random.below(40), random.between(250, 261));
    let count = random.pick(&[few, few, few, some, some, some, some, many]);
    let steps = random.between(1, 4);
    let mut floor = 1;
    let mut lines = Vec::new();
    for _ in 0..count {
        floor = (floor + random.below(steps)).min(64);
        let most_area = random.pick(&[300, 3000, 200_000]);
        let mut numbers = [floor, random.between(1, 3), random.between(1, 7000), random.between(1, most_area)];
        if faults != 0 && random.below(faults) == 0 {
            let value = random.pick(&[0, 1, 4, 65, 257, 50_001, 65_536 + 2000, 200_001, (1 << 32) + 1, u64::MAX]);
            numbers[random.index(4)] = value;
        }
        lines.push(numbers.into());
    }
    lines
}

// Random lists, at floors that a line has and at others: one answer by every way. How many gave a figure, and each
// number.
fn try_random(lists: u64) -> [u64; 8] {
    let random = &mut Random(1);
    let mut counts = [0; 8];
    for case in 0..lists {
        let code = if case % 20 == 0 { random.below(20) } else { random.between(1, 12) };
        let lines = random_list(random, [0, 0, 100, 10][case as usize % 4]);
        let floors = [random.below(66), lines.first().map_or(1, |l| l.floor), lines.last().map_or(64, |l| l.floor)];
        for floor in floors {
            let ours = listed(code, &lines, floor);
            assert_eq!(ours, plain_answer(code, &lines, floor), "code {code}, floor {floor}, {lines:?}");
            assert_eq!(ours, listed_safely(code, &lines, floor), "code {code}, floor {floor}, {lines:?}");
            assert_eq!(ours, entered(code, &lines, floor), "code {code}, floor {floor}, {lines:?}");
            counts[ours.map_or_else(|[number, _]| number as usize, |_| 0)] += 1;
        }
    }
    assert!(counts.iter().all(|&count| count >= 50), "a kind of answer is missing: {counts:?}");
    counts
}

fn main() {
    let path = std::env::args().nth(1).expect("the file of the second reckoning's lists");
    try_printed();
    try_counts();
    let places = try_places();
    let counts = try_random(20_000);
    let stored = try_stored(&path, listed);
    println!("{places} refusals of a list at their places");
    let questions: u64 = counts.iter().sum();
    println!("{questions} questions about random lists: list call, column's own calls and plain Rust agree");
    println!("of these {} with a figure, and with the numbers 1 to 7: {:?}", counts[0], &counts[1..]);
    println!("{stored} lists as in the second reckoning in Python");
}
