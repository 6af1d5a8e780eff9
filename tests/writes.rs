// Tries writing a sheet by the raw and the safe calls: the second reckoning's writes from a file, the stored sheets
// that are read and written back, random columns beside the plain Rust, their sheets read again, NaNs, the longest
// sheet, and no buffer at all. The raw calls' buffers lie between canaries.
mod beside;
#[path = "../bindings/bungero.rs"]
mod bungero;
mod doubles;
#[allow(dead_code)]
#[path = "../plain/mod.rs"]
mod plain;
#[path = "../bench/random.rs"]
mod random;
#[allow(dead_code)]
mod raw_column;
#[allow(dead_code)]
mod stored_sheets;
mod stored_writes;

use bungero::raw::{bungero_open, bungero_read, bungero_write, Written};
use bungero::refusal::{BEYOND_LIMIT, NOT_WHOLE, NO_ROOM};
use bungero::{read, Column, Line, RefusedWrite, LINES, SHEET_ROOM};
use doubles::{nans, random_effects};
use plain::column::Entry;
use plain::sheet::write_into;
use random::Random;
use raw_column::RawColumn;
use stored_sheets::next_stored;
use stored_writes::{try_stored, Given};

const LONGEST: usize = 10_371; // no sheet that is written has more bytes; the bindings say so
const TOO_SHORT: RefusedWrite = RefusedWrite { number: NO_ROOM, place: 0, value: 0.0 };

// One column by the raw calls, by the safe ones and in plain Rust, which has to be told the code.
struct Trial {
    code: u64,
    raw: RawColumn,
    safe: Column,
    plain: plain::column::Column,
}

impl Trial {
    fn open(code: u64) -> Trial {
        let plain = plain::column::Column::open(code).unwrap();
        Trial { code, raw: RawColumn::open(code), safe: Column::open(code).unwrap(), plain }
    }

    // Enters a line, or pastes none or several; refused ones are tried elsewhere.
    fn take(&mut self, entries: &[Entry]) {
        let lines: Vec<Line> = entries.iter().map(|&entry| entry.into()).collect();
        let accepted = match (entries, &lines[..]) {
            (&[entry], &[line]) => {
                let raw = self.raw.enter(entry) == 0;
                [raw, self.safe.enter(line).is_ok(), self.plain.enter(&entry).is_ok()]
            }
            _ => {
                let raw = self.raw.paste(entries).0 == 0;
                [raw, self.safe.paste(&lines).is_ok(), self.plain.paste(entries).is_ok()]
            }
        };
        assert!(accepted == [true; 3] || accepted == [false; 3], "{accepted:?} for {entries:?}");
    }

    // Writes into a buffer of so many bytes by every way: the same text, or the same refusal.
    fn write(&self, bits: [u64; 6], room: usize) -> Result<Vec<u8>, RefusedWrite> {
        let effects = bits.map(f64::from_bits);
        let (mut out, mut plain_out) = (vec![0xa5; room], vec![0xa5; room]);
        let raw = self.raw.write(effects.into(), room);
        let safe = self.safe.write_into(effects.into(), &mut out);
        let plain = write_into(self.code, &self.plain, &effects, &mut plain_out);
        assert_eq!(safe, plain.map_err(RefusedWrite::from), "{bits:016x?} in {room} bytes");
        assert!(out == plain_out, "{bits:016x?} in {room} bytes: the buffers differ");
        assert_eq!(raw, safe.map(|length| out[..length].to_vec()), "{bits:016x?} in {room} bytes");
        raw
    }

    // Writes with room for every sheet, and with other room: a refused effect stays the same, a text needs just its own
    // length, and is read again. Gives the number.
    fn save(&self, bits: [u64; 6], random: &mut Random) -> u64 {
        match self.write(bits, SHEET_ROOM) {
            Err(refused) => {
                assert_eq!(self.write(bits, random.index(300)), Err(refused), "an effect is refused after the room");
                refused.number
            }
            Ok(text) => {
                for room in [text.len() - 1, random.index(text.len())] {
                    assert_eq!(self.write(bits, room), Err(TOO_SHORT), "{} bytes in {room}", text.len());
                }
                assert!(self.write(bits, text.len()).as_ref() == Ok(&text), "a buffer just as long as the text");
                self.read_again(&text, bits.map(|each| f64::from_bits(each) as i64));
                0
            }
        }
    }

    // A text that was written says this column, with every place of it, and these effects.
    fn read_again(&self, text: &[u8], newtons: [i64; 6]) {
        let reading = unsafe { bungero_read(text.as_ptr(), text.len()) };
        assert_eq!((reading.number, reading.effects.into()), (0, newtons), "{}", String::from_utf8_lossy(text));
        assert!(self.raw.is(&reading.column), "another column is read: {}", String::from_utf8_lossy(text));
        let sheet = read(text).unwrap();
        assert!(sheet.column == self.safe && sheet.effects == reading.effects, "the safe calls read another sheet");
    }
}

// The library's answer for a write of the second reckoning, into the buffer that is lent.
fn answer(code: u64, lines: &[Entry], effects: &[f64; 6], out: &mut [u8]) -> Given {
    let mut trial = Trial::open(code);
    trial.take(lines);
    assert_eq!(trial.safe.count(), lines.len(), "lines that are held");
    let raw = trial.raw.write((*effects).into(), out.len());
    let safe = trial.safe.write_into((*effects).into(), out);
    assert_eq!(raw, safe.map(|length| out[..length].to_vec()), "the raw and the safe call");
    safe.map_err(|refused| (refused.number, refused.place, refused.value.to_bits()))
}

// The stored sheets that are read, each written back: how many there are.
fn try_stored_sheets() -> u64 {
    let path = "crates/trial_sheet/stdin";
    let stored = std::fs::read(path).unwrap_or_else(|error| panic!("{path}: {error}"));
    let (mut rest, mut back) = (&stored[..], 0);
    while !rest.is_empty() {
        let (text, others) = next_stored(rest);
        back += u64::from(try_back(text));
        rest = others;
    }
    assert!(back >= 1_000, "only {back} stored sheets are read");
    back
}

// A sheet that is read is written back byte for byte, by both calls, where there is room, and not with a byte less.
// Whether it is read.
fn try_back(text: &[u8]) -> bool {
    let reading = unsafe { bungero_read(text.as_ptr(), text.len()) };
    if reading.number != 0 {
        return false;
    }
    let (column, effects) = (RawColumn::of(&reading.column), reading.effects.into());
    let sheet = read(text).unwrap();
    let shown = String::from_utf8_lossy(text);
    let mut short = vec![0xa5; text.len() - 1];
    assert_eq!(column.write(effects, short.len()), Err(TOO_SHORT), "{shown}");
    assert_eq!(sheet.write_into(&mut short), Err(TOO_SHORT), "{shown}");
    assert!(short.iter().all(|&byte| byte == 0xa5), "a refusal wrote to the buffer: {shown}");
    for room in [text.len(), text.len() + 1, SHEET_ROOM] {
        let mut out = vec![0xa5; room];
        assert!(column.write(effects, room).as_deref() == Ok(text), "{shown}");
        assert_eq!(sheet.write_into(&mut out), Ok(text.len()), "{shown}");
        assert!(&out[..text.len()] == text && out[text.len()..].iter().all(|&byte| byte == 0xa5), "{shown}");
    }
    true
}

// A number from 1 to a most, of few digits as often as of many, and now and then the most itself.
fn random_number(random: &mut Random, most: u64) -> u64 {
    let below = 10u64.pow(random.below(7) as u32).min(most);
    let any = random.between(1, below);
    random.pick(&[any, any, any, any, most])
}

// A column of every length, by single lines and by pastes, with refused lines among them at times.
fn random_column(random: &mut Random) -> Trial {
    let mut trial = Trial::open(random.between(1, 12));
    let mut floor = random.pick(&[1, 1, 8, 60]);
    let faults = random.pick(&[30, 1_000, 1_000_000]);
    for _ in 0..random.below(8) {
        let length = random.pick(&[0, 1, 1, 2, 5, 40, 100, 256]);
        let mut lines = Vec::new();
        for _ in 0..length {
            let (load, area) = (random_number(random, 50_000), random_number(random, 200_000));
            let class = if random.below(faults) == 0 { 4 } else { random.between(1, 3) };
            lines.push(Entry { floor, class, load, area });
            floor = (floor + random.pick(&[0, 0, 0, 1, 1, 3])).min(64);
        }
        trial.take(&lines);
    }
    trial
}

// Random columns with random effects. How many were written and refused with 8 and 9, and how many columns were full.
fn try_random(columns: u64) -> ([u64; 3], u64) {
    let random = &mut Random(8);
    let (mut counts, mut full) = ([0; 3], 0);
    for _ in 0..columns {
        let trial = random_column(random);
        full += u64::from(trial.safe.count() == LINES);
        for of_any_kind in [false, true] {
            let number = trial.save(random_effects(random, of_any_kind), random);
            counts[number.saturating_sub(NOT_WHOLE - 1) as usize] += 1;
        }
    }
    assert!(full >= columns / 50, "only {full} full columns");
    assert!(counts[0] >= columns && counts[1..].iter().all(|&count| count >= columns / 20), "{counts:?}");
    (counts, full)
}

// A NaN at each of the six places comes back bit for bit. How many there were.
fn try_nans(count: usize) -> usize {
    let mut trial = Trial::open(3);
    trial.take(&[[1, 1, 2_000, 1_600].into(), [2, 3, 50_000, 200_000].into()]);
    let nans = nans(count);
    for &nan in &nans {
        for place in 0..6 {
            let mut bits = [1000f64.to_bits(); 6];
            bits[place] = nan;
            let refused = RefusedWrite { number: NOT_WHOLE, place: place as u64 + 1, value: f64::from_bits(nan) };
            assert_eq!(trial.write(bits, 200), Err(refused), "{bits:016x?}");
        }
    }
    nans.len()
}

// The longest sheet that there is: as many bytes as the bindings say.
fn try_longest() {
    let mut trial = Trial::open(12);
    trial.take(&[[64, 3, 50_000, 200_000].into(); LINES]);
    let bits = [(-1e12f64).to_bits(); 6];
    assert_eq!(trial.write(bits, SHEET_ROOM).map(|text| text.len()), Ok(LONGEST));
    assert_eq!(trial.save(bits, &mut Random(9)), 0);
}

// No buffer, lent from nowhere: the effects are refused first, and else the room.
fn try_nowhere() {
    let column = unsafe { bungero_open(1) }.column;
    for (dead, number, place) in [(0.0, NO_ROOM, 0), (0.5, NOT_WHOLE, 1), (2e12, BEYOND_LIMIT, 1)] {
        for nowhere in [std::ptr::null_mut(), [].as_mut_ptr()] {
            let effects = [dead, 0.0, 0.0, 0.0, 0.0, 0.0].into();
            let written = unsafe { bungero_write(&column.held, column.member, 0, effects, nowhere, 0) };
            assert_eq!(written, Written { number, place, value: dead, length: 0 }, "a buffer from nowhere");
        }
    }
}

fn main() {
    let path = std::env::args().nth(1).expect("the file of the second reckoning's writes");
    try_nowhere();
    try_longest();
    let stored = try_stored(&path, answer);
    let back = try_stored_sheets();
    let columns = 3_000;
    let ([written, not_whole, beyond], full) = try_random(columns);
    println!("{stored} writes as in the second reckoning in Python, and nothing touched but the bytes of the text");
    println!("{back} stored sheets written back byte for byte where there is room, and refused with a byte less");
    println!("{columns} random columns, {full} full: by raw and safe calls and plain Rust alike, and read again");
    println!("{written} written, {not_whole} refused with 8, {beyond} with 9; each text also refused with less room");
    println!("{} NaNs at each of six places came back bit for bit", try_nans(20_000));
}
