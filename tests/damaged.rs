// Tries bungero_read and bungero_report on damaged texts of every length from 0 to 33,000 bytes: the plain Rust's
// sheet, refusal and report, the lent text and the memory around it as before, and in the buffer no byte written but
// the report's own; none where the sheet is refused.
#[path = "../bindings/bungero.rs"]
mod bungero;
#[allow(dead_code)]
#[path = "../plain/mod.rs"]
mod plain;
#[path = "../bench/random.rs"]
mod random;
mod reports;

use bungero::raw::{bungero_read, bungero_report, Reading, Reported};
use bungero::REPORT_ROOM;
use random::Random;
use reports::{Wanted, REPORT_BOUND};

const LONGEST: usize = 33_000;

// Bytes on either side of the lent text and of the buffer, which must stay as they are.
const CANARIES: usize = 64;

// Bytes that sheets are made of.
const ALPHABET: &[u8] = b"member=floor class load area dead roof snow rain wind quake 0123456789 -\n\n";

// The last lines of the sheets.
const EFFECTS: &str = "dead=1000000000000\nroof=-7\nsnow=20\nrain=0\nwind=-1000000000000\nquake=31415926\n";

// A sheet with this many lines, four a floor from the top down: a good one up to 256.
fn sheet_of(lines: usize) -> Vec<u8> {
    let mut sheet = String::from("member=3\n");
    for i in 0..lines {
        sheet += &format!("floor={} class={} load={} area={}\n", 1 + i / 4, 1 + i % 3, 1 + i * 190, 1 + i * 777);
    }
    (sheet + EFFECTS).into_bytes()
}

// `length` bytes, each one that `draw_byte` gives.
fn bytes(length: usize, draw_byte: impl FnMut() -> u8) -> Vec<u8> {
    std::iter::repeat_with(draw_byte).take(length).collect()
}

// Changes one to three bytes, most digits to digits.
fn change_bytes(bytes: &mut [u8], random: &mut Random) {
    if bytes.is_empty() {
        return;
    }
    for _ in 0..random.between(1, 3) {
        let byte = &mut bytes[random.index(bytes.len())];
        let (digit, any) = (b'0' + random.below(10) as u8, random.pick(ALPHABET));
        *byte = if byte.is_ascii_digit() && random.below(4) > 0 { digit } else { any };
    }
}

// Puts a number of 13 digits, beyond the limit or at it, in the place of an effect; the effects are the lines from a
// place on.
fn put_long_effect(text: &mut Vec<u8>, effects: usize, random: &mut Random) {
    let starts: Vec<usize> = (effects..text.len()).filter(|&at| text[at] == b'=').map(|at| at + 1).collect();
    if starts.is_empty() {
        return;
    }
    let start = random.pick(&starts);
    let length = text[start..].iter().position(|&byte| byte == b'\n').expect("the line's end");
    let any = random.between(1_000_000_000_000, 9_999_999_999_999);
    let size = random.pick(&[any, any, 1_000_000_000_000, 1_000_000_000_001]);
    let number = format!("{}{size}", random.pick(&["", "-"]));
    text.splice(start..start + length, number.into_bytes());
}

// What the damaged texts are cut from: good sheets by their number of lines, one with a line too many over and over,
// and random bytes.
struct Sources {
    sheets: Vec<Vec<u8>>,
    repeated: Vec<u8>,
    noise: Vec<u8>,
    letters: Vec<u8>,
}

impl Sources {
    fn new(random: &mut Random) -> Sources {
        let room = 3 * LONGEST;
        Sources {
            sheets: (0..=256).map(sheet_of).collect(),
            repeated: sheet_of(257).into_iter().cycle().take(room).collect(),
            noise: bytes(room, || random.bits() as u8),
            letters: bytes(room, || random.pick(ALPHABET)),
        }
    }

    // A random part of the noise, of the letters or of the repeated sheet.
    fn part(&self, length: usize, random: &mut Random) -> &[u8] {
        let source = random.pick(&[&self.noise, &self.letters, &self.repeated]);
        &source[random.index(source.len() - length + 1)..][..length]
    }

    // The longest sheet that fits, no bytes where none does.
    fn longest_within(&self, length: usize) -> &[u8] {
        let fitting = self.sheets.partition_point(|sheet| sheet.len() <= length);
        self.sheets[..fitting].last().map_or(&[], |sheet| sheet)
    }

    // The longest sheet that fits, then text left over; a good sheet where it has just this length.
    fn left_over(&self, length: usize, random: &mut Random) -> Vec<u8> {
        let sheet = self.longest_within(length);
        [sheet, self.part(length - sheet.len(), random)].concat()
    }

    // The longest sheet that fits, with one to three bytes of its effects changed or an effect of 13 digits, then text
    // left over; or cut where that is too long.
    fn effects_changed(&self, length: usize, random: &mut Random) -> Vec<u8> {
        let mut text = self.longest_within(length).to_vec();
        let effects = text.len().saturating_sub(EFFECTS.len());
        if random.below(2) == 0 {
            change_bytes(&mut text[effects..], random);
        } else {
            put_long_effect(&mut text, effects, random);
        }
        text.truncate(length);
        let left_over = self.part(length - text.len(), random);
        [&text, left_over].concat()
    }

    // A part of the longest sheet, then one byte over and over.
    fn padded(&self, length: usize, random: &mut Random) -> Vec<u8> {
        let mut text = self.sheets[256].clone();
        text.truncate(random.index(length + 1));
        text.resize(length, random.pick(b"\n 09=-\0\xff"));
        text
    }

    // The repeated sheet with one to three bytes changed near its start or in its lines.
    fn changed(&self, length: usize, random: &mut Random) -> Vec<u8> {
        let mut text = self.repeated[..length].to_vec();
        let within = random.pick(&[20, 1000, 10_000]).min(length);
        change_bytes(&mut text[..within], random);
        text
    }

    // The damaged texts of a length.
    fn texts(&self, length: usize, random: &mut Random) -> [Vec<u8>; 8] {
        let from = random.index(LONGEST);
        [
            self.repeated[..length].to_vec(),
            self.padded(length, random),
            self.changed(length, random),
            self.left_over(length, random),
            self.effects_changed(length, random),
            self.noise[from..from + length].to_vec(),
            self.letters[from..from + length].to_vec(),
            vec![b'\n'; length],
        ]
    }
}

// Both calls, with the text and the buffer each between canaries: `after` follows the text, so that one that read on
// would find the text go on. All but the report's own bytes must be as before.
fn give(text: &[u8], after: &[u8], fill: u8) -> (Reading, Reported, Vec<u8>) {
    let before = [&[fill; CANARIES], text, after].concat();
    let mut lent = before.clone();
    let mut buffer = [fill; CANARIES + REPORT_ROOM + CANARIES];
    let out = buffer[CANARIES..].as_mut_ptr().cast();
    let start = lent[CANARIES..].as_mut_ptr();
    // SAFETY: `lent` holds the text's bytes from CANARIES on, and `out` points to REPORT_ROOM bytes and more.
    let (reading, reported) = unsafe { (bungero_read(start, text.len()), bungero_report(start, text.len(), out)) };
    assert!(lent == before, "the lent text or what is beside it was written to");
    assert!(reported.length <= REPORT_BOUND, "a report of {} bytes", reported.length);
    let (canaries, rest) = buffer.split_at(CANARIES);
    let (report, past) = rest.split_at(reported.length);
    assert!(canaries.iter().chain(past).all(|&byte| byte == fill), "bytes beside the report were written");
    (reading, reported, report.to_vec())
}

// Tries one text, whose case is said where something is wrong; gives its number.
fn try_text(text: &[u8], after: &[u8], fill: u8, case: &str) -> u64 {
    let (reading, reported, report) = give(text, after, fill);
    let wanted = Wanted::of(text);
    assert_eq!(reported, wanted.reported, "{case}");
    assert_eq!(String::from_utf8_lossy(&report), String::from_utf8_lossy(&wanted.report), "{case}");
    assert_eq!(reading, wanted.reading, "{case}");
    reading.number
}

fn main() {
    let random = &mut Random(3);
    let sources = Sources::new(random);
    let mut counts = [0u64; 12];
    for length in 0..=LONGEST {
        let after = &sources.repeated[length..length + CANARIES];
        for (kind, text) in sources.texts(length, random).iter().enumerate() {
            assert_eq!(text.len(), length);
            let number = try_text(text, after, random.pick(&[0xa5, b'0']), &format!("length {length}, kind {kind}"));
            counts[number as usize] += 1;
        }
    }
    assert!(counts[0] >= 257, "only {} sheets were read", counts[0]);
    assert!([1, 2, 3, 4, 5, 6, 9, 10, 11].iter().all(|&each| counts[each] >= 20), "too few with a number: {counts:?}");
    let texts: u64 = counts.iter().sum();
    println!("{texts} damaged texts of 0 to {LONGEST} bytes as by the plain Rust, all memory beside as before");
    println!("of these {} are read all the same, and refused with 1 to 11: {:?}", counts[0], &counts[1..]);
}
