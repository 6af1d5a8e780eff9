// Random texts for the trial of sheets: good ones with many numbers at and beside the limits, mutations of them, and
// noise.
use crate::plain::column::{factor, Entry};
use crate::plain::sheet::written;
use crate::random::Random;
use std::ops::Range;

// What a sheet is to say, good or not: its member's code, its lines, and its effects from dead to quake.
pub struct Draft {
    code: u64,
    entries: Vec<Entry>,
    effects: [i64; 6],
}

impl Draft {
    // The text of the sheet.
    pub fn text(&self) -> Vec<u8> {
        written(self.code, &self.entries, &self.effects)
    }
}

// ---- Good sheets ------------------------------------------------------------

const LIMIT: u64 = 1_000_000_000_000; // of an effect, in newtons
const GREATEST: u64 = 9_999_999_999_999; // of 13 digits
const LOADS: [u64; 9] = [1, 2, 2_000, 2_001, 4_999, 5_000, 5_001, 49_999, 50_000];
const AREAS: [u64; 4] = [1, 2, 199_999, 200_000];

// A number from 1 to a most, or one of those at and beside the limits.
fn random_number(random: &mut Random, most: u64, at_limits: &[u64]) -> u64 {
    if random.below(4) == 0 {
        random.pick(at_limits)
    } else {
        random.between(1, most)
    }
}

// Lines from the top down: floors that are repeated, follow each other or skip, and a habit of class, load and area.
fn random_lines(random: &mut Random, count: u64) -> Vec<Entry> {
    let classes = random.pick(&[[1, 1, 1, 1], [1, 1, 1, 2], [1, 1, 2, 3], [1, 2, 3, 3], [2, 2, 2, 2], [3, 3, 3, 3]]);
    let most_load = random.pick(&[900, 5_000, 6_000, 50_000]);
    let most_area = random.pick(&[90, 900, 9_000, 200_000]);
    let steps = random.pick(&[[0, 0, 0], [0, 0, 1], [0, 1, 1], [1, 1, 1], [1, 2, 9]]);
    let any_floor = random.between(1, 64);
    let mut floor = random.pick(&[1, 1, 1, 2, any_floor]);
    let mut lines = Vec::new();
    for _ in 0..count {
        let class = random.pick(&classes);
        let load = random_number(random, most_load, &LOADS);
        lines.push(Entry { floor, class, load, area: random_number(random, most_area, &AREAS) });
        floor = (floor + random.pick(&steps)).min(64);
    }
    lines
}

// Formula lines whose X is at the cap, at a least share, or a square, on one floor or two; some with another line
// below.
fn edge_lines(random: &mut Random, factor: u64) -> Vec<Entry> {
    let root = random.between(60, 306);
    let (least, most) = random.pick(&[(3_699, 3_720), (33_413, 33_418), (92_819, 92_824), (root * root, root * root)]);
    let area = random.between(least, most) / factor;
    let first = random.between(1, area - 1);
    let with_whole_root = root * random.between(1, 5_000 / root);
    let load = random.pick(&[with_whole_root, with_whole_root, 2_000, 2_001, 4_999, 5_000, 1]);
    let floor = random.between(1, 63);
    let line = |floor, area| Entry { floor, class: 1, load, area };
    let below = Entry { floor: floor + 1, class: random.between(2, 3), load, area: random.between(1, 900) };
    match random.below(4) {
        0 => vec![line(floor, area)],
        1 => vec![line(floor, first), line(floor, area - first)],
        2 => vec![line(floor, first), line(floor + 1, area - first)],
        _ => vec![line(floor, area), below],
    }
}

// An effect of a habit, of either sign: 0, small, common, at the limit, or of any count of digits to 12.
fn random_effect(random: &mut Random, habit: u64) -> i64 {
    let size = match habit {
        0 => 0,
        1 => random.below(3),
        2 => random.below(10_000_000),
        3 => LIMIT - random.pick(&[0, 0, 1, 2, 999]),
        _ => {
            let digits = random.between(1, 12);
            random.below(10u64.pow(digits as u32))
        }
    };
    size as i64 * random.pick(&[1, -1])
}

// Six effects of one habit, or each of its own.
fn random_effects(random: &mut Random) -> [i64; 6] {
    let common = random.below(6);
    std::array::from_fn(|_| {
        let habit = if common == 5 { random.below(5) } else { common };
        random_effect(random, habit)
    })
}

// A good sheet with few lines.
fn short_sheet(random: &mut Random) -> Draft {
    let code = random.between(1, 12);
    let factor = factor(code).expect("a good code");
    let most = random.pick(&[0, 1, 2, 3, 3, 4, 6, 12]);
    let count = random.between(0, most);
    let entries = if random.below(4) == 0 { edge_lines(random, factor) } else { random_lines(random, count) };
    Draft { code, entries, effects: random_effects(random) }
}

// A sheet of so many lines, most of them spread over all floors.
fn long_sheet(random: &mut Random, count: u64) -> Draft {
    let mut entries = random_lines(random, count);
    if random.below(4) > 0 {
        for (floor, entry) in (0..).map(|at| 1 + at * 64 / count).zip(&mut entries) {
            entry.floor = floor;
        }
    }
    Draft { code: random.between(1, 12), entries, effects: random_effects(random) }
}

// The sheet with the longest report: 256 lines on 64 floors, with as many digits of X and of the figure as go together.
pub fn longest_report() -> Draft {
    let light = Entry { floor: 1, class: 1, load: 5_000, area: 200_000 };
    let heavy = |floor| Entry { floor, class: 3, load: 50_000, area: 200_000 };
    let mut entries = vec![light; 125];
    entries.extend([heavy(1); 68]);
    entries.extend((2..=64).map(heavy));
    let limit = LIMIT as i64;
    Draft { code: 1, entries, effects: [0, 0, -limit, limit, limit, 0] }
}

// ---- Mutations --------------------------------------------------------------

// One of a line's four numbers, the code or an effect goes beyond its limits.
fn exceed_limit(random: &mut Random, sheet: &mut Draft) {
    let field = if sheet.entries.is_empty() { random.between(4, 5) } else { random.below(6) };
    let at = random.index(sheet.entries.len().max(1));
    match (field, sheet.entries.get_mut(at)) {
        (0, Some(line)) => line.floor = random.pick(&[0, line.floor.saturating_sub(1), 65, 256 + line.floor, GREATEST]),
        (1, Some(line)) => line.class = random.pick(&[0, 4, 5, 256 + line.class, GREATEST]),
        (2, Some(line)) => line.load = random.pick(&[0, 50_001, 65_536, 65_536 + line.load, GREATEST]),
        (3, Some(line)) => line.area = random.pick(&[0, 200_001, 1 << 32, (1 << 32) + line.area, GREATEST]),
        (4, _) => sheet.code = random.pick(&[0, 13, 256, 257, 65_537, (1 << 32) + 1, GREATEST]),
        _ => {
            let beyond = random.pick(&[LIMIT + 1, LIMIT + 2, 2 * LIMIT, 10 * LIMIT - 1, (1 << 40) + 1]) as i64;
            sheet.effects[random.index(6)] = beyond * random.pick(&[1, -1]);
        }
    }
}

const KEYS: [&str; 11] = ["member", "floor", "class", "load", "area", "dead", "roof", "snow", "rain", "wind", "quake"];
const ALPHABET: &[u8] = b"0123456789 \n=-abcdefiklmnoqrsuw"; // all bytes of good sheets
const GOOD_LINE: &str = "floor=64 class=1 load=1 area=1\n";
const LEFT_OVER: [&str; 9] = ["\n", " ", "0", "\0", "\r\n", "x\n", "quake=0\n", "dead=0\n", GOOD_LINE];

// Numbers that are at a limit of some field or beyond it, that look right when cut to fewer bits, or that are in no
// form.
const NUMBERS: [&str; 40] = [
    "0", "1", "2", "3", "4", "12", "13", "63", "64", "65", "256", "257", "5000", "5001", "50000", "50001", "65537",
    "200000", "200001", "4294967297", "1000000000000", "1000000000001", "9999999999999", "10000000000000",
    "18446744073709551617", "-1", "-64", "-1000000000000", "-1000000000001", "-9999999999999", "-10000000000000", "",
    "-", "-0", "00", "01", "+1", "1.", "1e3", "0x1",
];

// A byte of a sheet, or any other.
fn random_byte(random: &mut Random) -> u8 {
    if random.below(3) == 0 {
        random.bits() as u8
    } else {
        random.pick(ALPHABET)
    }
}

// A byte is changed, put in, left out or doubled, exchanged with the next, or made another digit.
fn mutate_byte(random: &mut Random, text: &mut Vec<u8>) {
    let byte = random_byte(random);
    if text.is_empty() {
        return text.push(byte);
    }
    let last = text.len() - 1;
    let at = random.index(text.len());
    match random.below(6) {
        0 => text[at] = byte,
        1 => text.insert(at, byte),
        2 => drop(text.remove(at)),
        3 => text.insert(at, text[at]),
        4 => text.swap(at, last.min(at + 1)),
        _ => {
            if let Some(digit) = text[at..].iter_mut().find(|byte| byte.is_ascii_digit()) {
                *digit = b'0' + random.below(10) as u8;
            }
        }
    }
}

// A line is left out, doubled, exchanged with another, or moved to the end, or a good or an empty one is put in, or one
// has a carriage return before its newline.
fn mutate_line(random: &mut Random, text: &mut Vec<u8>) {
    let mut lines: Vec<Vec<u8>> = text.split_inclusive(|&byte| byte == b'\n').map(<[u8]>::to_vec).collect();
    if lines.is_empty() {
        return text.push(b'\n');
    }
    let (at, other) = (random.index(lines.len()), random.index(lines.len()));
    match random.below(7) {
        0 => drop(lines.remove(at)),
        1 => lines.insert(at, lines[at].clone()),
        2 => lines.swap(at, other),
        3 => {
            let moved = lines.remove(at);
            lines.push(moved);
        }
        4 => lines.insert(at, GOOD_LINE.into()),
        5 => lines.insert(at, b"\n".to_vec()),
        _ => {
            let before_newline = lines[at].len() - 1;
            lines[at].insert(before_newline, b'\r');
        }
    }
    *text = lines.concat();
}

// The places of the numbers: what stands between an equals sign and the next blank or newline.
fn numbers(text: &[u8]) -> Vec<Range<usize>> {
    let starts = (0..text.len()).filter(|&at| text[at] == b'=').map(|at| at + 1);
    let length = |start: usize| text[start..].iter().take_while(|byte| !b" \n".contains(byte)).count();
    starts.map(|start| start..start + length(start)).collect()
}

// A number has a sign, a zero or a blank put in, is lengthened to 12 to 20 digits, or is replaced.
fn mutate_number(random: &mut Random, text: &mut Vec<u8>) {
    let places = numbers(text);
    if places.is_empty() {
        return;
    }
    let place = places[random.index(places.len())].clone();
    let old = text[place.clone()].to_vec();
    let new = match random.below(12) {
        0 => [b"-", &old[..]].concat(),
        1 => [b"0", &old[..]].concat(),
        2 => [b" ", &old[..]].concat(),
        3 => [&old[..], b" "].concat(),
        4 => [&old[..], &b"0123456789012345678"[..random.between(12, 19) as usize]].concat(),
        5 => old.repeat(20)[..old.len().max(random.between(12, 14) as usize).min(20 * old.len())].to_vec(),
        6 | 7 => random.between(1, 64).to_string().into_bytes(),
        _ => random.pick(&NUMBERS).as_bytes().to_vec(),
    };
    text.splice(place, new);
}

// A key is replaced by another, by itself in capitals, or by itself with a letter more.
fn mutate_key(random: &mut Random, text: &mut Vec<u8>) {
    let (old, other) = (random.pick(&KEYS), random.pick(&KEYS).to_string());
    let new = match random.below(6) {
        0 => old.to_uppercase(),
        1 => format!("{old}s"),
        2 => format!(" {old}"),
        _ => other,
    };
    let places: Vec<usize> = (0..text.len()).filter(|&at| text[at..].starts_with(old.as_bytes())).collect();
    if !places.is_empty() {
        let at = random.pick(&places);
        text.splice(at..at + old.len(), new.into_bytes());
    }
}

// The text is cut at any place, after a line or before its last newline, or something is left over at its end.
fn mutate_end(random: &mut Random, text: &mut Vec<u8>) {
    let at = random.index(text.len() + 1);
    let line_end = text[..at].iter().rposition(|&byte| byte == b'\n').map_or(0, |newline| newline + 1);
    match random.below(6) {
        0 | 1 => text.truncate(at),
        2 => text.truncate(line_end),
        3 => drop(text.pop()),
        4 => text.extend_from_within(at..),
        _ => text.extend_from_slice(random.pick(&LEFT_OVER).as_bytes()),
    }
}

// One mutation, most often of a number.
fn mutate(random: &mut Random, text: &mut Vec<u8>) {
    match random.below(10) {
        0 | 1 => mutate_byte(random, text),
        2 => mutate_line(random, text),
        3 => mutate_key(random, text),
        4 => mutate_end(random, text),
        _ => mutate_number(random, text),
    }
}

// ---- Texts ------------------------------------------------------------------

const LONGEST_TEXT: usize = 70_000;

// A text of about 32,768 bytes or beyond: a good sheet with a filling after some line, or after its end.
fn text_near_limit(random: &mut Random) -> Vec<u8> {
    let (near, beyond) = (random.between(32_700, 32_800), random.between(32_769, 66_000));
    let length = random.pick(&[32_766, 32_767, 32_768, 32_768, 32_768, 32_769, 32_769, 32_770, near, beyond]) as usize;
    let sheet = short_sheet(random).text();
    let filling = random.pick(&["\0", "\n", " ", "0", "left over ", "member=1\n", GOOD_LINE, GOOD_LINE]).as_bytes();
    let ends: Vec<usize> = (1..=sheet.len()).filter(|&at| sheet[at - 1] == b'\n').collect();
    let any_end = random.pick(&ends);
    let at = random.pick(&[ends[0], any_end, sheet.len(), sheet.len() - 1]);
    let between = length - sheet.len();
    let filled = filling.repeat(between / filling.len() + 1);
    [&sheet[..at], &filled[..between], &sheet[at..]].concat()
}

// Any bytes, bytes of a sheet, or its words and numbers, in any order.
fn noise(random: &mut Random) -> Vec<u8> {
    let most = random.pick(&[2, 20, 60, 400]);
    let count = random.below(most);
    let kind = random.below(3);
    let mut text = Vec::new();
    for _ in 0..count {
        match (kind, random.below(4)) {
            (0, _) => text.push(random.bits() as u8),
            (1, _) => text.push(random.pick(ALPHABET)),
            (_, 0) => text.extend_from_slice(random.pick(&NUMBERS).as_bytes()),
            (_, 1) => text.push(random.pick(b" \n\n")),
            _ => text.extend_from_slice(format!("{}=", random.pick(&KEYS)).as_bytes()),
        }
    }
    text
}

// A long text: 256 lines, one or more too many, any count to 256, or the longest report; a third of them mutated.
fn long_text(random: &mut Random) -> Vec<u8> {
    let (few, many) = (random.between(13, 256), random.between(257, 300));
    let count = random.pick(&[few, few, 255, 256, 256, 257, 257, many]);
    let sheet = if random.below(16) == 0 { longest_report() } else { long_sheet(random, count) };
    let mut text = sheet.text();
    if random.below(3) == 0 {
        mutate(random, &mut text);
    }
    text
}

// A short text: a good sheet, or one with numbers beyond their limits, with mutations, or with both.
fn short_text(random: &mut Random) -> Vec<u8> {
    let mut sheet = short_sheet(random);
    let beyond_limits = random.pick(&[0, 0, 0, 0, 0, 0, 1, 1, 2]);
    let mutations = random.pick(&[0, 0, 0, 0, 0, 1, 1, 1, 2, 5]);
    for _ in 0..beyond_limits {
        exceed_limit(random, &mut sheet);
    }
    let mut text = sheet.text();
    for _ in 0..mutations {
        mutate(random, &mut text);
    }
    text
}

// The text of a case; most are short.
pub fn random_text(random: &mut Random) -> Vec<u8> {
    let mut text = match random.below(200) {
        0 | 1 => text_near_limit(random),
        2..=11 => long_text(random),
        12..=23 => noise(random),
        _ => short_text(random),
    };
    text.truncate(LONGEST_TEXT);
    text
}
