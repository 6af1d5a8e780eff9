// A text sheet in plain Rust: reading it, the part that a refusal hands back, and writing it.
use super::column::{Column, Entry};
use super::combination::{checked, is_beyond_limit, RefusedEffect};
use super::{Refusal, RefusedAt};
use std::io::{self, Write};
use std::ops::Range;

const LONGEST: usize = 32_768;

// The bytes of the longest sheet that is written: 256 lines and six effects, all of as many digits as they may have.
pub const LONGEST_WRITTEN: usize = 10_371;

// What a sheet says: its member's code, its column, and its effects dead, roof, snow, rain, wind and quake in newtons.
pub struct Sheet {
    pub code: u64,
    pub column: Column,
    pub effects: [i64; 6],
}

impl Sheet {
    // Its text.
    pub fn text(&self) -> Vec<u8> {
        let entries: Vec<Entry> = self.column.entries().collect();
        written(self.code, &entries, &self.effects)
    }
}

// The part of a text that is not read yet, and how many lines are.
struct Lines<'a> {
    rest: &'a [u8],
    count: u64,
}

impl Lines<'_> {
    // Takes the next line with what reads it.
    fn take<T>(&mut self, read: impl FnOnce(&[u8]) -> Result<T, Refusal>) -> Result<T, RefusedAt> {
        self.count += 1;
        let newline = self.rest.iter().position(|&byte| byte == b'\n').ok_or(Refusal::SheetMalformed);
        let taken = newline.and_then(|at| {
            let line = &self.rest[..at];
            self.rest = &self.rest[at + 1..];
            read(line)
        });
        taken.map_err(|refusal| RefusedAt { refusal, place: self.count })
    }

    // Takes the next line as the effect with this key.
    fn effect(&mut self, key: &str) -> Result<i64, RefusedAt> {
        self.take(|line| {
            let newtons = effect(line, key).ok_or(Refusal::SheetMalformed)?;
            if is_beyond_limit(newtons) {
                return Err(Refusal::EffectOutOfRange);
            }
            Ok(newtons)
        })
    }
}

// A number of 1 to 13 digits without a needless zero at the start of a text, and what follows it.
fn number(text: &[u8]) -> Option<(u64, &[u8])> {
    let count = text.iter().take_while(|byte| byte.is_ascii_digit()).count();
    let (digits, rest) = text.split_at(count);
    if !(1..=13).contains(&count) || (count > 1 && digits[0] == b'0') {
        return None;
    }
    let value = digits.iter().fold(0, |value, digit| 10 * value + u64::from(digit - b'0'));
    Some((value, rest))
}

// The number after a key at the start of a text, and what follows it.
fn field<'a>(text: &'a [u8], key: &str) -> Option<(u64, &'a [u8])> {
    number(text.strip_prefix(key.as_bytes())?)
}

// The code of a member's line.
fn member(line: &[u8]) -> Option<u64> {
    let (code, rest) = field(line, "member=")?;
    rest.is_empty().then_some(code)
}

// The four numbers of a floor line.
fn entry(line: &[u8]) -> Option<Entry> {
    let (floor, rest) = field(line, "floor=")?;
    let (class, rest) = field(rest, " class=")?;
    let (load, rest) = field(rest, " load=")?;
    let (area, rest) = field(rest, " area=")?;
    rest.is_empty().then_some(Entry { floor, class, load, area })
}

// The number of an effect's line; a minus sign never stands before 0.
fn effect(line: &[u8], key: &str) -> Option<i64> {
    let text = line.strip_prefix(key.as_bytes())?;
    let magnitude = text.strip_prefix(b"-");
    let (value, rest) = number(magnitude.unwrap_or(text))?;
    match magnitude {
        _ if !rest.is_empty() => None,
        Some(_) if value == 0 => None,
        Some(_) => Some(-(value as i64)),
        None => Some(value as i64),
    }
}

// Reads a sheet, or refuses it with the line K.
pub fn read(text: &[u8]) -> Result<Sheet, RefusedAt> {
    if text.len() > LONGEST {
        return Err(RefusedAt { refusal: Refusal::SheetTooLong, place: 0 });
    }
    let mut lines = Lines { rest: text, count: 0 };
    let (code, mut column) = lines.take(|line| {
        let code = member(line).ok_or(Refusal::SheetMalformed)?;
        Ok((code, Column::open(code)?))
    })?;
    while lines.rest.starts_with(b"floor=") {
        lines.take(|line| column.enter(&entry(line).ok_or(Refusal::SheetMalformed)?))?;
    }
    let effects = [
        lines.effect("dead=")?,
        lines.effect("roof=")?,
        lines.effect("snow=")?,
        lines.effect("rain=")?,
        lines.effect("wind=")?,
        lines.effect("quake=")?,
    ];
    if !lines.rest.is_empty() {
        return Err(RefusedAt { refusal: Refusal::SheetMalformed, place: lines.count + 1 });
    }
    Ok(Sheet { code, column, effects })
}

// The part of a text that a refusal at line K hands back: that line without its newline, empty at the end where it is
// missing; the empty part at the start where K is 0.
pub fn refused_part(text: &[u8], line: u64) -> Range<usize> {
    if line == 0 {
        return 0..0;
    }
    let mut lines = text.split(|&byte| byte == b'\n');
    let start = lines.by_ref().take(line as usize - 1).map(|above| above.len() + 1).sum();
    let length = lines.next().expect("the line, or the text's end where it is missing").len();
    start..start + length
}

// Writes the text of a sheet that says this, good or not: the member's code, the lines, and the effects from dead to
// quake.
fn write_text(
    out: &mut impl Write,
    code: u64,
    entries: impl Iterator<Item = Entry>,
    effects: &[i64; 6],
) -> io::Result<()> {
    writeln!(out, "member={code}")?;
    for Entry { floor, class, load, area } in entries {
        writeln!(out, "floor={floor} class={class} load={load} area={area}")?;
    }
    let [dead, roof, snow, rain, wind, quake] = effects;
    write!(out, "dead={dead}\nroof={roof}\nsnow={snow}\nrain={rain}\nwind={wind}\nquake={quake}\n")
}

// The text of a sheet that says this, good or not.
pub fn written(code: u64, entries: &[Entry], effects: &[i64; 6]) -> Vec<u8> {
    let mut text = Vec::new();
    write_text(&mut text, code, entries.iter().copied(), effects).expect("writing into memory");
    text
}

// Why a sheet is not written: the refused effect's place, 1 to 6, and its double as it came; both 0 where the buffer is
// too short.
#[derive(Clone, Copy, Debug)]
pub struct RefusedWrite {
    pub refusal: Refusal,
    pub place: u64,
    pub double: f64,
}

impl From<RefusedEffect> for RefusedWrite {
    fn from(RefusedEffect { refusal, place, double }: RefusedEffect) -> RefusedWrite {
        RefusedWrite { refusal, place, double }
    }
}

// Writes a sheet to the front of a buffer that has room for any, and gives its length.
fn write_at_front(code: u64, column: &Column, newtons: &[i64; 6], out: &mut [u8]) -> usize {
    let mut rest = &mut *out;
    write_text(&mut rest, code, column.entries(), newtons).expect("room for any sheet");
    let left = rest.len();
    out.len() - left
}

// Writes the sheet of a column, whose code this is, and of six effects from dead to quake to the front of a buffer, and
// gives its length. Bytes past it stay, and a refusal touches none: where the text might not fit, it is made elsewhere.
pub fn write_into(code: u64, column: &Column, effects: &[f64; 6], out: &mut [u8]) -> Result<usize, RefusedWrite> {
    let newtons = checked(effects)?;
    if out.len() >= LONGEST_WRITTEN {
        return Ok(write_at_front(code, column, &newtons, out));
    }
    let mut scratch = [0; LONGEST_WRITTEN];
    let length = write_at_front(code, column, &newtons, &mut scratch);
    let too_short = RefusedWrite { refusal: Refusal::BufferTooShort, place: 0, double: 0.0 };
    out.get_mut(..length).ok_or(too_short)?.copy_from_slice(&scratch[..length]);
    Ok(length)
}
