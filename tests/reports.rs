// What the library must give for a text, read and reported, by the plain Rust; the lines that it reads are entered by
// the library's own calls, which other trials try.
use crate::bungero::raw::{bungero_enter, bungero_open, Column, Reading, Reported};
use crate::bungero::SheetEffects;
use crate::plain::column::Entry;
use crate::plain::report::printed;
use crate::plain::sheet::{read, refused_part, written, Sheet};
use std::ops::Range;

// No report is longer; the bindings say so, and it is proved. The longest that can be is shorter, see `plain_trial.rs`.
pub const REPORT_BOUND: usize = 3_960;

// What the calls must give for a text, and what must then stand at the start of the buffer, nothing for a refused one.
pub struct Wanted {
    pub reading: Reading,
    pub reported: Reported,
    pub report: Vec<u8>,
}

impl Wanted {
    // By the plain Rust, whose sheet must be the text again when it is written.
    pub fn of(text: &[u8]) -> Wanted {
        match read(text) {
            Ok(sheet) => {
                assert!(sheet.text() == text, "a sheet that is read is another text when it is written");
                let lines = text.iter().filter(|&&byte| byte == b'\n').count() as u64;
                Wanted::from_parts((0, lines), text.len()..text.len(), Some(sheet), printed(text))
            }
            Err(refused) => {
                let (number, line) = (refused.refusal.number(), refused.place);
                let said = format!("refused={number} line={line}\n");
                assert_eq!(String::from_utf8_lossy(&printed(text)), said, "the plain Rust's report and its reading");
                let part = refused_part(text, line);
                let before = read_before(&text[..part.start]);
                Wanted::from_parts((number, line), part, before, Vec::new())
            }
        }
    }

    // With the number and the line K, the part that is handed back, and the sheet as far as it is read.
    fn from_parts((number, line): (u64, u64), part: Range<usize>, sheet: Option<Sheet>, report: Vec<u8>) -> Wanted {
        let reported = Reported { number, line, length: report.len() };
        let (column, effects) = (column_of(sheet.as_ref()), sheet.map_or([0; 6], |sheet| sheet.effects));
        let [dead, roof, snow, rain, wind, quake] = effects;
        let effects = SheetEffects { dead, roof, snow, rain, wind, quake };
        let reading = Reading { number, line, start: part.start, end: part.end, column, effects };
        Wanted { reading, reported, report }
    }
}

// The sheet that the lines before a refused one say, which are good ones: it is read with the effects that they lack as
// 0. None where there is no line.
fn read_before(lines: &[u8]) -> Option<Sheet> {
    if lines.is_empty() {
        return None;
    }
    let is_newline = |&byte: &u8| byte == b'\n';
    let effects = lines.split_inclusive(is_newline).skip(1).filter(|line| !line.starts_with(b"floor=")).count();
    let zeros = written(1, &[], &[0; 6]);
    let lacking: Vec<&[u8]> = zeros.split_inclusive(is_newline).skip(1 + effects).collect();
    let completed = [lines, &lacking.concat()].concat();
    Some(read(&completed).expect("the lines before a refused one are good"))
}

// The column of a sheet, by opening its member and entering its lines; what a refused opening gives where it has none.
fn column_of(sheet: Option<&Sheet>) -> Column {
    let mut column = unsafe { bungero_open(sheet.map_or(0, |sheet| sheet.code)) }.column;
    for Entry { floor, class, load, area } in sheet.iter().flat_map(|sheet| sheet.column.entries()) {
        // SAFETY: the column is one that opening gave, changed only here.
        let entered = unsafe { bungero_enter(&mut column.held, column.member, column.count, floor, class, load, area) };
        assert_eq!(entered.number, 0, "a line of the plain Rust is refused");
        column.count = entered.count;
    }
    column
}
