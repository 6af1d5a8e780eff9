// Holds the plain Rust to the second reckoning's stored sheets: what is printed, the parts that are handed back, and
// what writing back a sheet that is read gives.
use crate::plain::report::printed;
use crate::plain::sheet::{read, refused_part, write_into, Sheet, LONGEST_WRITTEN};
use std::fs;

// The next stored sheet, and the rest: `sheet N` on a line, then N bytes.
pub fn next_stored(stored: &[u8]) -> (&[u8], &[u8]) {
    let end = stored.iter().position(|&byte| byte == b'\n').expect("the line of a sheet's length");
    let head = std::str::from_utf8(&stored[..end]).expect("a line of letters");
    let length = head.strip_prefix("sheet ").and_then(|digits| digits.parse().ok());
    stored[end + 1..].split_at(length.unwrap_or_else(|| panic!("not a sheet's length: {head}")))
}

// Writes a sheet that is read back into a buffer, and gives its length.
pub fn write_back(sheet: &Sheet, out: &mut [u8]) -> usize {
    let effects = sheet.effects.map(|newtons| newtons as f64);
    write_into(sheet.code, &sheet.column, &effects, out).expect("good effects, and room for the text")
}

// What writing back the sheet of a text gives, as it is stored.
fn told_back(text: &[u8], sheet: &Sheet) -> String {
    let mut out = [0; LONGEST_WRITTEN];
    let length = write_back(sheet, &mut out);
    format!("written={length} {}\n", if &out[..length] == text { "same" } else { "other" })
}

// The answer to a text as it is stored: what is printed, then the part, the empty one at the end where it is read, and
// for a sheet that is read what writing it back gives.
fn answer(text: &[u8]) -> Vec<u8> {
    let (part, back) = match read(text) {
        Ok(sheet) => (text.len()..text.len(), told_back(text, &sheet)),
        Err(refused) => (refused_part(text, refused.place), String::new()),
    };
    let place = format!("start={} end={} part=", part.start, part.end);
    [&printed(text), place.as_bytes(), &text[part], b"\n", back.as_bytes()].concat()
}

// Every stored sheet: how many there are.
pub fn try_stored() -> u64 {
    let stored = |path| fs::read(path).unwrap_or_else(|error| panic!("{path}: {error}"));
    let (sheets, answers) = (stored("crates/trial_sheet/stdin"), stored("crates/trial_sheet/stdout"));
    let (mut sheets, mut answers, mut tried) = (&sheets[..], &answers[..], 0);
    while !sheets.is_empty() {
        let (text, others) = next_stored(sheets);
        let given = answer(text);
        let found = &answers[..given.len().min(answers.len())];
        let shown = |text: &[u8]| String::from_utf8_lossy(text).into_owned();
        assert!(found == given, "stored sheet {}:\n{}is given\n{}", tried + 1, shown(found), shown(&given));
        (sheets, answers, tried) = (others, &answers[given.len()..], tried + 1);
    }
    assert!(answers.is_empty(), "answers are left over");
    assert!(tried >= 7_000, "only {tried} stored sheets");
    tried
}
