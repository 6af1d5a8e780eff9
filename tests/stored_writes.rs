// Holds writing a sheet, the library's or the plain Rust's, to the second reckoning's writes.
use crate::plain::column::Entry;
use std::fs;

// What a write gives: the length of the text, or the number of the refusal, the place of the refused effect and the
// bits of its double, both 0 where the buffer is too short.
pub type Given = Result<usize, (u64, u64, u64)>;

// A write as it is asked for: the member's code, the length of the buffer, the six effects, and the lines.
struct Question {
    code: u64,
    room: usize,
    effects: [f64; 6],
    lines: Vec<Entry>,
}

// A stored question, `CODE ROOM`, the bits of six doubles, and four numbers a line.
fn question(stored: &str) -> Question {
    let words: Vec<&str> = stored.split(' ').collect();
    let number = |word: &str| word.parse::<u64>().unwrap_or_else(|error| panic!("{word}: {error}"));
    let double = |at| f64::from_bits(u64::from_str_radix(words[2 + at], 16).expect("hexadecimal digits"));
    let numbers: Vec<u64> = words[8..].iter().map(|word| number(word)).collect();
    let (lines, left_over) = numbers.as_chunks::<4>();
    assert!(left_over.is_empty(), "a question ends within a line: {stored}");
    Question {
        code: number(words[0]),
        room: number(words[1]) as usize,
        effects: std::array::from_fn(double),
        lines: lines.iter().map(|&line| line.into()).collect(),
    }
}

const BESIDE: usize = 64; // bytes before the lent buffer, and after it

// Memory of bytes that no sheet has, each another than those beside it, so that a byte that is touched is seen.
fn marked(length: usize) -> Vec<u8> {
    (0..length).map(|at| 128 + (at % 127) as u8).collect()
}

// What a call gives on a lent buffer, as it is stored; no byte may be touched but those of the text.
fn told(room: usize, write: impl FnOnce(&mut [u8]) -> Given) -> String {
    let before = marked(room + 2 * BESIDE);
    let mut memory = before.clone();
    let given = write(&mut memory[BESIDE..BESIDE + room]);
    let length = given.unwrap_or(0);
    assert!(length <= room, "a text of {length} bytes in a buffer of {room}");
    let end = BESIDE + length;
    assert!(memory[..BESIDE] == before[..BESIDE], "bytes before the buffer are touched");
    assert!(memory[end..] == before[end..], "bytes that are not the text's are touched, {given:?}");
    match given {
        Ok(_) => format!("written {length} {}", String::from_utf8_lossy(&memory[BESIDE..end]).replace('\n', "|")),
        Err((number, 0, 0)) => format!("refused {number}"),
        Err((number, place, bits)) => format!("refused {number} place {place} double {bits:016x}"),
    }
}

// Every write of a file, a question and ` = ANSWER`, by what writes the sheet of a member with these lines, all of them
// good, and of six effects: how many there are.
pub fn try_stored(path: &str, write: impl Fn(u64, &[Entry], &[f64; 6], &mut [u8]) -> Given) -> usize {
    let text = fs::read_to_string(path).unwrap_or_else(|error| panic!("{path}: {error}"));
    for (at, stored) in (1..).zip(text.lines()) {
        let (asked, wanted) = stored.split_once(" = ").expect("a question and its answer");
        let Question { code, room, effects, lines } = question(asked);
        let given = told(room, |out| write(code, &lines, &effects, out));
        assert_eq!(given, wanted, "write {at} of {path}");
    }
    let writes = text.lines().count();
    assert!(writes >= 5_000, "only {writes} writes in {path}");
    writes
}
