// Holds pasting, the library's or the plain Rust's, to the second reckoning's pastes.
use crate::plain::column::Entry;
use std::fs;

// What a paste gives, and n, X and the figure at the lowest floor then, where the column has a line.
pub struct Answer {
    pub number: u64,
    pub kept: usize,
    pub count: usize,
    pub lowest: Option<[u64; 3]>,
}

// The answer as it is stored: `kept K number N held C lowest n X FIGURE`, or `none` behind `lowest`.
fn told(answer: &Answer) -> String {
    let Answer { number, kept, count, lowest } = answer;
    let lowest = lowest.map_or("none".into(), |[floors, influence, figure]| format!("{floors} {influence} {figure}"));
    format!("kept {kept} number {number} held {count} lowest {lowest}")
}

// Every paste of a file, `CODE HELD`, four numbers a line, of which the first HELD lines are held, and ` = ANSWER`: how
// many there are.
pub fn try_stored(path: &str, answer: impl Fn(u64, &[Entry], &[Entry]) -> Answer) -> usize {
    let text = fs::read_to_string(path).unwrap_or_else(|error| panic!("{path}: {error}"));
    for (at, stored) in (1..).zip(text.lines()) {
        let (question, wanted) = stored.split_once(" = ").expect("a question and its answer");
        let numbers: Vec<u64> = question.split(' ').map(|each| each.parse().expect("a number")).collect();
        let (lines, left_over) = numbers[2..].as_chunks::<4>();
        assert!(left_over.is_empty(), "paste {at} of {path} ends within a line");
        let entries: Vec<Entry> = lines.iter().map(|&line| line.into()).collect();
        let (held, pasted) = entries.split_at(numbers[1] as usize);
        assert_eq!(told(&answer(numbers[0], held, pasted)), wanted, "paste {at} of {path}");
    }
    let pastes = text.lines().count();
    assert!(pastes >= 5_000, "only {pastes} pastes in {path}");
    pastes
}
