// Holds a list call to the second reckoning's lists: the library's, and the plain Rust's, which is here too.
use crate::plain::column::{figure_of, Entry};
use std::fs;

// What a list gives: n, X and the figure, or the number and the place of the first refusal.
pub type Answer = Result<[u64; 3], [u64; 2]>;

// The answer of the plain Rust.
pub fn plain_answer(code: u64, entries: &[Entry], floor: u64) -> Answer {
    let working = figure_of(code, entries, floor).map_err(|refused| [refused.refusal.number(), refused.place])?;
    Ok([working.floors, working.influence, working.figure])
}

// The answer as it is stored: `n X FIGURE`, or `refused NUMBER place PLACE`.
fn told(answer: &Answer) -> String {
    match answer {
        Ok([floors, influence, figure]) => format!("{floors} {influence} {figure}"),
        Err([number, place]) => format!("refused {number} place {place}"),
    }
}

// Every list of a file, `CODE FLOOR`, four numbers a line and ` = ANSWER`: how many there are.
pub fn try_stored(path: &str, answer: impl Fn(u64, &[Entry], u64) -> Answer) -> usize {
    let text = fs::read_to_string(path).unwrap_or_else(|error| panic!("{path}: {error}"));
    for (at, stored) in (1..).zip(text.lines()) {
        let (question, wanted) = stored.split_once(" = ").expect("a question and its answer");
        let numbers: Vec<u64> = question.split(' ').map(|each| each.parse().expect("a number")).collect();
        let (lines, left_over) = numbers[2..].as_chunks::<4>();
        assert!(left_over.is_empty(), "list {at} of {path} ends within a line");
        let entries: Vec<Entry> = lines.iter().map(|&line| line.into()).collect();
        assert_eq!(told(&answer(numbers[0], &entries, numbers[1])), wanted, "list {at} of {path}");
    }
    let lists = text.lines().count();
    assert!(lists >= 6_000, "only {lists} lists in {path}");
    lists
}
