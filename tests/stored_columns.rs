// Holds the plain Rust to the second reckoning's stored answers about factors, reduced loads and columns.
use crate::plain::column::{factor, Column, Entry, Working};
use crate::plain::reduction::reduced_load;
use crate::plain::Refusal;
use std::fs;

// The questions by their first word.
pub const KINDS: [&str; 6] = ["factor", "reduced", "open", "enter", "ask", "list"];

// A value by its name, or the refusal, as they are stored.
fn told_value(name: &str, given: Result<u64, Refusal>) -> String {
    given.map_or_else(|refusal| format!("refused={}", refusal.number()), |value| format!("{name}={value}"))
}

// The number of a call that gives no value, 0 where it is not refused.
fn told_number(given: Result<(), Refusal>) -> String {
    format!("number={}", given.map_or_else(Refusal::number, |()| 0))
}

// What holds at a floor, or the refusal.
fn told_working(given: Result<Working, Refusal>) -> String {
    match given {
        Ok(Working { floors, influence, figure }) => format!("floors={floors} influence={influence} figure={figure}"),
        Err(refusal) => format!("refused={}", refusal.number()),
    }
}

// What questions find as the ones before left it: the column that was opened last, and since the last opening, though
// it was refused, its code and all entries.
struct Script {
    column: Column,
    code: u64,
    entries: Vec<Entry>,
}

impl Script {
    // Opens a member; a refused one leaves the column of before in place.
    fn open(&mut self, code: u64) -> Result<(), Refusal> {
        (self.code, self.entries) = (code, Vec::new());
        self.column = Column::open(code)?;
        Ok(())
    }

    // Enters a line.
    fn enter(&mut self, entry: Entry) -> Result<(), Refusal> {
        self.entries.push(entry);
        self.column.enter(&entry)
    }

    // Enters all since the last opening anew, but for so many numbers at the end, four an entry, and asks at a floor.
    // It goes on past refused entries, and tells how many there are, and the number and the place of the first.
    fn list(&self, floor: u64, left_off: u64) -> String {
        let whole = (4 * self.entries.len()).saturating_sub(left_off as usize) / 4;
        let (mut refusals, mut first) = (0, (0, 0));
        let asked = Column::open(self.code).and_then(|mut column| {
            for (place, entry) in (1..).zip(&self.entries[..whole]) {
                if let Err(refusal) = column.enter(entry) {
                    refusals += 1;
                    first = if refusals == 1 { (refusal.number(), place) } else { first };
                }
            }
            column.ask(floor)
        });
        format!("{} refusals={refusals} first={} place={}", told_working(asked), first.0, first.1)
    }

    // Answers a question as it is stored.
    fn answer(&mut self, word: &str, numbers: &[u64]) -> String {
        match (word, numbers) {
            ("factor", &[code]) => told_value("factor", factor(code)),
            ("reduced", &[load, class, floors, influence]) => {
                told_value("reduced", reduced_load(load, class, floors, influence))
            }
            ("open", &[code]) => told_number(self.open(code)),
            ("enter", &[floor, class, load, area]) => told_number(self.enter(Entry { floor, class, load, area })),
            ("ask", &[floor]) => told_working(self.column.ask(floor)),
            ("list", &[floor, left_off]) => self.list(floor, left_off),
            _ => panic!("no such question: {word} {numbers:?}"),
        }
    }
}

// Every stored question: how many there are of each kind.
pub fn try_stored() -> [u64; 6] {
    let read = |path| fs::read_to_string(path).unwrap_or_else(|error| panic!("{path}: {error}"));
    let (asked, answers) = (read("crates/trial/stdin"), read("crates/trial/stdout"));
    assert_eq!(asked.lines().count(), answers.lines().count(), "questions and answers");
    let column = Column::open(1).expect("an interior column, which is open before any other");
    let mut script = Script { column, code: 1, entries: Vec::new() };
    let mut tried = [0; 6];
    for (at, (question, answer)) in (1..).zip(asked.lines().zip(answers.lines())) {
        let (word, numbers) = question.split_once(' ').expect("a word and its numbers");
        let numbers: Vec<u64> = numbers.split(' ').map(|each| each.parse().expect("a number")).collect();
        assert_eq!(script.answer(word, &numbers), answer, "stored question {at}, {question}");
        tried[KINDS.iter().position(|&kind| kind == word).expect("a kind of question")] += 1;
    }
    let least = [50, 12_000, 2_000, 18_000, 15_000, 4_000];
    assert!(tried.iter().zip(least).all(|(&count, least)| count >= least), "too few stored questions: {tried:?}");
    tried
}
