// Tries bungero_read and bungero_report beside the plain Rust on random sheets, good and mutated: `sheets COUNT
// [SECONDS [SEED]]`. A text is lent between canaries or at a guard page; it must stay as it was, and so must all of the
// buffer but the report, and all of it where the sheet is refused. A sheet that is read must be the same text when
// bungero_write writes it back. The status is 3 where the time was up before all were tried.
#[path = "../bindings/bungero.rs"]
mod bungero;
#[allow(dead_code)]
#[path = "../plain/mod.rs"]
mod plain;
#[path = "../bench/random.rs"]
mod random;
mod reports;
mod texts;

use bungero::raw::{bungero_read, bungero_report, bungero_write, Reading, Reported};
use bungero::REPORT_ROOM;
use random::Random;
use reports::{Wanted, REPORT_BOUND};
use std::fs;
use std::ops::Range;
use std::panic::catch_unwind;
use std::process::exit;
use std::sync::atomic::{AtomicU64, Ordering::Relaxed};
use std::time::{Duration, Instant};
use texts::random_text;

// ---- Memory that is lent ----------------------------------------------------

const PAGE: usize = 4096;
const NOT_AT_ALL: i32 = 0;
const TO_READ: i32 = 1;
const TO_READ_AND_WRITE: i32 = 3;
const PRIVATE_ANONYMOUS: i32 = 0x22;

extern "C" {
    fn mmap(start: *mut u8, length: usize, protection: i32, flags: i32, file: i32, offset: i64) -> *mut u8;
    fn mprotect(start: *mut u8, length: usize, protection: i32) -> i32;
    fn signal(number: i32, handler: extern "C" fn(i32)) -> usize;
}

// Memory between two guard pages, which may be neither read nor written: a step over either edge is a fault.
struct Guarded {
    start: *mut u8,
    length: usize,
}

impl Guarded {
    // So many bytes, whole pages.
    fn of(length: usize) -> Guarded {
        let whole = length + 2 * PAGE;
        let start = unsafe { mmap(std::ptr::null_mut(), whole, TO_READ_AND_WRITE, PRIVATE_ANONYMOUS, -1, 0) };
        assert!(start as isize != -1, "no memory");
        let memory = Guarded { start: unsafe { start.add(PAGE) }, length };
        for edge in [start, unsafe { memory.start.add(length) }] {
            assert_eq!(unsafe { mprotect(edge, PAGE, NOT_AT_ALL) }, 0, "guarding a page");
        }
        memory
    }

    // What may be done with the memory from now on.
    fn allow(&self, protection: i32) {
        assert_eq!(unsafe { mprotect(self.start, self.length, protection) }, 0, "protecting memory");
    }

    // All of it but the guard pages.
    fn bytes(&mut self) -> &mut [u8] {
        unsafe { std::slice::from_raw_parts_mut(self.start, self.length) }
    }

    // The bytes from a place on with those beside them, as far as the memory goes.
    fn around(&self, start: usize, length: usize) -> Range<usize> {
        start.saturating_sub(CANARIES)..(start + length + CANARIES).min(self.length)
    }
}

// ---- The trial --------------------------------------------------------------

const TEXT_ROOM: usize = 20 * PAGE;
const OUT_ROOM: usize = 3 * PAGE;
const CANARIES: usize = 64; // bytes that are watched on either side of what is lent
const SHIFTS: u64 = 32; // places of the text and of the buffer that lie between canaries
const REFUSALS: [usize; 9] = [1, 2, 3, 4, 5, 6, 9, 10, 11]; // the numbers that a sheet may have

// The case that is being tried, for the message at a fault.
static SEED: AtomicU64 = AtomicU64::new(0);
static CASE: AtomicU64 = AtomicU64::new(0);

// The random numbers of a case, which depend on nothing but the seed and the case.
fn random_of(seed: u64, case: u64) -> Random {
    Random(Random(Random(seed).bits() ^ case).bits())
}

// Stops with all that tells the case: its seed and number, its sheet in a file, and what is wrong.
fn stop(seed: u64, case: u64, wrong: &str) -> ! {
    let path = format!("target/tests/sheet_{seed}_{case}");
    let text = random_text(&mut random_of(seed, case));
    let saved = fs::create_dir_all("target/tests").and_then(|()| fs::write(&path, &text));
    let place = saved.map_or_else(|error| format!("not saved, {error}"), |()| format!("saved as {path}"));
    eprintln!("sheets: case {case} of seed {seed}, a sheet of {} bytes, {place}: {wrong}", text.len());
    exit(1);
}

// What becomes of a signal.
extern "C" fn stop_at_signal(number: i32) {
    let meaning = match number {
        7 | 11 => ", memory that was not lent was touched, or the lent text was written to",
        _ => "",
    };
    stop(SEED.load(Relaxed), CASE.load(Relaxed), &format!("stopped by signal {number}{meaning}"));
}

// Where a case has its text and its buffer: one in 16 ends at a guard page, one in 16 starts after one, others lie
// between.
fn places(case: u64, length: usize) -> (usize, usize) {
    match case % 16 {
        0 => (TEXT_ROOM - length, OUT_ROOM - REPORT_ROOM),
        8 => (0, 0),
        _ => (CANARIES + (case / 3 % SHIFTS) as usize, CANARIES + (case / 7 % SHIFTS) as usize),
    }
}

// Where a text of so many bytes and the buffer lie.
struct Lent<'a> {
    text: &'a Guarded,
    text_at: usize,
    length: usize,
    out: &'a Guarded,
    out_at: usize,
}

// Both calls, on what is lent; the text may only be read where that is asked for.
fn call(lent: Lent, is_protected: bool) -> (Reading, Reported) {
    if is_protected {
        lent.text.allow(TO_READ);
    }
    let given = unsafe {
        let out = lent.out.start.add(lent.out_at).cast::<[u8; REPORT_ROOM]>();
        let text = lent.text.start.add(lent.text_at);
        (bungero_read(text, lent.length), bungero_report(text, lent.length, out))
    };
    if is_protected {
        lent.text.allow(TO_READ_AND_WRITE);
    }
    given
}

// Both reports for the eye, with the length that the library gave.
fn differing(out: &[u8], length: usize, wanted: &[u8]) -> String {
    let shown = |report: &[u8]| -> String {
        let lines = report.split_inclusive(|&byte| byte == b'\n');
        lines.map(|line| format!("    {}\n", line.escape_ascii())).collect()
    };
    let found = if length <= REPORT_BOUND { shown(&out[..length]) } else { "    (not shown)\n".into() };
    let (plain, bytes) = (shown(wanted), wanted.len());
    format!("the reports differ; the library's, of {length} bytes:\n{found}and plain Rust's, of {bytes}:\n{plain}")
}

// What is wrong in what the calls gave, where something is.
fn wrong(reading: &Reading, reported: Reported, out: &[u8], wanted: &Wanted) -> Option<String> {
    if *reading != wanted.reading {
        return Some(format!("read as {reading:?}, and by plain Rust as {:?}", wanted.reading));
    }
    if (reported.number, reported.line) != (wanted.reported.number, wanted.reported.line) {
        return Some(format!("reported as {reported:?}, and by plain Rust as {:?}", wanted.reported));
    }
    let alike = reported.length == wanted.report.len() && out[..reported.length] == wanted.report;
    (!alike).then(|| differing(out, reported.length, &wanted.report))
}

// Whether a sheet that was read is the same text again, in a buffer just as long, which ends at a guard page.
fn is_written_back(reading: &Reading, text: &[u8], memory: &mut Guarded) -> bool {
    let Reading { column, effects, .. } = reading;
    let (out_at, room) = (OUT_ROOM - text.len(), text.len());
    let out = memory.bytes()[out_at..].as_mut_ptr();
    let written = unsafe { bungero_write(&column.held, column.member, column.count, (*effects).into(), out, room) };
    written.number == 0 && written.length == room && &memory.bytes()[out_at..] == text
}

// Tries one case; gives what both have alike.
fn try_case(seed: u64, case: u64, text_memory: &mut Guarded, out_memory: &mut Guarded) -> Reported {
    CASE.store(case, Relaxed);
    let text = random_text(&mut random_of(seed, case));
    let wanted = catch_unwind(|| Wanted::of(&text));
    let wanted = wanted.unwrap_or_else(|_| stop(seed, case, "plain Rust has no report"));
    let (text_at, out_at) = places(case, text.len());
    let (lent, around) = (text_memory.around(text_at, text.len()), out_memory.around(out_at, REPORT_ROOM));

    let beside = b"0\n1 quake=0\nfloor=64 class=1 load=1 area=1\n".iter().cycle().skip(case as usize % 43);
    let mut as_lent: Vec<u8> = beside.copied().take(lent.len()).collect();
    as_lent[text_at - lent.start..][..text.len()].copy_from_slice(&text);
    text_memory.bytes()[lent.clone()].copy_from_slice(&as_lent);
    let mut expected: Vec<u8> = around.clone().map(|at| (at as u8 ^ case as u8).wrapping_mul(151)).collect();
    out_memory.bytes()[around.clone()].copy_from_slice(&expected);
    expected[out_at - around.start..][..wanted.report.len()].copy_from_slice(&wanted.report);

    let places = Lent { text: text_memory, text_at, length: text.len(), out: out_memory, out_at };
    let (reading, reported) = call(places, case % 8 == 0);
    if let Some(wrong) = wrong(&reading, reported, &out_memory.bytes()[out_at..], &wanted) {
        stop(seed, case, &wrong);
    }
    let watched = &out_memory.bytes()[around.clone()];
    if let Some(at) = (0..watched.len()).find(|&at| watched[at] != expected[at]) {
        let byte = (around.start + at) as i64 - out_at as i64;
        stop(seed, case, &format!("byte {byte} of the buffer was changed; the report has {} bytes", reported.length));
    }
    if text_memory.bytes()[lent] != as_lent {
        stop(seed, case, "the lent text, or a byte beside it, was changed");
    }
    if reading.number == 0 && !is_written_back(&reading, &text, out_memory) {
        stop(seed, case, "written back, the sheet is another text");
    }
    reported
}

// What was met: how many sheets of each number, 0 for those that are read, and the longest report.
#[derive(Default)]
struct Tally {
    numbers: [u64; 12],
    longest: usize,
}

impl Tally {
    // How many sheets were tried.
    fn sheets(&self) -> u64 {
        self.numbers.iter().sum()
    }

    // Stops where a number is met too seldom, or too few sheets are read.
    fn require_enough(&self) {
        let sheets = self.sheets();
        for number in REFUSALS {
            assert!(self.numbers[number] >= sheets / 1_000, "number {number} was met {} times", self.numbers[number]);
        }
        assert!(self.numbers[0] >= sheets / 4, "only {} of {sheets} sheets were read", self.numbers[0]);
    }

    // The line that is printed.
    fn shown(&self) -> String {
        let refused: Vec<String> = REFUSALS.map(|number| format!("{number}: {}", self.numbers[number])).into();
        let (sheets, read, longest) = (self.sheets(), self.numbers[0], self.longest);
        let refused = refused.join(", ");
        format!("{sheets} sheets agree: {read} read, written back; refused {refused}; longest report {longest} bytes")
    }
}

// Tries so many cases, or as many as the time allows.
fn try_cases(count: u64, seed: u64, time: Option<Duration>) -> Tally {
    let (mut text_memory, mut out_memory) = (Guarded::of(TEXT_ROOM), Guarded::of(OUT_ROOM));
    SEED.store(seed, Relaxed);
    for number in [4, 6, 7, 8, 11] {
        unsafe { signal(number, stop_at_signal) };
    }
    let begun = Instant::now();
    let mut tally = Tally::default();
    for case in 1..=count {
        let reported = try_case(seed, case, &mut text_memory, &mut out_memory);
        tally.numbers[reported.number as usize] += 1;
        tally.longest = tally.longest.max(reported.length);
        if case % 64 == 0 && time.is_some_and(|time| begun.elapsed() >= time) {
            break;
        }
    }
    tally
}

// The count, the seconds and the seed, where the arguments are numbers.
fn arguments() -> Option<(u64, Option<u64>, u64)> {
    let numbers: Result<Vec<u64>, _> = std::env::args().skip(1).map(|each| each.parse()).collect();
    match numbers.ok()?[..] {
        [count] => Some((count, None, 1)),
        [count, seconds] => Some((count, Some(seconds), 1)),
        [count, seconds, seed] => Some((count, Some(seconds), seed)),
        _ => None,
    }
}

fn main() {
    let Some((count, seconds, seed)) = arguments() else {
        eprintln!("usage: sheets COUNT [SECONDS [SEED]]");
        exit(2);
    };
    let tally = try_cases(count, seed, seconds.map(Duration::from_secs));
    println!("{}", tally.shown());
    if tally.sheets() >= 20_000 {
        tally.require_enough();
    }
    if tally.sheets() < count {
        let seconds = seconds.unwrap_or(0);
        eprintln!("sheets: stopped after {seconds} s with fewer sheets than the {count} that were asked for");
        exit(3);
    }
}
