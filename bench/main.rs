// The benchmark: the proved static library beside plain Rust, on the same inputs, checked to agree and then timed;
// with --check only checked.
mod agree;
#[path = "../tests/beside.rs"]
mod beside;
#[path = "../bindings/bungero.rs"]
mod bungero;
mod inputs;
#[allow(dead_code)]
#[path = "../plain/mod.rs"]
mod plain;
#[allow(dead_code)]
mod random;
mod timing;

use inputs::{Reducible, Work, GROWTH};
use plain::column::{figure_of, Column, Entry};
use plain::combination::combine;
use plain::reduction::reduced_load;
use plain::report::report;
use plain::sheet::{self, write_into, Sheet};
use std::hint::black_box;
use timing::{head, measure, Job};

// Takes an answer as one that is used.
fn keep<T>(answer: &T) {
    black_box(answer);
}

// Entries as the records that the library takes.
fn records(entries: &[Entry]) -> Vec<bungero::Line> {
    entries.iter().map(|&entry| entry.into()).collect()
}

// A proved interior column with these lines.
fn proved_filled(lines: &[bungero::Line]) -> bungero::Column {
    let mut column = bungero::Column::open(1).unwrap();
    for line in lines {
        column.enter(*line).unwrap();
    }
    column
}

// A plain interior column with these lines.
fn plain_filled(entries: &[Entry]) -> Column {
    let mut column = Column::open(1).unwrap();
    for entry in entries {
        column.enter(entry).unwrap();
    }
    column
}

// The reduced load of each of some lines.
fn reduced_load_job(what: &str, lines: Vec<Reducible>) -> Job {
    let same = lines.clone();
    let proved = move || {
        for line in &same {
            let [load, class, floors, influence] = black_box(*line);
            keep(&bungero::reduced_load(load, class, floors, influence));
        }
    };
    let calls = lines.len();
    let plain = move || {
        for line in &lines {
            let [load, class, floors, influence] = black_box(*line);
            keep(&reduced_load(load, class, floors, influence));
        }
    };
    Job::new(what, calls, proved, plain)
}

// Entering lines on a fresh column.
fn entering_job(what: &str, entries: Vec<Entry>) -> Job {
    let records = records(&entries);
    let proved = move || keep(&proved_filled(black_box(&records)));
    let plain = move || keep(&plain_filled(black_box(&entries)));
    Job::new(what, 1, proved, plain)
}

// Pasting lines on a fresh column, which is used where it was opened.
fn pasting_job(what: &str, entries: Vec<Entry>) -> Job {
    let records = records(&entries);
    let proved = move || {
        let mut column = bungero::Column::open(1).unwrap();
        column.paste(black_box(&records)).unwrap();
        keep(&column);
    };
    let plain = move || {
        let mut column = Column::open(1).unwrap();
        column.paste(black_box(&entries)).unwrap();
        keep(&column);
    };
    Job::new(what, 1, proved, plain)
}

// The figure of a list at its last floor.
fn list_job(what: &str, entries: Vec<Entry>) -> Job {
    let records = records(&entries);
    let floor = entries.last().unwrap().floor;
    let proved = move || keep(&bungero::figure_of(1, black_box(&records), black_box(floor)));
    let plain = move || keep(&figure_of(1, black_box(&entries), black_box(floor)));
    Job::new(what, 1, proved, plain)
}

// Asking at the last floor of a column with these lines.
fn asking_job(what: &str, entries: Vec<Entry>) -> Job {
    let floor = entries.last().unwrap().floor;
    let (column, same) = (proved_filled(&records(&entries)), plain_filled(&entries));
    let proved = move || keep(&black_box(&column).ask(black_box(floor)));
    let plain = move || keep(&black_box(&same).ask(black_box(floor)));
    Job::new(what, 1, proved, plain)
}

// A whole take-down, from the text to the report in a lent buffer.
fn takedown_job(what: &str, text: Vec<u8>) -> Job {
    let same = text.clone();
    let mut room = [0; bungero::REPORT_ROOM];
    let proved = move || {
        let length = bungero::report_into(black_box(&same), &mut room).unwrap();
        black_box(&room[..length]);
    };
    let mut out = Vec::with_capacity(bungero::REPORT_ROOM);
    let plain = move || {
        out.clear();
        report(black_box(&text), &mut out).unwrap();
        black_box(&out[..]);
    };
    Job::new(what, 1, proved, plain)
}

// Writing the sheet of a text, which was read before, into a lent buffer with room for any.
fn writing_job(what: &str, text: Vec<u8>) -> Job {
    let bungero::Sheet { column: proved_column, effects } = bungero::read(&text).unwrap();
    let Sheet { code, column, effects: newtons } = sheet::read(&text).unwrap();
    let mut room = [0; bungero::SHEET_ROOM];
    let proved = move || {
        let length = black_box(&proved_column).write_into(black_box(effects).into(), &mut room).unwrap();
        black_box(&room[..length]);
    };
    let mut out = [0; bungero::SHEET_ROOM];
    let plain = move || {
        let doubles = black_box(newtons).map(|each| each as f64);
        let length = write_into(code, black_box(&column), &doubles, &mut out).unwrap();
        black_box(&out[..length]);
    };
    Job::new(what, 1, proved, plain)
}

// Combining seven effects.
fn combining_job(what: &str, effects: Vec<[f64; 7]>) -> Job {
    let records: Vec<bungero::Effects> = effects.iter().map(|&doubles| doubles.into()).collect();
    let proved = move || records.iter().for_each(|effects| keep(&bungero::combine(*black_box(effects))));
    let calls = effects.len();
    let plain = move || effects.iter().for_each(|effects| keep(&combine(black_box(effects))));
    Job::new(what, calls, proved, plain)
}

// A job on its input.
fn job(what: &str, work: Work) -> Job {
    match work {
        Work::Reducing(lines) => reduced_load_job(what, lines),
        Work::Entering(entries) => entering_job(what, entries),
        Work::Pasting(entries) => pasting_job(what, entries),
        Work::Listing(entries) => list_job(what, entries),
        Work::Asking(entries) => asking_job(what, entries),
        Work::TakingDown(text) => takedown_job(what, text),
        Work::Writing(text) => writing_job(what, text),
        Work::Combining(effects) => combining_job(what, effects),
    }
}

// Jobs that have been timed.
fn timed(works: Vec<(String, Work)>) -> Vec<Job> {
    let mut jobs: Vec<Job> = works.into_iter().map(|(what, work)| job(&what, work)).collect();
    measure(&mut jobs);
    jobs
}

// Times jobs of every kind.
fn time_jobs(works: Vec<(String, Work)>) {
    let mut jobs = timed(works);
    println!("\n{}", head("").trim_end());
    jobs.iter_mut().for_each(|job| println!("{}", job.row()));
}

// Times take-downs of ever more floors.
fn time_growth(works: Vec<(String, Work)>) {
    let jobs = timed(works);
    println!("\n{}   proved ns / (floors × lines)", head("take-down, four formula lines a floor"));
    for (floors, mut job) in GROWTH.into_iter().zip(jobs) {
        println!("{}   {:8.2}", job.row(), job.proved_ns() / (floors * 4 * floors) as f64);
    }
}

// Checks that both agree on all that is timed, and times them unless only the check is wanted.
fn main() {
    let arguments: Vec<String> = std::env::args().skip(1).collect();
    let only_check = arguments == ["--check"];
    if !only_check && !arguments.is_empty() {
        eprintln!("usage: bench/run [--check]");
        std::process::exit(2);
    }
    let (jobs, growing_jobs) = (inputs::jobs(), inputs::growing_jobs());
    jobs.iter().chain(&growing_jobs).for_each(|(_, work)| agree::check(work));
    println!("proved and plain agree on the inputs of all {} jobs that are timed", jobs.len() + growing_jobs.len());
    if !only_check {
        time_jobs(jobs);
        time_growth(growing_jobs);
    }
}
