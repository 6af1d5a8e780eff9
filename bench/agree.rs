// Checks that the proved library and the plain Rust give the same on all that is timed; the trials under tests/ put
// them beside each other on everything else, refusals included.
use crate::bungero::{self, Refused, RefusedList, RefusedWrite, Working, SHEET_ROOM};
use crate::inputs::{Reducible, Work};
use crate::plain::column::{figure_of, Column, Entry};
use crate::plain::combination::combine;
use crate::plain::reduction::reduced_load;
use crate::plain::report::printed;
use crate::plain::sheet::{read, write_into};
use crate::{plain_filled, proved_filled, records};

// Checks what is timed on an input, a column and a list at every floor.
pub fn check(work: &Work) {
    match work {
        Work::Reducing(lines) => lines.iter().copied().for_each(check_reduced_load),
        Work::Entering(entries) | Work::Asking(entries) => check_column(entries),
        Work::Pasting(entries) => check_pasted(entries),
        Work::Listing(entries) => check_list(entries),
        Work::TakingDown(text) => check_sheet(text),
        Work::Writing(text) => check_written(text),
        Work::Combining(effects) => effects.iter().for_each(check_combination),
    }
}

// The reduced load of a line.
fn check_reduced_load(line: Reducible) {
    let [load, class, floors, influence] = line;
    let plain = reduced_load(load, class, floors, influence).map_err(Refused::from);
    assert_eq!(bungero::reduced_load(load, class, floors, influence), plain, "reducing {line:?}");
}

// What asking gives at every floor and beyond.
fn check_column(entries: &[Entry]) {
    let (proved, plain) = (proved_filled(&records(entries)), plain_filled(entries));
    for floor in 0..=65 {
        let wanted = plain.ask(floor).map(Working::from).map_err(Refused::from);
        assert_eq!(proved.ask(floor), wanted, "asking at {floor}");
    }
}

// A paste keeps all, and leaves the column that entering leaves.
fn check_pasted(entries: &[Entry]) {
    let records = records(entries);
    let (mut proved, mut plain) = (bungero::Column::open(1).unwrap(), Column::open(1).unwrap());
    assert_eq!((proved.paste(&records), plain.paste(entries)), (Ok(()), Ok(())), "pasting");
    assert!(proved == proved_filled(&records), "the column after pasting");
    check_column(entries);
}

// What a list gives at every floor and beyond.
fn check_list(entries: &[Entry]) {
    let records = records(entries);
    for floor in 0..=65 {
        let wanted = figure_of(1, entries, floor).map(Working::from).map_err(RefusedList::from);
        assert_eq!(bungero::figure_of(1, &records, floor), wanted, "a list at {floor}");
    }
}

// What is printed for a text.
fn check_sheet(text: &[u8]) {
    let proved = match bungero::report(text) {
        Ok(report) => report.as_bytes().to_vec(),
        Err(refused) => format!("{refused}\n").into_bytes(),
    };
    assert!(proved == printed(text), "reporting {}", String::from_utf8_lossy(text));
}

// A text that is read is the same when it is written, and all of the buffer past it as it was.
fn check_written(text: &[u8]) {
    let (proved, plain) = (bungero::read(text).unwrap(), read(text).unwrap());
    let doubles = plain.effects.map(|each| each as f64);
    let (mut proved_out, mut plain_out) = ([0xa5; SHEET_ROOM], [0xa5; SHEET_ROOM]);
    let plain = write_into(plain.code, &plain.column, &doubles, &mut plain_out).map_err(RefusedWrite::from);
    assert_eq!((proved.write_into(&mut proved_out), plain), (Ok(text.len()), Ok(text.len())), "writing");
    assert!(proved_out.starts_with(text) && proved_out == plain_out, "writing {}", String::from_utf8_lossy(text));
}

// The rows that govern seven effects; doubles are compared bit for bit.
fn check_combination(effects: &[f64; 7]) {
    let proved = bungero::combine((*effects).into()).expect("good effects");
    let plain = combine(effects).expect("good effects");
    let proved = [proved.greatest, proved.least].map(|row| (row.row, row.tenths, row.value.to_bits()));
    let plain = [plain.greatest, plain.least].map(|row| (row.row, row.tenths, row.double.to_bits()));
    assert_eq!(proved, plain, "combining {effects:?}");
}
