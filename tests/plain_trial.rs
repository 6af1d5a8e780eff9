// Tries the plain Rust, before the library is put beside it: by what the paper prints, and by every stored answer of the
// second reckoning in Python. `plain_trial LISTS PASTES WRITES` takes the files that make_lists.py, make_pastes.py and
// make_writes.py print.
mod paper;
#[path = "../plain/mod.rs"]
mod plain;
#[path = "../bench/random.rs"]
mod random;
mod stored_columns;
mod stored_effects;
mod stored_lists;
mod stored_pastes;
mod stored_sheets;
mod stored_writes;
mod texts;

use plain::column::{Column, Entry, Working};
use plain::combination::combine;
use plain::reduction::reduced_load;
use plain::report::printed;
use plain::sheet::{read, refused_part, write_into};
use plain::Refusal;
use random::Random;
use stored_effects::PLAIN;
use stored_lists::plain_answer;
use stored_pastes::Answer as Pasted;
use stored_sheets::write_back;
use stored_writes::Given as Saved;
use texts::{longest_report, random_text};

// The paper's reduced loads, its column with a heavy load above, its sample, and the longest report.
fn try_paper() {
    for [load, class, floors, influence, wanted] in paper::reduced_loads() {
        let reduced = reduced_load(load, class, floors, influence);
        assert_eq!(reduced, Ok(wanted), "load {load}, class {class}, {floors} floors, influence area {influence}");
    }
    let heavy_above = [[1, 1, 6_000, 10_000], [2, 1, 2_000, 100]].map(Entry::from);
    let workings = [[1, 0, 60_000_000], [2, 400, 48_200_000]];
    let mut column = Column::open(1).expect("an interior column");
    heavy_above.iter().for_each(|entry| column.enter(entry).expect("a good line"));
    for (floor, [floors, influence, figure]) in (1..).zip(workings) {
        assert_eq!(plain_answer(1, &heavy_above, floor), Ok([floors, influence, figure]));
        assert_eq!(column.ask(floor), Ok(Working { floors, influence, figure }));
    }
    assert_eq!(printed(paper::SAMPLE), paper::SAMPLE_REPORT);
    assert_eq!(printed(&longest_report().text()).len(), 3_848, "the longest report");
}

// The paper's own case of combinations, and its sample's.
fn try_rows() {
    let governing = |dead, live, wind| combine(&[dead, live, 0.0, 0.0, 0.0, wind, 0.0]).expect("good effects");
    for (rows, wanted) in [
        (governing(100_000.0, 0.0, 60_000.0), [(1_800_000, 14), (300_000, 23)]),
        (governing(100_000.0, 41_856.0, 0.0), [(1_869_696, 2), (900_000, 22)]),
    ] {
        assert_eq!([rows.greatest, rows.least].map(|each| (each.tenths, each.row)), wanted);
    }
}

// Refusals of the list call: of the code first, then of a line at its place, then of the floor.
fn try_refused_lists() {
    let good = Entry::from([1, 1, 2_000, 1_600]);
    let wrong = [[65, 0, 0, 0], [1, 4, 0, 0], [1, 1, 50_001, 0], [1, 1, 1, 200_001]];
    for (number, line) in (3..).zip(wrong) {
        assert_eq!(plain_answer(1, &[good, line.into()], 9), Err([number, 2]));
        assert_eq!(plain_answer(13, &[good, line.into()], 9), Err([1, 0]));
    }
    assert_eq!(plain_answer(1, &[[2, 1, 1, 1].into(), good], 9), Err([3, 2]));
    assert_eq!(plain_answer(1, &[good; 257], 1), Err([2, 257]));
    assert_eq!(plain_answer(1, &[good; 256], 2), Err([7, 0]));
    assert_eq!(plain_answer(1, &[], 1), Err([7, 0]));
}

// What pasting lines gives where a column holds some, all of them good.
fn pasted(code: u64, held: &[Entry], lines: &[Entry]) -> Pasted {
    let mut column = Column::open(code).expect("a good code");
    column.paste(held).expect("good lines");
    let refused = column.paste(lines).err();
    let (number, kept) = refused.map_or((0, lines.len()), |at| (at.refusal.number(), at.place as usize - 1));
    let last = column.entries().last().map(|line| column.ask(line.floor).expect("a line has this floor"));
    let lowest = last.map(|working| [working.floors, working.influence, working.figure]);
    Pasted { number, kept, count: column.entries().count(), lowest }
}

// What writing the sheet of a member with these lines, all of them good, gives.
fn saved(code: u64, lines: &[Entry], effects: &[f64; 6], out: &mut [u8]) -> Saved {
    let mut column = Column::open(code).expect("a good code");
    column.paste(lines).expect("good lines");
    let given = write_into(code, &column, effects, out);
    given.map_err(|refused| (refused.refusal.number(), refused.place, refused.double.to_bits()))
}

// A random text that is read is the same text when it is written again, also into a buffer that is just as long; of one
// that is refused, the part is line K.
fn try_text(text: &[u8]) {
    match read(text) {
        Ok(sheet) => {
            let mut out = vec![0; text.len()];
            let is_whole = write_back(&sheet, &mut out) == text.len();
            assert!(is_whole && out == text && sheet.text() == text, "{}", String::from_utf8_lossy(text));
        }
        Err(refused) => {
            let part = refused_part(text, refused.place);
            let (above, rest) = text.split_at(part.start);
            let lines_above = above.iter().filter(|&&byte| byte == b'\n').count() as u64;
            let is_line = above.last().is_none_or(|&byte| byte == b'\n')
                && lines_above + 1 == refused.place
                && !text[part.clone()].contains(&b'\n')
                && rest.get(part.len()).is_none_or(|&byte| byte == b'\n');
            let is_too_long = refused.refusal == Refusal::SheetTooLong && (part, refused.place) == (0..0, 0);
            assert!(is_too_long || is_line, "{refused:?} in {}", String::from_utf8_lossy(text));
        }
    }
}

fn main() {
    let lists = std::env::args().nth(1).expect("the file of the second reckoning's lists");
    let pastes = std::env::args().nth(2).expect("the file of the second reckoning's pastes");
    let writes = std::env::args().nth(3).expect("the file of the second reckoning's writes");
    try_paper();
    try_rows();
    try_refused_lists();
    (1..=50_000).for_each(|seed| try_text(&random_text(&mut Random(seed))));
    let questions = stored_columns::try_stored();
    let [doubles, combinations, of_newtons] = PLAIN.try_stored();
    let sheets = stored_sheets::try_stored();
    let listed = stored_lists::try_stored(&lists, plain_answer);
    let pasted = stored_pastes::try_stored(&pastes, pasted);
    let saved = stored_writes::try_stored(&writes, saved);
    let kinds = stored_columns::KINDS.iter().zip(questions).map(|(kind, count)| format!("{count} {kind}"));
    println!(
        "the plain Rust keeps to the paper and to every stored answer in Python: {}, {doubles} doubles, {combinations} \
         combinations, {of_newtons} of whole newtons, {sheets} sheets, {listed} lists, {pasted} pastes, {saved} writes",
        kinds.collect::<Vec<_>>().join(", ")
    );
}
