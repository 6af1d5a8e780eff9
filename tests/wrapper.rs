// Tries the safe calls for Rust: the figures that the paper prints, every refusal by its name, a list pasted, sheets
// read, refused and written, and reduced loads beside the plain Rust, random ones and those where the share changes.
mod beside;
#[path = "../bindings/bungero.rs"]
mod bungero;
mod paper;
#[allow(dead_code)]
#[path = "../plain/mod.rs"]
mod plain;
#[path = "../bench/random.rs"]
mod random;

use bungero::refusal::*;
use bungero::{check, combine, figure_of, raw, read, reduced_load, report, report_into};
use bungero::{Column, Effects, GoverningRow, Line, Newtons, Sheet, SheetDoubles, SheetEffects, Working};
use bungero::{Refused, RefusedEffect, RefusedList, RefusedPaste, RefusedSheet, RefusedWrite};
use bungero::{LINES, REPORT_ROOM, SHEET_ROOM};
use paper::{SAMPLE, SAMPLE_REPORT};
use random::Random;

fn line(floor: u64, use_class: u64, load: u64, area: u64) -> Line {
    Line { floor, use_class, load, area }
}

fn working(floors: u64, influence: u64, figure: u64) -> Working {
    Working { floors, influence, figure }
}

// The sample's report, by both calls: `report_into` leaves the rest of the buffer as it was.
fn try_report() {
    let sample = report(SAMPLE).unwrap();
    assert_eq!(sample.as_bytes(), SAMPLE_REPORT);
    assert_eq!((&sample[..], sample.to_string().as_bytes()), (SAMPLE_REPORT, SAMPLE_REPORT));
    assert_eq!(sample, sample.clone());
    assert_ne!(sample, report(b"member=1\ndead=0\nroof=0\nsnow=0\nrain=0\nwind=0\nquake=0\n").unwrap());
    for fill in [0, 0xff] {
        let mut out = [fill; REPORT_ROOM];
        let length = report_into(SAMPLE, &mut out).unwrap();
        assert_eq!(&out[..length], SAMPLE_REPORT);
        assert!(out[length..].iter().all(|&byte| byte == fill));
    }
}

// The sample read: its lines entered, its effects; the column is asked and entered on.
fn try_read() {
    let Sheet { mut column, effects } = read(SAMPLE).unwrap();
    assert_eq!(effects, SheetEffects { dead: 100_000, ..SheetEffects::default() });
    assert_eq!(<[i64; 6]>::from(effects), [100_000, 0, 0, 0, 0, 0]);
    let mut entered = Column::open(1).unwrap();
    for floor in [1, 2] {
        entered.enter(line(floor, 1, 2000, 1600)).unwrap();
    }
    assert_eq!(column, entered);
    assert_eq!(column.ask(2), Ok(working(2, 12_800, 4_185_600)));
    assert_eq!(column.enter(line(1, 1, 2000, 1600)), Err(Refused { number: FLOOR }));
    column.enter(line(3, 3, 1, 1)).unwrap();
    assert_eq!(column.ask(3).map(|working| working.floors), Ok(3));
    let text = b"member=12\ndead=-1\nroof=2\nsnow=-3\nrain=4\nwind=-5\nquake=6\n";
    assert_eq!(<[i64; 6]>::from(read(text).unwrap().effects), [-1, 2, -3, 4, -5, 6]);
}

// The sample written back, with just enough room, with more and with a byte less; and saved with a line more, which is
// read again.
fn try_written() {
    let mut sheet = read(SAMPLE).unwrap();
    for fill in [0, 0xff] {
        let mut out = [fill; SHEET_ROOM];
        let (written, after) = out.split_at_mut(SAMPLE.len());
        let no_room = RefusedWrite { number: NO_ROOM, place: 0, value: 0.0 };
        assert_eq!(sheet.write_into(&mut written[1..]), Err(no_room));
        assert_eq!(sheet.write_into(&mut []), Err(no_room));
        assert!(written.iter().all(|&byte| byte == fill), "a refusal wrote to the buffer");
        assert_eq!(sheet.write_into(written), Ok(SAMPLE.len()));
        assert!(written == SAMPLE && after.iter().all(|&byte| byte == fill));
        assert_eq!(sheet.write_into(&mut out), Ok(SAMPLE.len()));
        assert!(out.starts_with(SAMPLE) && out[SAMPLE.len()..].iter().all(|&byte| byte == fill));
    }
    sheet.column.enter(line(3, 2, 2500, 1000)).unwrap();
    sheet.effects.wind = -60_000;
    let mut out = [0; SHEET_ROOM];
    let length = sheet.write_into(&mut out).unwrap();
    assert_eq!(read(&out[..length]), Ok(sheet));
}

// Refused effects of a sheet, equal bit for bit where the double is a NaN; minus zero is written as 0.
fn try_refused_writes() {
    let column = Column::open(12).unwrap();
    let signalling = f64::from_bits(0xfff0_0000_0000_0001);
    let not_whole = [0.5, f64::NEG_INFINITY, f64::NAN, signalling].map(|value| (value, NOT_WHOLE));
    let beyond = [1e12 + 1.0, f64::MIN].map(|value| (value, BEYOND_LIMIT));
    let mut out = [0xa5; 100];
    for (value, number) in not_whole.into_iter().chain(beyond) {
        for place in 1..=6 {
            let mut doubles = [-1e12; 6];
            doubles[place as usize - 1] = value;
            let refused = RefusedWrite { number, place, value };
            assert_eq!(column.write_into(doubles.into(), &mut []), Err(refused));
            assert_eq!(column.write_into(doubles.into(), &mut out), Err(refused));
            assert_ne!(refused, RefusedWrite { value: f64::from_bits(value.to_bits() ^ 1), ..refused });
        }
    }
    let too_great = SheetEffects { snow: i64::MIN, ..SheetEffects::default() };
    let refused = RefusedWrite { number: BEYOND_LIMIT, place: 3, value: i64::MIN as f64 };
    assert_eq!(Sheet { column: column.clone(), effects: too_great }.write_into(&mut out), Err(refused));
    assert!(out == [0xa5; 100], "a refusal wrote to the buffer");
    let effects = SheetDoubles { dead: -0.0, wind: -7.0, ..SheetDoubles::default() };
    let text = b"member=12\ndead=0\nroof=0\nsnow=0\nrain=0\nwind=-7\nquake=0\n";
    assert_eq!(column.write_into(effects, &mut out), Ok(text.len()));
    assert_eq!(&out[..text.len()], text);
}

// Refused sheets, by both calls: number, line, and the part in the caller's own text; no byte of the buffer is written.
fn try_refused_sheets() {
    let long = [b'\n'; 32_769];
    let cases: [(&[u8], u64, u64, usize, usize); 7] = [
        (b"", FORM, 1, 0, 0),
        (b"member=13\n", CODE, 1, 0, 9),
        (b"member=1\n", FORM, 2, 9, 9),
        (b"member=1\nfloor=1 class=1 load=0 area=1\n", LOAD, 2, 9, 38),
        (b"member=1\ndead=1000000000001\nroof", BEYOND_LIMIT, 2, 9, 27),
        (b"member=1\ndead=1", FORM, 2, 9, 15),
        (&long, TOO_LONG, 0, 0, 0),
    ];
    for (text, number, line, start, end) in cases {
        let refused = RefusedSheet { number, line, part: &text[start..end] };
        let read_as = read(text).unwrap_err();
        assert_eq!(read_as, refused);
        assert_eq!(read_as.part.as_ptr(), text[start..].as_ptr(), "the part is not in the caller's own text");
        assert_eq!(read_as.to_string(), format!("refused={number} line={line}"));
        assert_eq!(report(text), Err(refused));
        for fill in [0, 0xff] {
            let mut out = [fill; REPORT_ROOM];
            assert_eq!(report_into(text, &mut out), Err(refused));
            assert!(out.iter().all(|&byte| byte == fill), "a refused sheet wrote to the buffer");
        }
    }
    let mut out = [0; REPORT_ROOM];
    let reported = unsafe { raw::bungero_report(std::ptr::null(), 0, &mut out) };
    assert_eq!(reported, raw::Reported { number: FORM, line: 1, length: 0 }, "no text, lent from nowhere");
    let reading = unsafe { raw::bungero_read(std::ptr::null(), 0) };
    let refused = (reading.number, reading.line, reading.start, reading.end);
    assert_eq!(refused, (FORM, 1, 0, 0), "no text, lent from nowhere");
}

// The paper's two columns, by the list call and by the column's own calls.
fn try_printed_columns() {
    let heavy_above = [line(1, 1, 6000, 10_000), line(2, 1, 2000, 100)];
    let sample = [line(1, 1, 2000, 1600), line(2, 1, 2000, 1600)];
    let heavy_workings = [working(1, 0, 60_000_000), working(2, 400, 48_200_000)];
    let sample_workings = [working(1, 6400, 2_628_800), working(2, 12_800, 4_185_600)];
    for (lines, workings) in [(heavy_above, heavy_workings), (sample, sample_workings)] {
        let mut column = Column::open(1).unwrap();
        for each in lines {
            column.enter(each).unwrap();
        }
        for floor in [1, 2] {
            let wanted = workings[floor as usize - 1];
            assert_eq!(column.ask(floor), Ok(wanted));
            assert_eq!(figure_of(1, &lines, floor), Ok(wanted));
        }
    }
}

// The paper's reduced loads, and the order of the refusals of a class and of a load.
fn try_printed_loads() {
    for [load, class, floors, influence, reduced] in paper::reduced_loads() {
        assert_eq!(reduced_load(load, class, floors, influence), Ok(reduced), "{load} {class} {floors} {influence}");
    }
    assert_eq!(reduced_load(2000, 1, 0, 6400), reduced_load(2000, 1, 1, 6400));
    for class in [0, 4, u64::MAX] {
        assert_eq!(reduced_load(0, class, 1, 6400), Err(Refused { number: CLASS }));
    }
    for load in [0, 50_001, u64::MAX] {
        assert_eq!(reduced_load(load, 1, 1, 6400), Err(Refused { number: LOAD }));
    }
    assert_eq!(reduced_load(50_000, 1, 1, 6400), Ok(50_000));
}

// The paper's combination case, and refused effects, equal bit for bit where the double is a NaN.
fn try_effects() {
    let effects = Effects { dead: 100_000.0, wind: 60_000.0, rain: -0.0, ..Effects::default() };
    assert_eq!(check(effects), Ok(Newtons { dead: 100_000, wind: 60_000, ..Newtons::default() }));
    let governing = combine(effects).unwrap();
    assert_eq!(governing.greatest, GoverningRow { row: 14, tenths: 1_800_000, value: 1_800_000.0 });
    assert_eq!(governing.least, GoverningRow { row: 23, tenths: 300_000, value: 300_000.0 });
    let signalling = f64::from_bits(0xfff0_0000_0000_0001);
    let not_whole = [0.5, f64::NEG_INFINITY, f64::NAN, signalling].map(|value| (value, NOT_WHOLE));
    let beyond = [1e12 + 1.0, f64::MAX].map(|value| (value, BEYOND_LIMIT));
    for (value, number) in not_whole.into_iter().chain(beyond) {
        for place in 1..=7 {
            let mut doubles = [-1e12; 7];
            doubles[place as usize - 1] = value;
            let refused = RefusedEffect { number, place, value };
            assert_eq!(check(doubles.into()), Err(refused));
            assert_eq!(combine(doubles.into()).unwrap_err(), refused);
            assert_ne!(refused, RefusedEffect { value: f64::from_bits(value.to_bits() ^ 1), ..refused });
        }
    }
}

// Forty lines pasted at once are the column of forty entries; a refused one keeps those before it, and no more.
fn try_pasted() {
    let lines: Vec<Line> = (0..40).map(|i| line(1 + i / 4, 1 + i % 3, 2_000 + i, 900 + i)).collect();
    let mut entered = Column::open(1).unwrap();
    for refused_at in 0..=lines.len() {
        let mut list = lines.clone();
        if let Some(bad) = list.get_mut(refused_at) {
            bad.use_class = 4;
        }
        let mut column = Column::open(1).unwrap();
        let wanted = RefusedPaste { number: CLASS, kept: refused_at };
        assert_eq!(column.paste(&list), if refused_at < 40 { Err(wanted) } else { Ok(()) });
        assert!(column == entered && column.count() == refused_at, "not the lines before the refused one");
        if refused_at < 40 {
            entered.enter(lines[refused_at]).unwrap();
        }
    }
    let before = entered.clone();
    assert_eq!(entered.paste(&[]), Ok(()));
    assert_eq!(entered.paste(&lines), Err(RefusedPaste { number: FLOOR, kept: 0 }));
    assert!(entered == before, "a refused first line, or no line, changed the column");
    assert_eq!(RefusedPaste { number: CLASS, kept: 12 }.to_string(), "refused=4 kept=12");
}

// The numbers of opening, entering and asking; a refused line leaves the column as before.
fn try_column_refusals() {
    for code in [0, 13, 256 + 1, (1 << 32) + 1, u64::MAX] {
        assert_eq!(Column::open(code), Err(Refused { number: CODE }));
        assert_eq!(figure_of(code, &[], 1), Err(RefusedList { number: CODE, place: 0 }));
    }
    let mut column = Column::open(12).unwrap();
    let no_such_floor = Refused { number: NO_SUCH_FLOOR };
    assert_eq!(column.ask(1), Err(no_such_floor));
    column.enter(line(2, 1, 2000, 100)).unwrap();
    let floors = [line(0, 0, 0, 0), line(65, 4, 0, 0), line(1, 1, 1, 1)].map(|each| (each, FLOOR));
    let others = [(line(2, 4, 0, 0), CLASS), (line(2, 3, 50_001, 0), LOAD), (line(2, 3, 50_000, 200_001), AREA)];
    for (each, number) in floors.into_iter().chain(others) {
        let before = column.clone();
        assert_eq!(column.enter(each), Err(Refused { number }));
        assert!(column == before, "a refused line changed the column");
        assert_eq!(figure_of(12, &[line(2, 1, 2000, 100), each], 2), Err(RefusedList { number, place: 2 }));
    }
    for _ in 1..LINES {
        column.enter(line(2, 1, 2000, 100)).unwrap();
    }
    let full = column.clone();
    assert_eq!(column.enter(line(1, 4, 0, 0)), Err(Refused { number: FULL }));
    assert!(column == full, "a refused line changed the full column");
    assert_eq!([1, 3, 64, 65, 256 + 2].map(|floor| column.ask(floor)), [Err(no_such_floor); 5]);
    assert_eq!(column.ask(2).ok(), figure_of(12, &[line(2, 1, 2000, 100); LINES], 2).ok());
}

// How refusals are printed, each as an error of Rust's.
fn try_display() {
    let shown = |refused: &dyn std::error::Error| refused.to_string();
    assert_eq!(shown(&Refused { number: FULL }), "refused=2");
    assert_eq!(shown(&RefusedList { number: AREA, place: 12 }), "refused=6 place=12");
    assert_eq!(shown(&RefusedSheet { number: FORM, line: 3, part: b"" }), "refused=10 line=3");
    assert_eq!(shown(&RefusedEffect { number: NOT_WHOLE, place: 7, value: -0.5 }), "refused=8 place=7 value=-0.5");
    assert_eq!(shown(&RefusedWrite { number: NOT_WHOLE, place: 3, value: 0.25 }), "refused=8 place=3 value=0.25");
    assert_eq!(shown(&RefusedWrite { number: NO_ROOM, place: 0, value: 0.0 }), "refused=12");
}

// A load, a class, a count of floors and an influence area; loads and classes are good more often than not.
fn random_reducible(random: &mut Random) -> [u64; 4] {
    let (light, any_load) = (random.between(1, 5_000), random.between(1, 50_000));
    let outside = random.pick(&[u64::MAX, (1 << 32) + light, (1 << 16) + light]);
    let loads = [light, light, light, any_load, any_load, any_load, random.below(60_000), outside];
    let any_class = random.between(1, 3);
    let classes = [1, 1, 1, any_class, any_class, any_class, random.below(5), (1 << 32) + 1];
    let floors = [random.below(4), 1, 2, u64::MAX];
    let (any, small, near_cap) = (random.below(100_000), random.below(10_000), random.between(3_000, 4_000));
    let influences = [any, small, near_cap, u64::MAX - random.below(9)];
    [random.pick(&loads), random.pick(&classes), random.pick(&floors), random.pick(&influences)]
}

// A reduced load by the safe call, the raw one and the plain Rust. Whether it is refused.
fn try_load(numbers: [u64; 4]) -> bool {
    let [load, class, floors, influence] = numbers;
    let wanted = plain::reduction::reduced_load(load, class, floors, influence).map_err(Refused::from);
    assert_eq!(reduced_load(load, class, floors, influence), wanted, "{numbers:?}");
    let given = unsafe { raw::bungero_reduced_load(load, class, floors, influence) };
    let given_as = wanted.map_or_else(|refused| (refused.number, 0), |reduced| (0, reduced));
    assert_eq!((given.number, given.reduced), given_as, "{numbers:?}");
    wanted.is_err()
}

// Loads where the share of formula lines changes and beside it, below and above the limit of formula lines.
fn try_edge_loads() {
    let loads = [1, 2, 1_999, 2_000, 2_001, 4_999, 5_000, 5_001];
    for influence in [0, 3_699, 3_700, 3_712, 3_713, 3_720, 33_415, 33_416, 92_821, 92_822] {
        let refused = loads.map(|load| [0, 1, 2].map(|floors| try_load([load, 1, floors, influence])));
        assert_eq!(refused, [[false; 3]; 8]);
    }
}

// Random reduced loads. How many are refused.
fn try_random_loads(count: u64) -> u64 {
    let random = &mut Random(4);
    let mut refused = 0;
    for _ in 0..count {
        refused += u64::from(try_load(random_reducible(random)));
    }
    assert!(refused >= count / 20 && refused <= count / 2, "{refused} of {count} loads refused");
    refused
}

fn main() {
    try_report();
    try_read();
    try_refused_sheets();
    try_written();
    try_refused_writes();
    try_printed_columns();
    try_printed_loads();
    try_effects();
    try_column_refusals();
    try_pasted();
    try_display();
    assert_eq!(unsafe { raw::bungero_layout_1() }, 1);
    println!("the safe calls give the paper's figures and refusals");
    try_edge_loads();
    println!("1000000 random reduced loads as by the plain Rust, {} refused", try_random_loads(1_000_000));
}
