// Example in Rust: forty lines from a spreadsheet pasted on a column, with a mistyped load in one of them, then mended.
#[path = "../bindings/bungero.rs"]
mod bungero;

use bungero::{Column, Line, RefusedPaste};

const INTERIOR_COLUMN: u64 = 1;

// Four offices of 2,500 N/m2 on each of ten floors.
fn forty_lines() -> Vec<Line> {
    (0..40).map(|i| Line { floor: 1 + i / 4, use_class: 1, load: 2500, area: 400 + 10 * i }).collect()
}

// Prints what the column carries at its lowest floor: hundredths of a newton as newtons.
fn show(column: &Column, floor: u64) {
    let (count, figure) = (column.count(), column.ask(floor).expect("a floor that has a line").figure);
    println!("the column holds {count} lines, and carries {}.{:02} N at floor {floor}", figure / 100, figure % 100);
}

fn main() {
    let mut lines = forty_lines();
    lines[12].load = 250_000;
    let mut column = Column::open(INTERIOR_COLUMN).expect("a member of Table 4.2");
    let mut first = lines.len();
    if let Err(RefusedPaste { number, kept }) = column.paste(&lines) {
        println!("line {} of {} is refused with number {number}; the {kept} before it are kept", kept + 1, lines.len());
        first = kept;
    }
    show(&column, 3);
    lines[12].load = 2500;
    // Go on from the refused line, which is mended.
    let (kept, refused) = match column.paste(&lines[first..]) {
        Ok(()) => (lines.len() - first, "none is"),
        Err(refused) => (refused.kept, "one is"),
    };
    println!("with its load mended, {kept} more are kept, and {refused} refused");
    show(&column, 10);
}
