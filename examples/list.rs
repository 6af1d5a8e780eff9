// Example in Rust: the live load of an interior column at its floors, from a list of line records.
#[path = "../bindings/bungero.rs"]
mod bungero;

use bungero::{figure_of, refusal, Line, RefusedList};

const INTERIOR_COLUMN: u64 = 1;

// Prints what the list gives at a floor: hundredths of a newton as newtons, dm2 as m2.
fn show(lines: &[Line], floor: u64) {
    print!("floor {floor}: ");
    match figure_of(INTERIOR_COLUMN, lines, floor) {
        Err(RefusedList { number: refusal::NO_SUCH_FLOOR, .. }) => println!("no line has this floor"),
        Err(RefusedList { number, place }) => println!("line {place} of the list is refused with number {number}"),
        Ok(working) => {
            print!("{}.{:02} N", working.figure / 100, working.figure % 100);
            print!(" over {} floor(s)", working.floors);
            println!(", influence area {}.{:02} m2", working.influence / 100, working.influence % 100);
        }
    }
}

fn main() {
    let mut lines = [
        Line { floor: 1, use_class: 1, load: 6000, area: 10_000 },
        Line { floor: 2, use_class: 1, load: 2000, area: 100 },
    ];
    println!("6000 N/m2 on 100 m2 above 2000 N/m2 on 1 m2");
    for floor in 1..=3 {
        show(&lines, floor);
    }
    lines[1].use_class = 4;
    println!("the same with class 4 in the second line");
    show(&lines, 1);
}
