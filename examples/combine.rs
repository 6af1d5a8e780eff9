// Example in Rust: seven effects checked and combined, and the rows that govern.
#[path = "../bindings/bungero.rs"]
mod bungero;

use bungero::{check, combine, refusal, Effects, GoverningRow, RefusedEffect};

const NAMES: [&str; 7] = ["dead", "live", "roof", "snow", "rain", "wind", "quake"];

// Prints a governing row: tenths of a newton as newtons.
fn show_row(which: &str, governing: GoverningRow) {
    println!("{which} sum: {:.1} N at row {}", governing.value / 10.0, governing.row);
}

// Checks the effects and combines them, or gives the one that is refused.
fn show(effects: Effects) -> Result<(), RefusedEffect> {
    let newtons = check(effects)?;
    println!("dead {} N, wind {} N, no other effects", newtons.dead, newtons.wind);
    let governing = combine(effects)?;
    show_row("greatest", governing.greatest);
    show_row("least", governing.least);
    Ok(())
}

fn main() {
    for wind in [60_000.0, 60_000.5, 2e12] {
        if let Err(refused) = show(Effects { dead: 100_000.0, wind, ..Effects::default() }) {
            let why = if refused.number == refusal::NOT_WHOLE { "not a whole number" } else { "beyond the limit" };
            let name = NAMES[refused.place as usize - 1];
            println!("the {name} effect is refused: {:.1} N is {why}", refused.value);
        }
    }
}
