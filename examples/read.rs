// Example in Rust: reads a text sheet, enters one more line on its column, and asks for the live load there. For a refused
// sheet it shows the line that is wrong, and ends with status 1.
#[path = "../bindings/bungero.rs"]
mod bungero;

use bungero::{Line, Refused, Sheet};
use std::process::ExitCode;

// The live load of a sheet's column with a garage below, in hundredths of a newton.
fn with_garage(sheet: &mut Sheet) -> Result<u64, Refused> {
    let garage = Line { floor: 3, use_class: 2, load: 2500, area: 1000 };
    sheet.column.enter(garage)?;
    Ok(sheet.column.ask(garage.floor)?.figure)
}

fn main() -> ExitCode {
    let path = std::env::args_os().nth(1).unwrap_or("/dev/stdin".into());
    let text = match std::fs::read(path) {
        Ok(text) => text,
        Err(error) => {
            eprintln!("the sheet: {error}");
            return ExitCode::from(2);
        }
    };
    let mut sheet = match bungero::read(&text) {
        Ok(sheet) => sheet,
        Err(refused) => {
            let shown = String::from_utf8_lossy(refused.part);
            println!("line {} is refused with number {}: {shown}", refused.line, refused.number);
            return ExitCode::from(1);
        }
    };
    println!("dead load {} N", sheet.effects.dead);
    match with_garage(&mut sheet) {
        Ok(figure) => println!("live load with a garage at floor 3: {}.{:02} N", figure / 100, figure % 100),
        Err(Refused { number }) => {
            println!("the garage is refused with number {number}");
            return ExitCode::from(1);
        }
    }
    ExitCode::SUCCESS
}
