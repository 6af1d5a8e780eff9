// Example in Rust: reads a text sheet, enters one more line on its column, and saves it: writes the sheet into a
// buffer, reads it again to see that it says the same, and prints it. For a refused sheet it shows the line that is
// wrong, and ends with status 1.
#[path = "../bindings/bungero.rs"]
mod bungero;

use bungero::{Line, Sheet, SHEET_ROOM};
use std::io::{stdout, Write};
use std::process::ExitCode;

const REFUSED: u8 = 1;
const FAILED: u8 = 2;

// Writes a sheet, sees that it is read as the same, and prints it. Gives the status.
fn save(sheet: &Sheet) -> u8 {
    let mut out = [0; SHEET_ROOM];
    let saved = match sheet.write_into(&mut out) {
        Ok(length) => &out[..length],
        Err(refused) => {
            println!("the sheet is not written, number {}", refused.number);
            return REFUSED;
        }
    };
    if bungero::read(saved).as_ref() != Ok(sheet) {
        eprintln!("what was written says something else");
        return FAILED;
    }
    stdout().write_all(saved).map_or(FAILED, |()| 0)
}

// Shows why the sheet is refused, or saves it with an office more.
fn run(text: &[u8]) -> u8 {
    let mut sheet = match bungero::read(text) {
        Ok(sheet) => sheet,
        Err(refused) => {
            let shown = String::from_utf8_lossy(refused.part);
            println!("line {} is refused with number {}: {shown}", refused.line, refused.number);
            return REFUSED;
        }
    };
    let office = Line { floor: 3, use_class: 1, load: 2000, area: 1600 };
    match sheet.column.enter(office) {
        Ok(()) => save(&sheet),
        Err(refused) => {
            println!("the office is refused with number {}", refused.number);
            REFUSED
        }
    }
}

fn main() -> ExitCode {
    let path = std::env::args_os().nth(1).unwrap_or("/dev/stdin".into());
    match std::fs::read(path) {
        Ok(text) => ExitCode::from(run(&text)),
        Err(error) => {
            eprintln!("the sheet: {error}");
            ExitCode::from(FAILED)
        }
    }
}
