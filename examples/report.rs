// Example in Rust: prints the report of a text sheet, from the file that is named or else from standard input. For a refused
// sheet it prints what takedown prints, and ends with status 1.
#[path = "../bindings/bungero.rs"]
mod bungero;

use std::fs::File;
use std::io::{stdin, stdout, Read, Result, Write};
use std::process::ExitCode;

const REFUSED: u8 = 1;
const FAILED: u8 = 2;

// Prints the report or the refusal, and gives the status.
fn run() -> Result<u8> {
    let mut text = Vec::new();
    match std::env::args_os().nth(1) {
        Some(path) => File::open(path)?.read_to_end(&mut text)?,
        None => stdin().read_to_end(&mut text)?,
    };
    match bungero::report(&text) {
        Ok(report) => stdout().write_all(&report).map(|()| 0),
        Err(refused) => writeln!(stdout(), "{refused}").map(|()| REFUSED),
    }
}

fn main() -> ExitCode {
    let status = run().unwrap_or_else(|error| {
        eprintln!("the sheet: {error}");
        FAILED
    });
    ExitCode::from(status)
}
