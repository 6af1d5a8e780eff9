// The report of a sheet in plain Rust: each floor's working and the rows that govern, or the refusal.
use super::column::Working;
use super::combination::governing;
use super::sheet::{read, Sheet};
use std::io::{Result, Write};

// Writes what is printed for a text.
pub fn report(text: &[u8], out: &mut impl Write) -> Result<()> {
    match read(text) {
        Ok(sheet) => write_takedown(&sheet, out),
        Err(refused) => writeln!(out, "refused={} line={}", refused.refusal.number(), refused.place),
    }
}

// What is printed for a text.
pub fn printed(text: &[u8]) -> Vec<u8> {
    let mut out = Vec::new();
    report(text, &mut out).expect("writing into memory");
    out
}

// Writes the floors of a sheet and its governing rows; the live effect is the last figure in newtons, rounded up.
fn write_takedown(sheet: &Sheet, out: &mut impl Write) -> Result<()> {
    let mut live = 0;
    for (floor, Working { floors, influence, figure }) in sheet.column.workings() {
        writeln!(out, "floor={floor} floors={floors} influence={influence} figure={figure}")?;
        live = figure.div_ceil(100) as i64;
    }
    let [dead, roof, snow, rain, wind, quake] = sheet.effects;
    let rows = governing(&[dead, live, roof, snow, rain, wind, quake]);
    writeln!(out, "max={} row={}", rows.greatest.tenths, rows.greatest.row)?;
    writeln!(out, "min={} row={}", rows.least.tenths, rows.least.row)
}
