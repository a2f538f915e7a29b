//! The program `census` in plain Rust: the yardstick that the proved one is timed against.
mod cap;
mod census;
mod oracle;
mod pager;
mod polygon;
mod refusal;
mod regions;
mod sheet;
#[cfg(test)]
mod tests;

use cap::Cap;
use oracle::Coded;
use pager::Pager;
use regions::Regions;
use sheet::{Plan, Subject, read_sheet};
use std::io::{self, Read, Write};

/// One byte more than a sheet may have decides that it is too long.
const ENOUGH: u64 = 65_537;

/// Lines that are held before they are written.
const PAGE: usize = 1024;

/// Prints at most so many objects of the oracle below the cap, and the last line.
fn print<O: Coded>(oracle: O, cap: Option<u32>, most: u32, out: &mut impl Write) -> io::Result<()> {
    let cap = cap.unwrap_or(oracle.height());
    let mut pager = Pager::new(Cap::new(oracle, cap), most);
    let mut page = Vec::new();
    loop {
        let done = pager.page(&mut page, PAGE);
        out.write_all(&page)?;
        if done {
            return out.flush();
        }
        page.clear();
    }
}

/// Prints what the sheet asks for, or its fault.
fn run(sheet: &[u8], out: &mut impl Write) -> io::Result<()> {
    match read_sheet(sheet) {
        Ok(Plan { subject, cap, most }) => match subject {
            Subject::Regions(map) => print(Regions::new(map), cap, most, out),
            Subject::Polygon(polygon) => print(polygon, cap, most, out),
        },
        Err(fault) => writeln!(out, "{fault}"),
    }
}

fn main() -> io::Result<()> {
    let mut sheet = Vec::new();
    io::stdin().lock().take(ENOUGH).read_to_end(&mut sheet)?;
    run(&sheet, &mut io::stdout().lock())
}
