//! The text of a table, the file `std.txt`: 24 lines of standards, a line a
//! year.

use crate::figuring::{FIRST_YEAR, YEARS};
use crate::postings::Refusal;
use crate::standards::{is_accepted_after, Row, Table};
use crate::text::{parse_row, Lines};
use std::fmt;
use std::io::{self, Read};

/// Bytes read at a time.
const CHUNK: usize = 4_096;

/// Reads a text to its end or to its first line at fault, which decides; of a
/// text of any size it holds no more than its table and a line.
pub fn read_table(mut text: impl Read) -> io::Result<Result<Table, Refusal>> {
    let mut chunk = [0; CHUNK];
    let mut reading = Reading::default();
    loop {
        match text.read(&mut chunk) {
            Ok(0) => return Ok(reading.table()),
            Ok(length) => {
                if let Err(refusal) = reading.feed(&chunk[..length]) {
                    return Ok(Err(refusal));
                }
            }
            Err(error) if error.kind() == io::ErrorKind::Interrupted => {}
            Err(error) => return Err(error),
        }
    }
}

/// A text as far as it was read, without fault.
#[derive(Default)]
struct Reading {
    lines: Lines,
    rows: Vec<Row>,
}

impl Reading {
    fn feed(&mut self, piece: &[u8]) -> Result<(), Refusal> {
        let Reading { lines, rows } = self;
        lines.feed(piece, |line| take_line(rows, line))
    }

    /// At the text's end, where a line that is missing is at fault.
    fn table(mut self) -> Result<Table, Refusal> {
        if let Some(line) = self.lines.last() {
            take_line(&mut self.rows, &line)?;
        }
        let rows = self.rows.try_into().map_err(|_| Refusal::StdLine)?;
        Ok(Table(rows))
    }
}

/// Of one line, its form and year are asked before its figures. A line more
/// than there are years is none of them, whatever it says.
fn take_line(rows: &mut Vec<Row>, line: &[u8]) -> Result<(), Refusal> {
    let due = FIRST_YEAR + rows.len() as u64;
    let row = match parse_row(line) {
        Some((year, row)) if year == due && rows.len() < YEARS => row,
        _ => return Err(Refusal::StdLine),
    };
    if !is_accepted_after(rows.last(), &row) {
        return Err(Refusal::Table);
    }
    rows.push(row);
    Ok(())
}

/// The text of a table.
impl fmt::Display for Table {
    fn fmt(&self, f: &mut fmt::Formatter<'_>) -> fmt::Result {
        for (year, [a, b, c, d, e, g]) in (FIRST_YEAR..).zip(&self.0) {
            writeln!(f, "(std {year} {a} {b} {c} {d} {e} {g})")?;
        }
        Ok(())
    }
}
