//! The listing of the cells, maker before set, at the end of a session.

use crate::book::{cell, Book, MAKERS, SETS};
use crate::figuring::{is_live, is_open, Mg, FIRST_YEAR, YEARS};
use std::io::{self, Write};

/// Lists each cell's lots above 0, then its shortages above 0, by year.
pub fn list(book: &Book, out: &mut impl Write) -> io::Result<()> {
    for maker in 0..MAKERS {
        for set in 0..SETS {
            let cell = cell(maker, set);
            for (year, mg) in above_zero(&book.lots[cell]) {
                let state = lot_state(book, year);
                writeln!(out, "(lot {maker} {set} {year} {state} {mg})")?;
            }
            for (year, mg) in above_zero(&book.shortages[cell]) {
                let state = shortage_state(book, year);
                writeln!(out, "(short {maker} {set} {year} {state} {mg})")?;
            }
        }
    }
    Ok(())
}

fn above_zero(years: &[Mg; YEARS]) -> impl Iterator<Item = (u64, Mg)> + '_ {
    (FIRST_YEAR..)
        .zip(years.iter().copied())
        .filter(|&(_, mg)| mg > Mg(0))
}

fn lot_state(book: &Book, vintage: u64) -> &'static str {
    if is_live(book.open_year, vintage) {
        "live"
    } else {
        "expired"
    }
}

fn shortage_state(book: &Book, year: u64) -> &'static str {
    if is_open(book.open_year, year) {
        "open"
    } else {
        "overdue"
    }
}
