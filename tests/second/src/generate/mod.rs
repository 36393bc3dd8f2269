//! Sessions for testing, the same ones for the same kind, seed, length and
//! table; and tables and books, and texts of them.

mod amendments;
mod bends;
mod bent;
mod book_bends;
pub mod book_texts;
pub mod books;
mod covers;
mod editions;
mod full;
mod halves;
mod hostile;
mod lines;
mod refusals;
pub mod rng;
pub mod small;
mod standards;
mod std_bends;
pub mod std_texts;
pub mod tables;
mod years;

use crate::book::{Book, CELLS};
use crate::postings::{post, Call};
use crate::standards::Table;
use crate::text::parse;
use amendments::Families;
use rng::Rng;
use std::fmt;
use std::ops::RangeInclusive;
use std::str::FromStr;

/// The years of the alternative standards and one on either side, in which an
/// edition tells most.
pub const TELLING_YEARS: RangeInclusive<u64> = 2023..=2027;

#[derive(Clone, Copy, Debug, PartialEq, Eq)]
pub enum Kind {
    /// Realistic years, most lines accepted.
    Years,
    /// Every refusal, limit edges, near-forms, overlong and binary lines.
    Hostile,
    /// Years and hostile lines in turn.
    Mixed,
    /// Every family of every cell in all years.
    Full,
    /// Realistic lines in number.
    Bench,
    /// One year filed whole, and its close.
    Single,
    /// Every set and use of every year, by figures that show the standard.
    Standards,
}

const NAMES: [(&str, Kind); 7] = [
    ("years", Kind::Years),
    ("hostile", Kind::Hostile),
    ("mixed", Kind::Mixed),
    ("full", Kind::Full),
    ("bench", Kind::Bench),
    ("single", Kind::Single),
    ("standards", Kind::Standards),
];

impl Kind {
    /// The length when none is asked for; `full`, `single` and `standards` have
    /// their own.
    pub fn usual_lines(self) -> usize {
        match self {
            Kind::Years => 6_000,
            Kind::Hostile | Kind::Mixed => 3_000,
            Kind::Bench => 100_000,
            Kind::Full | Kind::Single | Kind::Standards => 0,
        }
    }
}

impl FromStr for Kind {
    type Err = ();

    fn from_str(text: &str) -> Result<Self, ()> {
        let named = NAMES.iter().find(|(name, _)| *name == text);
        named.map(|&(_, kind)| kind).ok_or(())
    }
}

impl fmt::Display for Kind {
    fn fmt(&self, f: &mut fmt::Formatter<'_>) -> fmt::Result {
        let named = NAMES.iter().find(|(_, kind)| kind == self);
        f.write_str(named.map_or("", |(name, _)| name))
    }
}

/// A session's whole input, aimed at the built-in table.
pub fn session(kind: Kind, seed: u64, lines: usize) -> Vec<u8> {
    session_under(&Table::built_in(), kind, seed, lines)
}

/// A session's whole input, aimed at an accepted table. Under one of its own it
/// also has lines at the edges of that.
pub fn session_under(table: &Table, kind: Kind, seed: u64, lines: usize) -> Vec<u8> {
    session_on(&Book::fresh(), table, kind, seed, lines)
}

/// The same begun on a sound book.
pub fn session_on(book: &Book, table: &Table, kind: Kind, seed: u64, lines: usize) -> Vec<u8> {
    let mut script = Script::begun(book.clone(), table.clone(), seed);
    match kind {
        Kind::Years | Kind::Bench => script.years(lines),
        Kind::Hostile => script.hostile(lines),
        Kind::Mixed => script.mixed(lines),
        Kind::Full => script.full(seed % 2 == 1),
        Kind::Single => script.single_year(),
        Kind::Standards => script.every_standard(),
    }
    script.text
}

/// A session being written, with the book as it stands after its lines.
struct Script {
    book: Book,
    table: Table,
    /// The table isn't the built-in one.
    own_table: bool,
    rng: Rng,
    text: Vec<u8>,
    lines: usize,
    /// Cells that rarely cover their shortages.
    careless: [bool; CELLS],
    /// Cells that leave their shortages to covers, and in how many pieces they
    /// buy what these move.
    coverers: [bool; CELLS],
    pieces: u64,
    /// How far a cell's levels lie from the standard this year, g/hp-hr.
    leaning: [i64; CELLS],
    families: Families,
}

impl Script {
    fn begun(book: Book, table: Table, seed: u64) -> Self {
        let mut rng = Rng::new(seed);
        let careless = std::array::from_fn(|_| rng.once_in(16));
        let mut script = Script {
            families: Families::opened(&book, &table),
            book,
            own_table: table != Table::built_in(),
            table,
            rng,
            text: Vec::new(),
            lines: 0,
            careless,
            coverers: [false; CELLS],
            pieces: 1,
            leaning: [0; CELLS],
        };
        script.lean();
        script
    }

    /// Draws every cell's leaning for a new year; about a fourth close short, and
    /// of those that leave it to covers most.
    fn lean(&mut self) {
        for (leaning, &coverer) in self.leaning.iter_mut().zip(&self.coverers) {
            let shift = if coverer { 10 } else { 30 };
            *leaning = self.rng.between(0, 40) as i64 - shift;
        }
    }

    fn say(&mut self, call: Call) {
        let line = call.to_string();
        self.say_bytes(line.as_bytes());
    }

    /// Writes a line whatever its bytes and keeps the book in step.
    fn say_bytes(&mut self, line: &[u8]) {
        self.text.extend_from_slice(line);
        self.text.push(b'\n');
        self.lines += 1;
        if let Some(call) = parse(line) {
            if post(&mut self.book, &self.table, &call).is_ok() {
                self.families.take(&call);
            }
        }
    }

    fn close(&mut self) {
        let year = self.book.open_year;
        self.say(Call::Close { year });
        self.lean();
    }
}
