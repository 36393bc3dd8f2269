//! Tables for testing: accepted ones, ones with a fault, and any others.

use super::rng::Rng;
use crate::figuring::YEARS;
use crate::standards::{Table, COLUMNS, GREATEST_STANDARD, LEAST_STANDARD};
use std::array;

/// How a table is made.
#[derive(Clone, Copy, Debug, PartialEq, Eq)]
pub enum Made {
    BuiltIn,
    /// Accepted, its columns falling and coming back by chance.
    Accepted,
    /// One of these but for an entry at an edge; accepted at times.
    Changed,
    /// Accepted, without any standard.
    Empty,
    /// Anything in every place.
    Wild,
}

impl Made {
    /// Most are accepted.
    pub fn drawn(rng: &mut Rng) -> Self {
        match rng.below(20) {
            0..=4 => Made::BuiltIn,
            5..=12 => Made::Accepted,
            13..=16 => Made::Changed,
            17 => Made::Empty,
            _ => Made::Wild,
        }
    }

    pub fn table(self, rng: &mut Rng) -> Table {
        match self {
            Made::BuiltIn => Table::built_in(),
            Made::Accepted => accepted(rng),
            Made::Changed => changed(rng),
            Made::Empty => Table([[0; COLUMNS]; YEARS]),
            Made::Wild => wild(rng),
        }
    }

    /// Whether it is meant to be accepted, where that is known.
    pub fn acceptance(self) -> Option<bool> {
        match self {
            Made::BuiltIn | Made::Accepted | Made::Empty => Some(true),
            Made::Changed => None,
            Made::Wild => Some(false),
        }
    }
}

pub fn accepted(rng: &mut Rng) -> Table {
    let columns: [[u64; YEARS]; COLUMNS] = array::from_fn(|_| column(rng));
    Table(array::from_fn(|year| columns.map(|column| column[year])))
}

fn column(rng: &mut Rng) -> [u64; YEARS] {
    match rng.below(16) {
        0 => [0; YEARS],
        1 => [GREATEST_STANDARD; YEARS],
        2 => [LEAST_STANDARD; YEARS],
        _ => {
            let mut entry = 0;
            array::from_fn(|_| {
                entry = next(rng, entry);
                entry
            })
        }
    }
}

/// What may stand in the year after an entry: the same most often, one that
/// fell, none; after none, anything.
fn next(rng: &mut Rng, before: u64) -> u64 {
    if before == 0 {
        return match rng.below(16) {
            0..=4 => 0,
            5 => GREATEST_STANDARD,
            6 => LEAST_STANDARD,
            _ => rng.between(LEAST_STANDARD, GREATEST_STANDARD),
        };
    }
    let fallen = match rng.below(40) {
        0 | 1 => return 0,
        2 => LEAST_STANDARD,
        3 => rng.between(LEAST_STANDARD, before),
        4..=7 => before - 1,
        8..=17 => before - rng.between(1, 30),
        _ => before,
    };
    fallen.max(LEAST_STANDARD)
}

/// The built-in table or an accepted one, but for one entry.
pub fn changed(rng: &mut Rng) -> Table {
    let mut table = match rng.below(2) {
        0 => Table::built_in(),
        _ => accepted(rng),
    };
    change(rng, &mut table);
    table
}

/// Puts an entry at an edge, so that it or the one after it may be refused.
fn change(rng: &mut Rng, table: &mut Table) {
    let year = match rng.below(4) {
        0 => YEARS - 1,
        1 => 0,
        _ => rng.index(YEARS),
    };
    let column = rng.index(COLUMNS);
    let at = |year: Option<usize>| year.and_then(|year| Some(table.0.get(year)?[column]));
    let before = at(year.checked_sub(1)).unwrap_or(GREATEST_STANDARD);
    let after = at(Some(year + 1)).unwrap_or(LEAST_STANDARD);
    let now = table.0[year][column];
    table.0[year][column] = match rng.below(20) {
        0..=2 => LEAST_STANDARD - 1,
        3..=5 => GREATEST_STANDARD + 1,
        6 => LEAST_STANDARD,
        7 => GREATEST_STANDARD,
        // No rise, unless the year before that was lower and not none.
        8 => before,
        9..=11 => before + 1,
        // The year after it rises by one, if there is a standard then.
        12..=14 => after.saturating_sub(1),
        15 => 0,
        16 => 1,
        _ => huge(rng, now),
    };
}

/// A number that a narrower type would take for `now`, or a far one.
fn huge(rng: &mut Rng, now: u64) -> u64 {
    match rng.below(7) {
        0 => now + (1 << 8),
        1 => now + (1 << 16),
        2 => now + (1 << 32),
        3 => now + (1 << 63),
        4 => 999_999_999_999,
        5 => u64::MAX,
        _ => rng.draw(),
    }
}

fn wild(rng: &mut Rng) -> Table {
    let rows = array::from_fn(|_| array::from_fn(|_| rng.draw()));
    Table(rows)
}
