//! A family's part, rounding, and the life of lots and shortages.

use std::cmp::Ordering;
use std::fmt;

pub const FIRST_YEAR: u64 = 2014;
pub const LAST_YEAR: u64 = 2037;
/// The open year of a book whose years are all closed.
pub const ALL_CLOSED: u64 = LAST_YEAR + 1;
pub const YEARS: usize = 24;

pub const MAX_FCL: u64 = 1_200;
pub const MAX_CF: u64 = 1_000_000;
pub const MAX_VOLUME: u64 = 100_000;
pub const MAX_LIFE: u64 = 500;

/// Part units in one Mg.
pub const PARTS_IN_A_MG: i64 = 100_000_000;
/// Part units in half a Mg.
pub const HALF_A_MG: i64 = PARTS_IN_A_MG / 2;

/// Credits of one family, signed, in units of 10^-8 Mg.
#[derive(Clone, Copy, Debug, Default, PartialEq, Eq, PartialOrd, Ord)]
pub struct Part(pub i64);

/// Whole Mg of CO2.
#[derive(Clone, Copy, Debug, Default, PartialEq, Eq, PartialOrd, Ord)]
pub struct Mg(pub u64);

impl fmt::Display for Part {
    fn fmt(&self, f: &mut fmt::Formatter<'_>) -> fmt::Result {
        self.0.fmt(f)
    }
}

impl fmt::Display for Mg {
    fn fmt(&self, f: &mut fmt::Formatter<'_>) -> fmt::Result {
        self.0.fmt(f)
    }
}

/// What a family is certified and sold with.
#[derive(Clone, Copy, Debug, PartialEq, Eq)]
pub struct Figures {
    /// Certified level, g/hp-hr.
    pub fcl: u64,
    /// Conversion factor, hundred-thousandths of a hp-hr per mile.
    pub cf: u64,
    /// Engines.
    pub volume: u64,
    /// Thousands of miles.
    pub life: u64,
}

impl Figures {
    pub fn within_limits(&self) -> bool {
        (1..=MAX_FCL).contains(&self.fcl)
            && (1..=MAX_CF).contains(&self.cf)
            && (1..=MAX_VOLUME).contains(&self.volume)
            && (1..=MAX_LIFE).contains(&self.life)
    }
}

/// The family's part, or none if a figure is outside its limits. Within them,
/// and with a standard of an accepted table or an edition, it is at most 768 x
/// 5 x 10^13 on either side of zero; of a standard far above these there may be
/// no part of 64 bits.
pub fn part(standard: u64, figures: &Figures) -> Option<Part> {
    if !figures.within_limits() {
        return None;
    }
    let margin = i128::from(standard) - i128::from(figures.fcl);
    let part = margin * i128::from(figures.cf * figures.volume * figures.life);
    i64::try_from(part).ok().map(Part)
}

/// A sum of parts rounded to the nearest Mg, signed; an exact half goes to the
/// even one of the two Mg it lies between.
pub fn rounded(sum: i128) -> i128 {
    let mg = i128::from(PARTS_IN_A_MG);
    let (below, rest) = (sum.div_euclid(mg), sum.rem_euclid(mg));
    match rest.cmp(&i128::from(HALF_A_MG)) {
        Ordering::Less => below,
        Ordering::Equal => below + below.rem_euclid(2),
        Ordering::Greater => below + 1,
    }
}

/// How many years the book has been open past `year`, counted for the years
/// from 2014 to the one before the open year.
fn age(open_year: u64, year: u64) -> Option<u64> {
    (FIRST_YEAR..open_year)
        .contains(&year)
        .then(|| open_year - year)
}

pub fn is_live(open_year: u64, vintage: u64) -> bool {
    age(open_year, vintage).is_some_and(|age| age <= 6)
}

pub fn is_expired(open_year: u64, vintage: u64) -> bool {
    age(open_year, vintage).is_some_and(|age| age > 6)
}

pub fn is_open(open_year: u64, shortage_year: u64) -> bool {
    age(open_year, shortage_year).is_some_and(|age| age <= 4)
}

pub fn is_overdue(open_year: u64, shortage_year: u64) -> bool {
    age(open_year, shortage_year).is_some_and(|age| age > 4)
}

/// The place of a year 2014 to 2037 in the book's arrays.
pub fn year_index(year: u64) -> Option<usize> {
    (FIRST_YEAR..=LAST_YEAR)
        .contains(&year)
        .then(|| (year - FIRST_YEAR) as usize)
}
