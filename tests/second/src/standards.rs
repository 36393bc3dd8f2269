//! Standards: tables of 24 years by 6 columns, and the two alternative
//! editions.

use crate::figuring::{year_index, FIRST_YEAR, YEARS};
use std::array;

pub const COLUMNS: usize = 6;
/// The limits of an entry, g/hp-hr; 0 stands for none.
pub const LEAST_STANDARD: u64 = 432;
pub const GREATEST_STANDARD: u64 = 769;

/// The set and the use of each column: set 0, set 1, medium vocational, heavy
/// vocational, medium tractor, heavy tractor.
pub const COLUMN_USES: [(u64, u64); COLUMNS] = [(0, 0), (1, 0), (2, 0), (3, 0), (2, 1), (3, 1)];

/// The figures of one year.
pub type Row = [u64; COLUMNS];

/// The ordinary standards that a call is handed, by year; any figures whatever.
#[derive(Clone, Debug, PartialEq, Eq)]
pub struct Table(pub [Row; YEARS]);

/// The paper's table: the first year of a period, and its row.
const PRINTED: [(u64, Row); 6] = [
    (2014, [0, 600, 600, 567, 502, 475]),
    (2016, [627, 600, 600, 567, 502, 475]),
    (2017, [627, 576, 576, 555, 487, 460]),
    (2021, [627, 563, 545, 513, 473, 447]),
    (2024, [627, 555, 538, 506, 461, 436]),
    (2027, [627, 552, 535, 503, 457, 432]),
];

impl Table {
    pub fn built_in() -> Self {
        Table(array::from_fn(|index| {
            let year = FIRST_YEAR + index as u64;
            let period = PRINTED.iter().rfind(|(first, _)| *first <= year);
            period.map_or([0; COLUMNS], |&(_, row)| row)
        }))
    }

    pub fn is_accepted(&self) -> bool {
        let before = [None].into_iter().chain(self.0.iter().map(Some));
        before
            .zip(&self.0)
            .all(|(before, row)| is_accepted_after(before, row))
    }

    /// The ordinary standard in g/hp-hr, or none.
    pub fn standard(&self, set: u64, usage: u64, year: u64) -> Option<u64> {
        let entry = self.0[year_index(year)?][column(set, usage)?];
        (entry != 0).then_some(entry)
    }

    /// The standard that a filing names by its edition: 0 this table's, 1 and
    /// 2 the alternative one of 1036.150(p)(2), by the earlier table and the
    /// later, whatever this one has.
    pub fn named_standard(&self, edition: u64, set: u64, usage: u64, year: u64) -> Option<u64> {
        match edition {
            0 => self.standard(set, usage, year),
            _ => alternative_standard(edition, set, usage, year),
        }
    }
}

/// Whether a row keeps the limits and nowhere rises over the year before,
/// unless from 0.
pub fn is_accepted_after(before: Option<&Row>, row: &Row) -> bool {
    let within = |entry: u64| entry == 0 || (LEAST_STANDARD..=GREATEST_STANDARD).contains(&entry);
    let rises = |from: u64, to: u64| from != 0 && to > from;
    row.iter().all(|&entry| within(entry))
        && before.is_none_or(|before| !before.iter().zip(row).any(|(&from, &to)| rises(from, to)))
}

fn column(set: u64, usage: u64) -> Option<usize> {
    COLUMN_USES
        .iter()
        .position(|&column| column == (set, usage))
}

/// In the last four columns, 2024 to 2026; none of another edition than 1 and 2.
pub fn alternative_standard(edition: u64, set: u64, usage: u64, year: u64) -> Option<u64> {
    let figures = match edition {
        1 => [538, 506, 467, 442],
        2 => [542, 510, 467, 442],
        _ => return None,
    };
    let place = column(set, usage)?.checked_sub(COLUMNS - figures.len())?;
    (2024..=2026).contains(&year).then(|| figures[place])
}
