//! Every family of every cell: a single year, and all years.

use super::editions::edition_in_turn;
use super::years::names;
use super::Script;
use crate::book::{CELLS, FAMILIES};
use crate::figuring::{Figures, MAX_CF, MAX_FCL, MAX_LIFE, MAX_VOLUME, YEARS};
use crate::postings::{Call, Filing};

const POSTINGS_A_YEAR: usize = 100;

/// How a cell's levels lie in a full year.
#[derive(Clone, Copy)]
enum Levels {
    Plausible,
    /// Every limit at its largest credit.
    Lowest,
    /// Every limit at its largest debit.
    Highest,
}

impl Script {
    /// All 24 years; `extreme` ones take figures from the ends of the limits
    /// in some sets and years.
    pub(super) fn full(&mut self, extreme: bool) {
        for _ in 0..YEARS {
            self.file_every_family(extreme);
            self.close();
            for _ in 0..POSTINGS_A_YEAR {
                self.plausible_line_after_close();
            }
        }
    }

    pub(super) fn single_year(&mut self) {
        self.file_every_family(false);
        self.close();
    }

    fn file_every_family(&mut self, extreme: bool) {
        for cell in 0..CELLS {
            let levels = match self.rng.below(8) {
                0 if extreme => Levels::Highest,
                1..=5 if extreme => Levels::Lowest,
                _ => Levels::Plausible,
            };
            for family in 0..FAMILIES as u64 {
                self.file_family(cell, family, levels);
            }
        }
    }

    fn file_family(&mut self, cell: usize, family: u64, levels: Levels) {
        let (maker, set) = names(cell);
        let year = self.book.open_year;
        let usage = match levels {
            Levels::Plausible => family % 2,
            Levels::Lowest => 0,
            Levels::Highest => 1,
        };
        let usage = if set >= 2 { usage } else { 0 };
        let edition = edition_in_turn(family, set, year);
        let Some(standard) = self.table.named_standard(edition, set, usage, year) else {
            return;
        };
        let figures = match levels {
            Levels::Lowest => at_the_limits(1),
            Levels::Highest => at_the_limits(MAX_FCL),
            Levels::Plausible => Figures {
                fcl: (standard as i64 + self.leaning[cell] + self.rng.below(11) as i64 - 5).max(1)
                    as u64,
                cf: self.rng.between(110_000, 310_000),
                volume: self.rng.between(1, 9_000),
                life: self.rng.pick(&[110, 150, 185, 435]).copied().unwrap_or(110),
            },
        };
        self.say(Call::File(Filing {
            maker,
            set,
            year,
            usage,
            edition,
            family,
            figures,
        }));
    }

    /// A trade, application or retirement, so that the next year's families
    /// are all still to be filed.
    fn plausible_line_after_close(&mut self) {
        match self.plausible_posting() {
            Some(call) => self.say(call),
            None => self.hopeful_posting(),
        }
    }
}

pub(super) fn at_the_limits(fcl: u64) -> Figures {
    Figures {
        fcl,
        cf: MAX_CF,
        volume: MAX_VOLUME,
        life: MAX_LIFE,
    }
}
