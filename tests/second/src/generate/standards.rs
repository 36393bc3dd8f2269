//! What a table has and what it has not: every standard of it, and lines at
//! the edges of one of a session's own.

use super::amendments::Form;
use super::full::at_the_limits;
use super::Script;
use crate::book::{FAMILIES, MAKERS};
use crate::figuring::{Figures, MAX_FCL, YEARS};
use crate::limits::Limits;
use crate::postings::{Call, Filing};
use crate::standards::{Table, COLUMN_USES};

/// Sets and uses that no table has.
const IN_NO_TABLE: [(u64, u64); 2] = [(0, 1), (1, 1)];

impl Script {
    /// A family of each set and use in each year, with a part that is its
    /// standard less 1: so small that no cell has a lot or a shortage. Editions
    /// 1 and 2 are named too where there are any, and one year on either side.
    pub(super) fn every_standard(&mut self) {
        for _ in 0..YEARS {
            let editions = if self.is_telling_year() { 0..3 } else { 0..1 };
            let uses = || COLUMN_USES.into_iter().chain(IN_NO_TABLE);
            let named = editions.flat_map(|edition| uses().map(move |column| (edition, column)));
            for (family, (edition, (set, usage))) in (0..).zip(named) {
                self.say(Call::File(Filing {
                    maker: self.lines as u64 % MAKERS as u64,
                    set,
                    year: self.book.open_year,
                    usage,
                    edition,
                    family,
                    figures: Figures {
                        fcl: 1,
                        cf: 1,
                        volume: 1,
                        life: 1,
                    },
                }));
            }
            self.close();
        }
    }

    /// Never under the built-in table.
    pub(super) fn standard_is_due(&mut self, seldom: u64) -> bool {
        self.own_table && self.rng.once_in(seldom)
    }

    /// A filing or an amendment of any set and use, whether the table has a
    /// standard there this year or not: 6, and no other before it. At times
    /// with one thing more that is refused after it; seldom a line of a table,
    /// which is no form here.
    pub(super) fn standard_line(&mut self) {
        if self.rng.once_in(30) {
            let text = self.table.to_string();
            return self.say_text(text.lines().next().unwrap_or_default().into());
        }
        let (form, mut filing) = self.of_any_use();
        if self.rng.once_in(8) {
            filing.figures = at_the_limits([1, MAX_FCL][self.rng.index(2)]);
        } else {
            filing.figures.fcl = self.telling_level(&filing);
        }
        match self.rng.below(16) {
            0 => filing.edition = 3,
            1 => filing.family = FAMILIES as u64,
            2 => filing.figures.life = 0,
            _ => {}
        }
        self.say(form(filing));
    }

    /// Half of the time where the table has nothing this year, if that is
    /// found soon.
    fn of_any_use(&mut self) -> (Form, Filing) {
        let year = self.book.open_year;
        let wanted = self.rng.once_in(2);
        let mut draws = 0..5;
        let (set, usage) = loop {
            let (set, usage) = match self.rng.below(20) {
                0 => IN_NO_TABLE[self.rng.index(IN_NO_TABLE.len())],
                _ => COLUMN_USES[self.rng.index(COLUMN_USES.len())],
            };
            let found = self.table.standard(set, usage, year).is_some() == wanted;
            if found || draws.next().is_none() {
                break (set, usage);
            }
        };
        let edition = self.near_edition(set, year);
        if let Some(filed) = self.some_filed().filter(|filed| filed.set == set) {
            let amended = Filing {
                usage,
                edition,
                ..filed
            };
            return (Call::Amend, amended);
        }
        let filing = Filing {
            maker: self.rng.below(MAKERS as u64),
            set,
            year,
            usage,
            edition,
            family: self.rng.below(FAMILIES as u64),
            figures: Figures {
                fcl: 1,
                cf: self.rng.between(110_000, 310_000),
                volume: self.rng.between(1, 9_000),
                life: self.rng.between(100, 500),
            },
        };
        match self.rng.below(4) {
            0 => (Call::Small, made_small(filing)),
            _ => (Call::File, filing),
        }
    }

    /// At the standard or one beside it: the family's own, that of the year
    /// before or after, the ordinary one, or the built-in one.
    fn telling_level(&mut self, filing: &Filing) -> u64 {
        let &Filing {
            set, year, usage, ..
        } = filing;
        let standard = match self.rng.below(6) {
            0 => self.table.standard(set, usage, year.saturating_sub(1)),
            1 => self.table.standard(set, usage, year + 1),
            2 => self.table.standard(set, usage, year),
            3 => Table::built_in().standard(set, usage, year),
            _ => Some(self.standard_of(filing)),
        };
        let level = standard.unwrap_or(600) + self.rng.below(3);
        level.saturating_sub(1).max(1)
    }
}

/// With a number and a volume of the small makers' entry.
fn made_small(mut filing: Filing) -> Filing {
    filing.family %= Limits::SMALL.number() + 1;
    filing.figures.volume = filing.figures.volume.min(Limits::SMALL.volume());
    filing
}
