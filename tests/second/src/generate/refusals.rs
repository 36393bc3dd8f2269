//! Calls that are refused, or accepted by a step, for every refusal's sake.

use super::small::limits_of;
use super::years::{index, names};
use super::Script;
use crate::book::{CELLS, MAKERS};
use crate::figuring::{Figures, Mg, FIRST_YEAR, MAX_CF, MAX_FCL, MAX_LIFE, MAX_VOLUME};
use crate::postings::{Application, Call, Filing, Retirement, Trade};

impl Script {
    pub(super) fn refusal(&mut self) {
        let call = match self.rng.below(8) {
            0 => return self.file_nothing_twice(),
            1 | 2 => self.filing_at_a_limit(),
            3 | 4 => self.covering_at_a_limit(),
            _ => None,
        };
        let call = call.unwrap_or_else(|| self.refusable_call());
        self.say(call);
    }

    /// A filing with part 0, and the same family once more, whatever edition
    /// that names: refusal 9.
    fn file_nothing_twice(&mut self) {
        let Some(mut filing) = self.plausible_large() else {
            return;
        };
        let Filing { set, year, .. } = filing;
        filing.figures.fcl = self.standard_of(&filing);
        self.say(Call::File(filing));
        filing.figures.fcl -= 1;
        filing.edition = self.fitting_edition(set, year);
        self.say(Call::File(filing));
    }

    /// A plausible filing or amendment but for one figure at or one step
    /// beside a limit of its form's.
    fn filing_at_a_limit(&mut self) -> Option<Call> {
        let (form, mut filing) = self.plausible_figures()?;
        let limits = limits_of(&form(filing));
        let outside = self.rng.below(2);
        let largest = self.rng.once_in(2);
        let edge = |low: u64, high: u64| {
            if largest {
                high + outside
            } else {
                low - outside
            }
        };
        match self.rng.below(6) {
            0 => filing.figures.fcl = edge(1, MAX_FCL),
            1 | 2 => filing.figures.cf = self.telling_cf(),
            3 => filing.figures.volume = edge(1, limits.volume()),
            4 => filing.figures.life = edge(1, MAX_LIFE),
            _ => filing.family = limits.number() + outside,
        }
        Some(form(filing))
    }

    /// A CF at an end of its limits or one step beside it, or where they ended
    /// while CF had four decimals.
    fn telling_cf(&mut self) -> u64 {
        let old_end = MAX_CF / 10;
        let telling = [0, 1, old_end, old_end + 1, MAX_CF - 1, MAX_CF, MAX_CF + 1];
        telling[self.rng.index(telling.len())]
    }

    /// An application with an amount at or one step above the lot or the
    /// shortage.
    fn covering_at_a_limit(&mut self) -> Option<Call> {
        let (cell, vintage, year) = (0..60).find_map(|_| {
            let cell = self.rng.index(CELLS);
            let years = self.open_shortages(cell);
            let year = *self.rng.pick(&years)?;
            Some((cell, self.some_live_lot(cell)?, year))
        })?;
        let (maker, set) = names(cell);
        let lot = self.book.lots[cell][index(vintage)];
        let shortage = self.book.shortages[cell][index(year)];
        let figure = if self.rng.once_in(2) { lot } else { shortage };
        Some(Call::Apply(Application {
            maker,
            set,
            vintage,
            year,
            mg: figure.0 + self.rng.below(2),
        }))
    }

    /// A call whose arguments lie within a step of being accepted, so that
    /// several refusals concern it and their order shows.
    pub(super) fn refusable_call(&mut self) -> Call {
        match self.rng.below(62) {
            0 => Call::Close {
                year: self.near_open_year(),
            },
            1..=8 => Call::File(self.near_filing()),
            9..=12 => Call::Small(self.near_small()),
            13..=20 => Call::Amend(self.near_amendment()),
            21..=32 => Call::Trade(self.near_trade()),
            33..=46 => Call::Apply(self.near_application()),
            47..=50 => Call::Cover(self.near_cover()),
            _ => Call::Retire(self.near_retirement()),
        }
    }

    pub(super) fn near_filing(&mut self) -> Filing {
        let (set, year) = (self.near(0, 3), self.near_open_year());
        Filing {
            maker: self.near(0, 7),
            set,
            year,
            usage: self.near(0, 1),
            edition: self.near_edition(set, year),
            family: self.near(0, 63),
            figures: Figures {
                fcl: self.near(1, MAX_FCL),
                cf: self.near(1, MAX_CF),
                volume: self.near(1, MAX_VOLUME),
                life: self.near(1, MAX_LIFE),
            },
        }
    }

    fn near_trade(&mut self) -> Trade {
        let cell = self.telling_cell();
        let (maker, set) = names(cell);
        let vintage = self.telling_year(cell, 7);
        let to = if self.rng.once_in(6) {
            maker
        } else {
            self.near(0, 7)
        };
        Trade {
            from: self.seldom_other(maker, MAKERS as u64),
            to,
            set: self.seldom_other(set, 4),
            vintage,
            mg: self.telling_amount(cell, vintage),
        }
    }

    fn near_application(&mut self) -> Application {
        let cell = self.telling_cell();
        let (maker, set) = names(cell);
        let vintage = self.telling_year(cell, 7);
        let year = self.telling_year(cell, 5);
        let paying = if self.rng.once_in(2) { vintage } else { year };
        Application {
            maker: self.seldom_other(maker, MAKERS as u64),
            set: self.seldom_other(set, 4),
            vintage,
            year,
            mg: self.telling_amount(cell, paying),
        }
    }

    fn near_retirement(&mut self) -> Retirement {
        let cell = self.telling_cell();
        let (maker, set) = names(cell);
        let vintage = self.telling_year(cell, 7);
        Retirement {
            maker: self.seldom_other(maker, MAKERS as u64),
            set: self.seldom_other(set, 4),
            vintage,
            mg: self.telling_amount(cell, vintage),
        }
    }

    /// A cell that has a lot or a shortage, if one is found soon.
    pub(super) fn telling_cell(&mut self) -> usize {
        let found = (0..10).find_map(|_| {
            let cell = self.rng.index(CELLS);
            let mut figures = self.book.lots[cell]
                .iter()
                .chain(&self.book.shortages[cell]);
            figures.any(|&mg| mg > Mg(0)).then_some(cell)
        });
        found.unwrap_or(0)
    }

    /// A year with a figure in the cell, or one at an edge of its life,
    /// `life` years before the open one.
    fn telling_year(&mut self, cell: usize, life: u64) -> u64 {
        let open_year = self.book.open_year;
        match self.rng.below(12) {
            0 => open_year,
            1 => open_year + 1,
            2 => open_year - 1,
            3 => open_year - life,
            4 => open_year - life + 1,
            5 => self.near(FIRST_YEAR, 2037),
            _ => {
                let figures = self.book.lots[cell].iter().zip(&self.book.shortages[cell]);
                let years: Vec<u64> = (FIRST_YEAR..)
                    .zip(figures)
                    .filter(|(_, (&lot, &shortage))| lot.max(shortage) > Mg(0))
                    .map(|(year, _)| year)
                    .collect();
                self.rng.pick(&years).copied().unwrap_or(open_year - 1)
            }
        }
    }

    /// 0, or an amount around the cell's lot or shortage of a year.
    fn telling_amount(&mut self, cell: usize, year: u64) -> u64 {
        let index = year.saturating_sub(FIRST_YEAR) as usize;
        let figures = if self.rng.once_in(2) {
            &self.book.lots
        } else {
            &self.book.shortages
        };
        let figure = figures[cell].get(index).map_or(0, |mg| mg.0);
        match self.rng.below(8) {
            0 => 0,
            1 => 1,
            2 => figure.saturating_sub(1),
            3 => figure,
            4 => figure + 1,
            _ => self.rng.between(1, figure.max(1)),
        }
    }

    fn near_open_year(&mut self) -> u64 {
        match self.rng.below(12) {
            0 => self.book.open_year - 1,
            1 => self.book.open_year + 1,
            2 => 2038,
            _ => self.book.open_year,
        }
    }

    /// Mostly within the limits, often at one, seldom one step outside.
    pub(super) fn near(&mut self, low: u64, high: u64) -> u64 {
        match self.rng.below(36) {
            0 => low.saturating_sub(1),
            1 => high + 1,
            2..=4 => low,
            5..=7 => high,
            _ => self.rng.between(low, high),
        }
    }

    pub(super) fn seldom_other(&mut self, usual: u64, limit: u64) -> u64 {
        match self.rng.below(16) {
            0 => self.rng.below(limit),
            1 => limit,
            _ => usual,
        }
    }
}
