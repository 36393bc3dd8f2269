//! Realistic years: filings, closings, and what makers do with their lots.

use super::Script;
use crate::book::{cell, CELLS, FAMILIES, MAKERS, SETS};
use crate::figuring::{is_live, is_open, Figures, Mg, ALL_CLOSED, FIRST_YEAR, YEARS};
use crate::postings::{Application, Call, Filing, Retirement, Trade};

/// 24 years and the time after the last.
const SPANS: usize = YEARS + 1;
/// Cells brought to a half before a year's close, at two lines each, now and
/// then three.
const HALVES: usize = 3;

impl Script {
    pub(super) fn years(&mut self, lines: usize) {
        self.draw_coverers(lines / SPANS);
        for span in 1..=SPANS {
            let end = lines * span / SPANS;
            while self.lines + 2 * HALVES + 1 < end {
                self.plausible_line();
            }
            for _ in 0..HALVES {
                if self.lines + 4 <= end {
                    self.land_on_a_half();
                }
            }
            if self.lines + 2 <= end && self.rng.once_in(2) {
                self.amend_before_the_close();
            }
            if self.lines + 2 <= end && self.rng.once_in(2) {
                self.cover_before_the_close();
            }
            if span < SPANS && self.lines < end {
                self.close();
            }
        }
        while self.lines < lines {
            self.plausible_line();
        }
    }

    /// A line as a terminal sees it on an ordinary day.
    pub(super) fn plausible_line(&mut self) {
        if self.standard_is_due(12) {
            return self.standard_line();
        }
        let call = match self.rng.below(64) {
            0..=7 => self
                .plausible_amendment()
                .or_else(|| self.plausible_filing()),
            8..=12 => self.plausible_cover().or_else(|| self.plausible_posting()),
            13..=39 => self.plausible_filing().or_else(|| self.plausible_posting()),
            _ => self.plausible_posting().or_else(|| self.plausible_filing()),
        };
        match call {
            Some(call) => self.say(call),
            None => self.hopeful_posting(),
        }
    }

    /// Once in four by the small makers' entry.
    pub(super) fn plausible_filing(&mut self) -> Option<Call> {
        let small = match self.rng.below(4) {
            0 => self.plausible_small(),
            _ => None,
        };
        match small {
            Some(filing) => Some(Call::Small(filing)),
            None => self.plausible_large().map(Call::File),
        }
    }

    pub(super) fn plausible_large(&mut self) -> Option<Filing> {
        let cell_named = self.rng.index(CELLS);
        let (maker, set) = names(cell_named);
        let year = self.book.open_year;
        if year == ALL_CLOSED {
            return None;
        }
        let usage = if set >= 2 { self.rng.below(2) } else { 0 };
        let edition = self.plausible_edition(set, year);
        let named = self.table.named_standard(edition, set, usage, year);
        let standard = named.or_else(|| self.table.standard(set, usage, year))?;
        let family = self.plausible_family(cell_named)?;
        let leaning = self.leaning[cell_named];
        let level = standard as i64 + leaning + self.rng.below(11) as i64 - 5;
        let (cf, life) = match set {
            0 => (self.rng.between(110_000, 140_000), 110),
            1 => (
                self.rng.between(140_000, 180_000),
                if year < 2021 { 110 } else { 150 },
            ),
            2 => (self.rng.between(170_000, 220_000), 185),
            _ => (self.rng.between(260_000, 310_000), 435),
        };
        Some(Filing {
            maker,
            set,
            year,
            usage,
            edition,
            family,
            figures: Figures {
                fcl: level.max(1) as u64,
                cf,
                volume: self.rng.between(1, 30) * self.rng.between(1, 300),
                life,
            },
        })
    }

    /// A family not yet filed in the cell, now and then one that is.
    fn plausible_family(&mut self, cell: usize) -> Option<u64> {
        let mark = self.book.marks[cell];
        let again = self.rng.once_in(25) && mark != 0;
        let wanted = if again { mark } else { !mark };
        let families: Vec<u64> = (0..FAMILIES as u64)
            .filter(|family| wanted >> family & 1 == 1)
            .collect();
        self.rng.pick(&families).copied()
    }

    pub(super) fn plausible_posting(&mut self) -> Option<Call> {
        (0..20).find_map(|_| {
            let cell = self.rng.index(CELLS);
            match self.open_shortages(cell).as_slice() {
                [] if !self.is_short(cell) => self.use_lot(cell),
                years if !years.is_empty() && (!self.careless[cell] || self.rng.once_in(30)) => {
                    let year = *self.rng.pick(years)?;
                    self.pay(cell, year)
                }
                // A short maker tries to sell: refusal 13.
                _ if self.rng.once_in(12) => self.use_lot(cell),
                _ => None,
            }
        })
    }

    /// Applies a lot of the cell's own to the shortage, or buys one. A cell that
    /// leaves its shortages to covers seldom applies, and pays in pieces.
    pub(super) fn pay(&mut self, short_cell: usize, year: u64) -> Option<Call> {
        let (maker, set) = names(short_cell);
        let shortage = self.book.shortages[short_cell][index(year)];
        let coverer = self.coverers[short_cell];
        let pieces = if coverer { self.pieces } else { 1 };
        let piece = |lot: Mg| Mg(lot.min(shortage).0.div_ceil(pieces));
        let own = if coverer && !self.rng.once_in(12) {
            None
        } else {
            self.some_live_lot(short_cell)
        };
        if let Some(vintage) = own {
            let lot = self.book.lots[short_cell][index(vintage)];
            let mg = self.amount(piece(lot));
            return Some(Call::Apply(Application {
                maker,
                set,
                vintage,
                year,
                mg,
            }));
        }
        let seller = self.rng.below(MAKERS as u64);
        let selling = cell(seller as usize, set as usize);
        let vintage = self.some_live_lot(selling)?;
        let lot = self.book.lots[selling][index(vintage)];
        Some(Call::Trade(Trade {
            from: seller,
            to: maker,
            set,
            vintage,
            mg: self.amount(piece(lot)),
        }))
    }

    /// Sells or retires some of a live lot.
    fn use_lot(&mut self, cell: usize) -> Option<Call> {
        let (maker, set) = names(cell);
        let vintage = self.some_live_lot(cell)?;
        let lot = self.book.lots[cell][index(vintage)];
        let some = Mg(lot.0.div_ceil(8));
        if self.rng.once_in(4) {
            let mg = self.amount(some);
            return Some(Call::Retire(Retirement {
                maker,
                set,
                vintage,
                mg,
            }));
        }
        let share = if self.rng.once_in(10) { lot } else { some };
        Some(Call::Trade(Trade {
            from: maker,
            to: (maker + self.rng.between(1, 7)) % MAKERS as u64,
            set,
            vintage,
            mg: self.amount(share),
        }))
    }

    /// A trade that most likely has nothing to sell.
    pub(super) fn hopeful_posting(&mut self) {
        let open_year = self.book.open_year;
        let trade = Trade {
            from: self.rng.below(8),
            to: self.rng.below(8),
            set: self.rng.below(4),
            vintage: open_year.saturating_sub(self.rng.below(9)),
            mg: self.rng.between(1, 1_000),
        };
        self.say(Call::Trade(trade));
    }

    /// Most often some of it, often all, seldom one Mg too many.
    fn amount(&mut self, most: Mg) -> u64 {
        match self.rng.below(30) {
            0 => most.0 + 1,
            1..=5 => most.0,
            _ => self.rng.between(1, most.0.max(1)),
        }
    }

    pub(super) fn some_live_lot(&mut self, cell: usize) -> Option<u64> {
        let live = self.live_lots(cell);
        self.rng.pick(&live).copied()
    }

    pub(super) fn live_lots(&self, cell: usize) -> Vec<u64> {
        let open_year = self.book.open_year;
        years_above_zero(&self.book.lots[cell], |v| is_live(open_year, v))
    }

    pub(super) fn is_short(&self, cell: usize) -> bool {
        self.book.shortages[cell].iter().any(|&mg| mg > Mg(0))
    }

    pub(super) fn open_shortages(&self, cell: usize) -> Vec<u64> {
        let open_year = self.book.open_year;
        years_above_zero(&self.book.shortages[cell], |y| is_open(open_year, y))
    }
}

/// The maker and the set of a cell.
pub(super) fn names(cell: usize) -> (u64, u64) {
    ((cell / SETS) as u64, (cell % SETS) as u64)
}

/// The place of a year that is known to be in the book.
pub(super) fn index(year: u64) -> usize {
    (year.saturating_sub(FIRST_YEAR) as usize).min(YEARS - 1)
}

fn years_above_zero(years: &[Mg; YEARS], wanted: impl Fn(u64) -> bool) -> Vec<u64> {
    (FIRST_YEAR..)
        .zip(years)
        .filter(|&(year, &mg)| mg > Mg(0) && wanted(year))
        .map(|(year, _)| year)
        .collect()
}
