//! Sums that lie at a half or one unit beside it.

use super::amendments::Form;
use super::years::names;
use super::Script;
use crate::book::{CELLS, FAMILIES};
use crate::figuring::{
    Figures, ALL_CLOSED, HALF_A_MG, MAX_CF, MAX_LIFE, MAX_VOLUME, PARTS_IN_A_MG,
};
use crate::postings::{Call, Filing};

/// The part of a family with the most CF and volume, one g/hp-hr beside its
/// standard and a life of 1.
const STEP: u64 = MAX_CF * MAX_VOLUME;

impl Script {
    /// Files up to three more families, or amends one and files up to two, so
    /// that a cell's sum lies at a half or one unit beside it: after an even Mg
    /// or after an odd one, above zero or below. Once in three times the whole
    /// sum comes to half a Mg or to one and a half.
    pub(super) fn land_on_a_half(&mut self) {
        let half = [1, 3, -1, -3][self.rng.index(4)] * HALF_A_MG;
        let beside = [-1, 0, 0, 1][self.rng.index(4)];
        let first = self.rng.index(CELLS);
        let cell_named = (first..first + CELLS)
            .map(|cell| cell % CELLS)
            .find(|&cell| self.sum(cell).signum() != -half.signum())
            .unwrap_or(first);
        let (maker, set) = names(cell_named);
        let year = self.book.open_year;
        let edition = self.fitting_edition(set, year);
        let standard = self.table.named_standard(edition, set, 0, year);
        let Some(standard) = standard.filter(|_| year != ALL_CLOSED) else {
            return;
        };
        let mut amended = match self.rng.below(2) {
            0 => self.some_filed_in(cell_named),
            _ => None,
        };
        let replaced = amended.map_or(0, |family| self.book.parts[cell_named][family].0);
        let sum = self.sum(cell_named) - replaced;
        let over = if self.rng.once_in(3) && sum.unsigned_abs() < MAX_LIFE * STEP {
            sum
        } else {
            sum % (2 * PARTS_IN_A_MG)
        };
        let missing = half + beside - over;
        let size = missing.unsigned_abs();
        let level = standard as i64 - missing.signum();
        let rest = size % STEP;
        // Large enough that the volume keeps its limit; what is left, less
        // than it, is the last family's CF.
        let cf = match self.rng.below(4) {
            0 => MAX_CF,
            _ => self.rng.between(rest.div_ceil(MAX_VOLUME).max(1), MAX_CF),
        };
        for (cf, volume, life) in [
            (MAX_CF, MAX_VOLUME, size / STEP),
            (cf, rest / cf, 1),
            (rest % cf, 1, 1),
        ] {
            if cf == 0 || volume == 0 || life == 0 {
                continue;
            }
            let amended = amended.take().map(|family| (Call::Amend as Form, family));
            let free = || Some((Call::File as Form, self.first_free_in(cell_named)?));
            let Some((form, family)) = amended.or_else(free) else {
                continue;
            };
            self.say(form(Filing {
                maker,
                set,
                year,
                usage: 0,
                edition,
                family: family as u64,
                figures: Figures {
                    fcl: level.max(1) as u64,
                    cf,
                    volume,
                    life,
                },
            }));
        }
    }

    fn some_filed_in(&mut self, cell: usize) -> Option<usize> {
        let mark = self.book.marks[cell];
        let filed: Vec<usize> = (0..FAMILIES).filter(|f| mark >> f & 1 == 1).collect();
        self.rng.pick(&filed).copied()
    }

    fn first_free_in(&self, cell: usize) -> Option<usize> {
        let free = self.book.marks[cell].trailing_ones() as usize;
        (free < FAMILIES).then_some(free)
    }

    /// The sum of a cell's parts.
    fn sum(&self, cell: usize) -> i64 {
        self.book.parts[cell].iter().map(|part| part.0).sum()
    }
}
