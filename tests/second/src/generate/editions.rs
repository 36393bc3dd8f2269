//! The editions that filings name, and lines for their edges.

use super::amendments::Form;
use super::bent::Bent;
use super::{Script, TELLING_YEARS};
use crate::book::cell;
use crate::figuring::MAX_CF;
use crate::postings::Filing;
use crate::standards::alternative_standard;

/// Above 2; a narrower type takes the last ones for 0, 1 or 2.
const ABOVE: [u64; 12] = [
    3,
    3,
    3,
    4,
    255,
    999_999_999_999,
    1 << 8,
    (1 << 8) + 1,
    (1 << 16) + 1,
    1 << 32,
    (1 << 32) + 1,
    (1 << 32) + 2,
];

/// The place of the edition among a filing's fields.
const PLACE: usize = 4;

/// Whether a set and year have alternative standards.
fn has_alternatives(set: u64, year: u64) -> bool {
    alternative_standard(1, set, 0, year).is_some()
}

/// Each edition in turn where there is more than one.
pub(super) fn edition_in_turn(turn: u64, set: u64, year: u64) -> u64 {
    if has_alternatives(set, year) {
        turn % 3
    } else {
        0
    }
}

impl Script {
    /// An edition that the set and year have.
    pub(super) fn fitting_edition(&mut self, set: u64, year: u64) -> u64 {
        let turn = self.rng.draw();
        edition_in_turn(turn, set, year)
    }

    /// One that fits, seldom any other.
    pub(super) fn plausible_edition(&mut self, set: u64, year: u64) -> u64 {
        if self.rng.once_in(30) {
            self.telling_edition()
        } else {
            self.fitting_edition(set, year)
        }
    }

    /// One that fits, at times any other.
    pub(super) fn near_edition(&mut self, set: u64, year: u64) -> u64 {
        if self.rng.once_in(6) {
            self.telling_edition()
        } else {
            self.fitting_edition(set, year)
        }
    }

    /// 0 to 2, or above.
    fn telling_edition(&mut self) -> u64 {
        match self.rng.below(4) {
            3 => ABOVE[self.rng.index(ABOVE.len())],
            edition => edition,
        }
    }

    pub(super) fn is_telling_year(&self) -> bool {
        TELLING_YEARS.contains(&self.book.open_year)
    }

    pub(super) fn edition_is_due(&mut self) -> bool {
        let seldom = if self.is_telling_year() { 3 } else { 40 };
        self.rng.once_in(seldom)
    }

    pub(super) fn edition_line(&mut self) {
        match self.plausible_figures() {
            Some((form, filing)) if self.rng.once_in(5) => self.bent_edition(form, filing),
            Some((form, filing)) => self.edition_at_an_edge(form, filing),
            _ => self.near_form(),
        }
    }

    /// Any edition in any set, and half of the time one thing more that is
    /// refused before it or after it.
    fn edition_at_an_edge(&mut self, form: Form, mut filing: Filing) {
        filing.edition = self.telling_edition();
        match self.rng.below(24) {
            0 => filing.maker = 8,
            1 => filing.set = 4,
            2 => filing.year -= 1,
            3 => filing.year += 1,
            4 | 5 => filing.usage = 2,
            6 => filing.usage = 1,
            7 => filing.family = 64,
            8 => filing.figures.fcl = 0,
            9 => filing.figures.cf = MAX_CF + 1,
            // Refusal 9, or 18 of an amendment, most likely.
            10 => filing.family = self.filed_family(filing.maker, filing.set),
            11 => filing.family ^= 1,
            _ => {}
        }
        self.say(form(filing));
    }

    /// The first family that is filed in the cell; 0 if there is none.
    fn filed_family(&self, maker: u64, set: u64) -> u64 {
        let mark = self.book.marks[cell(maker as usize, set as usize)];
        u64::from(mark.trailing_zeros() % 64)
    }

    /// The form before card 5, or one with its edition before the use, after
    /// the family or twice.
    fn bent_edition(&mut self, form: Form, filing: Filing) {
        let mut form = Bent::of(&form(filing));
        let edition = form.fields.remove(PLACE);
        match self.rng.below(4) {
            0 => {}
            1 => form.fields.insert(PLACE - 1, edition),
            2 => form.fields.insert(PLACE + 1, edition),
            _ => {
                form.fields.insert(PLACE, edition.clone());
                form.fields.insert(PLACE, edition);
            }
        }
        self.say_text(form.text());
    }
}
