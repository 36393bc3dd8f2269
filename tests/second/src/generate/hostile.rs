//! Hostile sessions: edges of every limit, every refusal a terminal can give,
//! near-forms, overlong and binary lines, among accepted calls.

use super::{Script, TELLING_YEARS};
use crate::postings::Call;

/// Closings in a hostile session beside those that its lines happen to be.
const CLOSINGS: usize = 20;

impl Script {
    pub(super) fn hostile(&mut self, lines: usize) {
        self.write_to_the_end(lines, |script| match script.rng.below(10) {
            0..=2 => script.plausible_line(),
            _ => script.hostile_line(),
        });
    }

    pub(super) fn mixed(&mut self, lines: usize) {
        self.write_to_the_end(lines, |script| match script.rng.below(10) {
            0..=7 => script.plausible_line(),
            _ => script.hostile_line(),
        });
    }

    /// Writes lines with closings between them, twice as many in a telling
    /// year, then an end that may lack its line feed.
    fn write_to_the_end(&mut self, lines: usize, mut write: impl FnMut(&mut Self)) {
        let year = (lines / (CLOSINGS + TELLING_YEARS.count())).max(2);
        self.draw_coverers(year);
        let mut closing = year;
        while self.lines < lines {
            if self.lines >= closing {
                if self.rng.once_in(2) {
                    self.amend_before_the_close();
                }
                if self.rng.once_in(2) {
                    self.cover_before_the_close();
                }
                self.close();
                let spans = if self.is_telling_year() { 2 } else { 1 };
                closing = self.lines + spans * year;
            } else {
                write(self);
            }
        }
        self.bend_the_end();
    }

    fn bend_the_end(&mut self) {
        match self.rng.below(6) {
            0 | 1 => drop(self.text.pop()),
            2 => {
                let cut = self.rng.index(40);
                self.text.truncate(self.text.len().saturating_sub(cut));
            }
            3 => self.text.push(b'\n'),
            _ => {}
        }
    }

    fn hostile_line(&mut self) {
        if self.standard_is_due(6) {
            return self.standard_line();
        }
        if self.edition_is_due() {
            return self.edition_line();
        }
        if self.rng.once_in(5) {
            return self.amendment_line();
        }
        if self.rng.once_in(8) {
            return self.cover_line();
        }
        if self.rng.once_in(8) {
            return self.small_line();
        }
        match self.rng.below(12) {
            0 | 1 => self.edges(),
            2 => self.long_numbers(),
            3 | 4 => self.near_form(),
            5 => self.bytes_changed(),
            6 => self.long_line(),
            7 => self.binary(),
            8 => self.land_on_a_half(),
            _ => self.refusal(),
        }
    }

    /// A call that could be accepted or nearly.
    pub(super) fn some_call(&mut self) -> Call {
        let plausible = match self.rng.below(9) {
            0 | 1 => self.plausible_filing(),
            2 | 3 => self.plausible_amendment(),
            4 | 5 => self.plausible_posting(),
            6 => self.plausible_cover(),
            _ => None,
        };
        plausible.unwrap_or_else(|| self.refusable_call())
    }
}
