//! Filings by the small makers' entry at both sides of its limits, what is
//! refused of them, and what is nearly one.

use super::amendments::{Form, FAULTS};
use super::bent::Bent;
use super::Script;
use crate::book::cell;
use crate::figuring::Figures;
use crate::limits::Limits;
use crate::postings::{Call, Filing};

const SMALL: Limits = Limits::SMALL;
const LARGE: Limits = Limits::LARGE;

/// Beside the limits, both entries'; a narrower type takes the last ones for
/// numbers that are small.
const NUMBERS: [u64; 10] = [14, 15, 16, 17, 31, 62, 63, 64, (1 << 8) + 3, (1 << 32) + 15];
const VOLUMES: [u64; 11] = [
    0,
    1,
    4_999,
    5_000,
    5_001,
    5_002,
    50_000,
    100_000,
    100_001,
    (1 << 16) + 5_000,
    (1 << 32) + 5_000,
];

/// Nearly the form's name.
pub const NEAR_NAMES: [&str; 14] = [
    "smal",
    "smalls",
    "Small",
    "SMALL",
    "smalL",
    "smaller",
    "mall",
    "small0",
    "small ",
    " small",
    "(small",
    "smallfile",
    "small file",
    "file small",
];

impl Script {
    /// A plausible filing of a small maker's, now and then at a limit of its
    /// entry or above; none where the cell has no such number left.
    pub(super) fn plausible_small(&mut self) -> Option<Filing> {
        let large = self.plausible_large()?;
        let family = match self.rng.below(24) {
            0 => self.rng.between(SMALL.number() + 1, LARGE.number()),
            1 => SMALL.number() + self.rng.below(2),
            _ => self.small_number(large.maker, large.set)?,
        };
        let volume = match self.rng.below(24) {
            0 => self.rng.between(SMALL.volume() + 1, LARGE.volume()),
            1 => SMALL.volume() + self.rng.below(2),
            _ => self.rng.between(1, 20) * self.rng.between(1, 250),
        };
        Some(Filing {
            family,
            figures: Figures {
                volume,
                ..large.figures
            },
            ..large
        })
    }

    /// A number of the small entry that isn't filed in the cell, seldom one that
    /// is.
    fn small_number(&mut self, maker: u64, set: u64) -> Option<u64> {
        let mark = self.book.marks[cell(maker as usize, set as usize)];
        let filed = self.rng.once_in(25);
        let numbers: Vec<u64> = (0..=SMALL.number())
            .filter(|family| (mark >> family & 1 == 1) == filed)
            .collect();
        self.rng.pick(&numbers).copied()
    }

    pub(super) fn small_line(&mut self) {
        match self.rng.below(12) {
            0..=3 => self.small_at_an_edge(),
            4 | 5 => self.faulty_small(),
            6 | 7 => self.near_small_form(),
            8 => self.filed_number_above(),
            9 => self.one_family_by_both(),
            _ => self.file_small_and_amend_beyond(),
        }
    }

    /// By one of the two limits or by both; most often of a number that isn't
    /// filed.
    fn small_at_an_edge(&mut self) {
        let Some(mut filing) = self.plausible_small() else {
            return;
        };
        let which = self.rng.below(3);
        if which != 0 {
            filing.family = NUMBERS[self.rng.index(NUMBERS.len())];
        }
        if which != 1 {
            filing.figures.volume = VOLUMES[self.rng.index(VOLUMES.len())];
        }
        self.say(Call::Small(filing));
    }

    /// One fault or two, once in three of a number that is filed: the first in
    /// the refusals' order answers.
    fn faulty_small(&mut self) {
        let filed = match self.rng.below(3) {
            0 => self.some_filed(),
            _ => None,
        };
        let Some(mut faulty) = filed.or_else(|| self.plausible_small()) else {
            return;
        };
        for _ in 0..self.rng.between(1, 2) {
            match self.rng.below(4) {
                0 => faulty.family = self.rng.between(SMALL.number() + 1, LARGE.number()),
                1 => faulty.figures.volume = self.rng.between(SMALL.volume() + 1, LARGE.volume()),
                _ => FAULTS[self.rng.index(FAULTS.len())](&mut faulty),
            }
        }
        self.say(Call::Small(faulty));
    }

    /// A number above the small ones that the large entry has filed: refusal 7,
    /// and not 9.
    fn filed_number_above(&mut self) {
        let Some(mut filing) = self.plausible_large() else {
            return;
        };
        filing.family = self.rng.between(SMALL.number() + 1, LARGE.number());
        self.say(Call::File(filing));
        filing.figures.volume = filing.figures.volume.min(SMALL.volume());
        self.say(Call::Small(filing));
    }

    /// One family by the one entry and then by the other: refusal 9.
    fn one_family_by_both(&mut self) {
        let Some(filing) = self.plausible_small() else {
            return;
        };
        let mut forms: [Form; 2] = [Call::File, Call::Small];
        if self.rng.once_in(2) {
            forms.reverse();
        }
        let [first, second] = forms;
        self.say(first(filing));
        self.say(second(filing));
    }

    /// Above the small volume, up to the large entry's; at times one engine
    /// above that, and at times the line that filed it again: refusals 8 and 9.
    fn file_small_and_amend_beyond(&mut self) {
        let Some(filing) = self.plausible_small() else {
            return;
        };
        self.say(Call::Small(filing));
        let mut beyond = filing;
        beyond.figures.volume = match self.rng.below(4) {
            0 => SMALL.volume() + 1,
            1 => LARGE.volume() + self.rng.below(2),
            _ => self.rng.between(SMALL.volume() + 1, LARGE.volume()),
        };
        self.say(Call::Amend(beyond));
        match self.rng.below(4) {
            0 => self.say(Call::Small(filing)),
            1 => self.say(Call::Amend(filing)),
            _ => {}
        }
    }

    /// The form's name bent, or one field missing, twice or with two spaces.
    fn near_small_form(&mut self) {
        let Some(filing) = self.plausible_small() else {
            return;
        };
        let mut form = Bent::of(&Call::Small(filing));
        let at = self.rng.index(form.fields.len());
        match self.rng.below(6) {
            0 => drop(form.fields.remove(at)),
            1 => form.fields.insert(at, form.fields[at].clone()),
            2 => form.fields[at].0.push(' '),
            _ => form.name = NEAR_NAMES[self.rng.index(NEAR_NAMES.len())].into(),
        }
        self.say_text(form.text());
    }

    /// A filing's fields near the small limits, seldom near the large ones.
    pub(super) fn near_small(&mut self) -> Filing {
        let mut near = self.near_filing();
        if !self.rng.once_in(6) {
            near.family = self.near(0, SMALL.number());
        }
        if !self.rng.once_in(6) {
            near.figures.volume = self.near(1, SMALL.volume());
        }
        near
    }
}

/// Those of the entry, or of an amendment.
pub(super) fn limits_of(form: &Call) -> Limits {
    match form {
        Call::Small(_) => SMALL,
        _ => LARGE,
    }
}
