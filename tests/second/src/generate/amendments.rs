//! Amendments of families that are filed, and what is refused of them.

use super::bent::Bent;
use super::full::at_the_limits;
use super::years::names;
use super::Script;
use crate::book::{Book, CELLS, FAMILIES, MAKERS, SETS};
use crate::figuring::{Figures, MAX_CF, MAX_FCL, MAX_LIFE, MAX_VOLUME};
use crate::limits::Limits;
use crate::postings::{Call, Filing};
use crate::standards::Table;
use std::collections::BTreeSet;

/// The form in which a family's figures are sent: a filing by either entry, or
/// an amendment.
pub(super) type Form = fn(Filing) -> Call;

/// The families that were accepted this year, and in the year before it, with
/// their last figures. The latest stands last.
pub(super) struct Families {
    filed: Vec<Filing>,
    before: Vec<Filing>,
    /// Of this year's, those that the small makers' entry filed.
    small: BTreeSet<Name>,
}

impl Families {
    /// Those that a book has, each with figures that it could have been filed
    /// with: all that is known of it is its part.
    pub(super) fn opened(book: &Book, table: &Table) -> Self {
        let places = (0..CELLS).flat_map(|cell| (0..FAMILIES).map(move |family| (cell, family)));
        let filed = places.filter(|&(cell, family)| book.marks[cell] >> family & 1 == 1);
        let filings = filed.filter_map(|(cell, family)| {
            let (maker, set) = names(cell);
            let year = book.open_year;
            Some(Filing {
                maker,
                set,
                year,
                usage: 0,
                edition: 0,
                family: family as u64,
                figures: Figures {
                    fcl: table.standard(set, 0, year)?,
                    ..at_the_limits(1)
                },
            })
        });
        Families {
            filed: filings.collect(),
            before: Vec::new(),
            small: BTreeSet::new(),
        }
    }

    /// Takes a call that was accepted.
    pub(super) fn take(&mut self, call: &Call) {
        match call {
            Call::File(filing) => self.filed.push(*filing),
            Call::Small(filing) => {
                self.filed.push(*filing);
                self.small.insert(name(filing));
            }
            Call::Amend(amended) => {
                self.filed.retain(|filed| name(filed) != name(amended));
                self.filed.push(*amended);
            }
            Call::Close { .. } => {
                self.before = std::mem::take(&mut self.filed);
                self.small.clear();
            }
            Call::Trade(_) | Call::Apply(_) | Call::Retire(_) | Call::Cover(_) => {}
        }
    }
}

type Name = (u64, u64, u64);

fn name(filing: &Filing) -> Name {
    (filing.maker, filing.set, filing.family)
}

/// What an amendment may be refused for, 18 aside, and a filing, 9 aside.
pub(super) const FAULTS: [fn(&mut Filing); 18] = [
    |f| f.maker = MAKERS as u64,
    |f| f.set = SETS as u64,
    |f| f.year -= 1,
    |f| f.year += 1,
    |f| f.usage = 2,
    |f| (f.set, f.usage) = (1, 1),
    |f| f.edition = 3,
    |f| f.edition = 1 << 32,
    |f| (f.set, f.edition) = (1, 1),
    |f| f.family = FAMILIES as u64,
    |f| f.figures.fcl = 0,
    |f| f.figures.fcl = MAX_FCL + 1,
    |f| f.figures.cf = 0,
    |f| f.figures.cf = MAX_CF + 1,
    |f| f.figures.volume = 0,
    |f| f.figures.volume = MAX_VOLUME + 1,
    |f| f.figures.life = 0,
    |f| f.figures.life = MAX_LIFE + 1,
];

/// Nearly the form's name.
const NEAR_NAMES: [&str; 12] = [
    "amends", "Amend", "AMEND", "amended", "ammend", "amen", "amend ", " amend", "mend", "amend0",
    "refile", "(amend",
];

impl Script {
    /// What a maker sends after filing; now and then of a family that isn't
    /// filed.
    pub(super) fn plausible_amendment(&mut self) -> Option<Call> {
        if self.rng.once_in(25) {
            return self.unfiled().map(Call::Amend);
        }
        let filed = self.some_filed()?;
        Some(Call::Amend(self.amended(filed)))
    }

    /// A plausible filing, once in three an amendment.
    pub(super) fn plausible_figures(&mut self) -> Option<(Form, Filing)> {
        let amendment = match self.rng.below(3) {
            0 => self.plausible_amendment(),
            _ => None,
        };
        match amendment.or_else(|| self.plausible_filing())? {
            Call::Amend(amended) => Some((Call::Amend, amended)),
            Call::File(filing) => Some((Call::File, filing)),
            Call::Small(filing) => Some((Call::Small, filing)),
            _ => None,
        }
    }

    pub(super) fn amend_before_the_close(&mut self) {
        if let Some(filed) = self.some_filed() {
            let amended = self.amended(filed);
            self.say(Call::Amend(amended));
        }
    }

    /// A family of this year; once in four the latest, which may have been
    /// amended before.
    pub(super) fn some_filed(&mut self) -> Option<Filing> {
        let filed = &self.families.filed;
        if self.rng.once_in(4) {
            filed.last().copied()
        } else {
            self.rng.pick(filed).copied()
        }
    }

    /// A filed family with some of its figures changed: most often a raised
    /// level, at times one that makes the part 0 or changes its sign, seldom
    /// nothing. What a small maker filed takes half of the time a volume above
    /// those that its entry has.
    fn amended(&mut self, filed: Filing) -> Filing {
        let mut amended = filed;
        if self.families.small.contains(&name(&filed)) && self.rng.once_in(2) {
            let least = Limits::SMALL.volume() + 1;
            amended.figures.volume = self.rng.between(least, 2 * least);
        }
        let (standard, level) = (self.standard_of(&filed), filed.figures.fcl);
        match self.rng.below(18) {
            0..=5 => amended.figures.fcl = (level + self.rng.between(1, 20)).min(MAX_FCL),
            6 | 7 => amended.figures.fcl = level.saturating_sub(self.rng.between(1, 20)).max(1),
            8 | 9 => amended.figures.fcl = standard,
            // The part's opposite.
            10..=12 => amended.figures.fcl = (2 * standard).saturating_sub(level).max(1),
            13 => {}
            14 => amended.figures.volume = self.rng.between(1, 9_000),
            15 => amended.figures.cf = self.rng.between(110_000, 310_000),
            16 => amended.figures.life = self.rng.between(1, MAX_LIFE),
            _ => {
                amended.usage = if filed.set >= 2 { self.rng.below(2) } else { 0 };
                amended.edition = self.fitting_edition(filed.set, filed.year);
            }
        }
        amended
    }

    /// An amendment whose family isn't filed, most likely: one of last year,
    /// the number of one in another cell, or another number of the cell.
    fn unfiled(&mut self) -> Option<Filing> {
        let year = self.book.open_year;
        let filed = match self.rng.below(3) {
            0 => None,
            _ => self.some_filed(),
        };
        let Some(mut unfiled) = filed else {
            let before = self.rng.pick(&self.families.before)?;
            return Some(Filing { year, ..*before });
        };
        match self.rng.below(3) {
            0 => unfiled.maker = (unfiled.maker + self.rng.between(1, 7)) % MAKERS as u64,
            1 => {
                unfiled.set = (unfiled.set + self.rng.between(1, 3)) % SETS as u64;
                (unfiled.usage, unfiled.edition) = (0, 0);
            }
            _ => unfiled.family = (unfiled.family + self.rng.between(1, 63)) % FAMILIES as u64,
        }
        Some(unfiled)
    }

    /// Nothing where nothing was filed.
    pub(super) fn amendment_line(&mut self) {
        match self.rng.below(10) {
            0..=3 => self.faulty_amendment(),
            4 => self.late_amendment(),
            5 => self.amend_again_and_again(),
            6 => self.amend_to_nothing(),
            7 => self.amend_to_the_limits(),
            8 => self.near_amendment_form(),
            _ => {
                if let Some(unfiled) = self.unfiled() {
                    self.say(Call::Amend(unfiled));
                }
            }
        }
    }

    /// One fault or two, of a family that is filed or that isn't: the first in
    /// the refusals' order answers.
    fn faulty_amendment(&mut self) {
        let filed = match self.rng.below(2) {
            0 => self.some_filed(),
            _ => None,
        };
        let Some(mut faulty) = filed.or_else(|| self.unfiled()) else {
            return;
        };
        for _ in 0..self.rng.between(1, 2) {
            FAULTS[self.rng.index(FAULTS.len())](&mut faulty);
        }
        self.say(Call::Amend(faulty));
    }

    /// The year that the family was filed in is closed.
    fn late_amendment(&mut self) {
        if let Some(before) = self.rng.pick(&self.families.before).copied() {
            let amended = self.amended(before);
            self.say(Call::Amend(amended));
        }
    }

    /// At last the family is filed again, by either entry: refusal 9, or 7 or 8.
    fn amend_again_and_again(&mut self) {
        let Some(filed) = self.some_filed() else {
            return;
        };
        let mut last = filed;
        for _ in 0..self.rng.between(2, 6) {
            last = self.amended(last);
            self.say(Call::Amend(last));
        }
        let form = self.some_entry();
        self.say(form(filed));
    }

    fn some_entry(&mut self) -> Form {
        [Call::File as Form, Call::Small][self.rng.index(2)]
    }

    /// With a part of 0 the family is filed still: refusal 9, and it takes its
    /// old figures again.
    fn amend_to_nothing(&mut self) {
        let Some(filed) = self.some_filed() else {
            return;
        };
        let mut nothing = filed;
        nothing.figures.fcl = self.standard_of(&filed);
        self.say(Call::Amend(nothing));
        let form = self.some_entry();
        self.say(form(filed));
        if self.rng.once_in(2) {
            self.say(Call::Amend(filed));
        }
    }

    /// The largest credit or the largest debit, and half of the time back.
    fn amend_to_the_limits(&mut self) {
        let Some(filed) = self.some_filed() else {
            return;
        };
        let level = [1, MAX_FCL][self.rng.index(2)];
        let figures = at_the_limits(level);
        self.say(Call::Amend(Filing { figures, ..filed }));
        if self.rng.once_in(2) {
            self.say(Call::Amend(filed));
        }
    }

    /// The form's name bent, or one field missing or with two spaces.
    fn near_amendment_form(&mut self) {
        let Some(call) = self.plausible_amendment() else {
            return;
        };
        let mut form = Bent::of(&call);
        let at = self.rng.index(form.fields.len());
        match self.rng.below(4) {
            0 => drop(form.fields.remove(at)),
            1 => form.fields[at].0.push(' '),
            _ => form.name = NEAR_NAMES[self.rng.index(NEAR_NAMES.len())].into(),
        }
        self.say_text(form.text());
    }

    /// A filing's fields near their limits, most often of a filed family.
    pub(super) fn near_amendment(&mut self) -> Filing {
        let near = self.near_filing();
        match self.some_filed() {
            Some(filed) if !self.rng.once_in(4) => Filing {
                maker: filed.maker,
                set: filed.set,
                usage: filed.usage,
                edition: self.near_edition(filed.set, near.year),
                family: filed.family,
                ..near
            },
            _ => near,
        }
    }

    /// The standard that a filing names; 1 where there is none.
    pub(super) fn standard_of(&self, filing: &Filing) -> u64 {
        let &Filing {
            set,
            year,
            usage,
            edition,
            ..
        } = filing;
        let named = self.table.named_standard(edition, set, usage, year);
        named.unwrap_or(1)
    }
}
