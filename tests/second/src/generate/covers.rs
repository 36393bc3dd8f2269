//! Covers of cells that have something to move and of others, what is refused
//! of them, and what is nearly one.

use super::bent::Bent;
use super::years::{index, names};
use super::Script;
use crate::book::{CELLS, MAKERS, SETS};
use crate::figuring::{Mg, YEARS};
use crate::postings::{Call, Cover, Trade};

/// For how many years a lot is live, and a shortage open, once its year is
/// closed.
const LOT_LIFE: u64 = 6;
const SHORTAGE_LIFE: u64 = 4;

/// Far above any maker and set; a narrower type takes the last ones for 0.
const ABOVE: [u64; 6] = [9, 255, 999_999_999_999, 1 << 8, 1 << 16, 1 << 32];

/// Nearly the form's name.
const NEAR_NAMES: [&str; 14] = [
    "covers", "Cover", "COVER", "covered", "cove", "over", "recover", "cover ", " cover", "cover0",
    "coverr", "(cover", "apply", "pay",
];

/// Nearly a number: of 13 digits, with leading zeros, none.
const NEAR_NUMBERS: [&str; 8] = [
    "00",
    "01",
    "000000000000",
    "0000000000001",
    "1000000000000",
    "9999999999999",
    "-0",
    "",
];

/// A field that another form has, or this one has already.
const FIELDS_MORE: [&str; 6] = ["mg", "vintage", "year", "to", "set", "maker"];

impl Script {
    /// One cell in three leaves its shortages to covers. The more lines a year
    /// has, the smaller is what they buy, so that there is something to cover.
    pub(super) fn draw_coverers(&mut self, lines_a_year: usize) {
        self.coverers = std::array::from_fn(|_| self.rng.once_in(3));
        self.pieces = (lines_a_year / CELLS).max(1) as u64;
        self.lean();
    }

    /// Of a cell with something to move, once in ten of any. Where there is no
    /// such cell, a purchase that makes one.
    pub(super) fn plausible_cover(&mut self) -> Option<Call> {
        if self.rng.once_in(10) {
            return Some(cover_of(self.rng.index(CELLS)));
        }
        if let Some(cell) = self.some_cell(Self::is_payable) {
            return Some(cover_of(cell));
        }
        let lacks = |script: &Self, cell| !script.open_shortages(cell).is_empty();
        let cell = self
            .some_cell(|script, cell| script.coverers[cell] && lacks(script, cell))
            .or_else(|| self.some_cell(lacks))?;
        self.pay(cell, self.open_shortages(cell)[0])
    }

    /// Of a cell whose oldest live lot or oldest open shortage ends its life.
    pub(super) fn cover_before_the_close(&mut self) {
        let ending = |script: &Self, cell| {
            let open_year = script.book.open_year;
            let lots = script.live_lots(cell);
            let shortages = script.open_shortages(cell);
            let lot_ends = lots.first() == Some(&(open_year - LOT_LIFE));
            let shortage_ends = shortages.first() == Some(&(open_year - SHORTAGE_LIFE));
            script.is_payable(cell) && (lot_ends || shortage_ends)
        };
        if let Some(cell) = self.some_cell(ending) {
            self.say(cover_of(cell));
        }
    }

    pub(super) fn cover_line(&mut self) {
        match self.rng.below(12) {
            0..=2 => self.faulty_cover(),
            3..=5 => self.near_cover_form(),
            6 => self.cover_twice(),
            7 => self.cover_of_what_stays(),
            8 | 9 => self.buy_and_cover(),
            _ => {
                let cover = self.plausible_cover();
                let cover = cover.unwrap_or_else(|| Call::Cover(self.near_cover()));
                self.say(cover);
            }
        }
    }

    pub(super) fn near_cover(&mut self) -> Cover {
        let (maker, set) = names(self.telling_cell());
        Cover {
            maker: self.seldom_other(maker, MAKERS as u64),
            set: self.seldom_other(set, SETS as u64),
        }
    }

    /// The maker, the set or both are above. Where the set alone is, the two may
    /// come to the number of another maker's cell, which has something to move.
    fn faulty_cover(&mut self) {
        let cell = self.some_cell(Self::is_payable).unwrap_or(0);
        let (mut maker, mut set) = names(cell);
        match self.rng.below(6) {
            0 | 1 => maker = self.above(maker, MAKERS),
            2 => set = self.above(set, SETS),
            3 | 4 if maker > 0 => (maker, set) = (maker - 1, set + SETS as u64),
            _ => (maker, set) = (self.above(maker, MAKERS), self.above(set, SETS)),
        }
        self.say(Call::Cover(Cover { maker, set }));
    }

    /// The first number above, or a far one that ends as this one does.
    fn above(&mut self, number: u64, limit: usize) -> u64 {
        match self.rng.below(2) {
            0 => limit as u64,
            _ => {
                let far = ABOVE[self.rng.index(ABOVE.len())];
                if far.is_power_of_two() {
                    far + number
                } else {
                    far
                }
            }
        }
    }

    /// The second time nothing is left to move.
    fn cover_twice(&mut self) {
        if let Some(cell) = self.some_cell(Self::is_payable) {
            self.say(cover_of(cell));
            self.say(cover_of(cell));
        }
    }

    /// A cell that has lots and shortages, and of one kind only such as nothing
    /// moves; or else one that has one kind alone.
    fn cover_of_what_stays(&mut self) {
        let has = |figures: &[Mg]| figures.iter().any(|&mg| mg > Mg(0));
        let stays = |script: &Self, cell: usize| {
            let book = &script.book;
            let both = has(&book.lots[cell]) && has(&book.shortages[cell]);
            both && !script.is_payable(cell)
        };
        let alone = |script: &Self, cell: usize| {
            let book = &script.book;
            has(&book.lots[cell]) != has(&book.shortages[cell])
        };
        let cell = self.some_cell(stays).or_else(|| self.some_cell(alone));
        self.say(cover_of(cell.unwrap_or(0)));
    }

    /// A short maker buys of another's oldest live lot about what it lacks, and
    /// covers.
    fn buy_and_cover(&mut self) {
        let Some(buying) = self.some_cell(|script, cell| script.lacking(cell) > 0) else {
            return;
        };
        let (to, set) = names(buying);
        let lacking = self.lacking(buying);
        let sells = |script: &Self, cell: usize, least: u64| {
            let lots = script.live_lots(cell);
            let enough = |&vintage: &u64| script.book.lots[cell][index(vintage)].0 >= least;
            names(cell).1 == set && !script.is_short(cell) && lots.first().is_some_and(enough)
        };
        let selling = self
            .some_cell(|script, cell| sells(script, cell, lacking))
            .or_else(|| self.some_cell(|script, cell| sells(script, cell, 1)));
        if let Some(selling) = selling {
            let vintage = self.live_lots(selling)[0];
            let lot = self.book.lots[selling][index(vintage)].0;
            let mg = lacking - 1 + self.rng.below(3);
            self.say(Call::Trade(Trade {
                from: names(selling).0,
                to,
                set,
                vintage,
                mg: mg.clamp(1, lot),
            }));
        }
        self.say(cover_of(buying));
    }

    /// What a cell's open shortages have above its live lots.
    fn lacking(&self, cell: usize) -> u64 {
        let total = |years: Vec<u64>, figures: &[Mg; YEARS]| -> u64 {
            let mgs = years.into_iter().map(|year| figures[index(year)].0);
            mgs.sum()
        };
        let live = total(self.live_lots(cell), &self.book.lots[cell]);
        let open = total(self.open_shortages(cell), &self.book.shortages[cell]);
        open.saturating_sub(live)
    }

    /// The form's name, a number, the order or the count of its fields, or one of
    /// its brackets or spaces bent.
    fn near_cover_form(&mut self) {
        let cell = self.some_cell(Self::is_payable).unwrap_or(0);
        let mut form = Bent::of(&cover_of(cell));
        let at = self.rng.index(form.fields.len());
        match self.rng.below(16) {
            0..=2 => form.name = NEAR_NAMES[self.rng.index(NEAR_NAMES.len())].into(),
            3..=5 => form.fields[at].1 = NEAR_NUMBERS[self.rng.index(NEAR_NUMBERS.len())].into(),
            6 => form.fields[at].1.insert(0, '0'),
            7 => form.fields.swap(0, 1),
            8 | 9 => {
                let more = FIELDS_MORE[self.rng.index(FIELDS_MORE.len())];
                let at = self.rng.index(form.fields.len() + 1);
                form.fields.insert(at, (more.into(), "1".into()));
            }
            10 => drop(form.fields.remove(at)),
            11 => form.fields.clear(),
            12 => form.fields[at].0.push(' '),
            13 => return self.one_for(form.text(), &['(', ')'], ""),
            14 => return self.one_for(form.text(), &[' '], ""),
            _ => return self.one_for(form.text(), &[' '], "  "),
        }
        self.say_text(form.text());
    }

    /// A text with one of these signs replaced.
    fn one_for(&mut self, text: String, signs: &[char], by: &str) {
        let places: Vec<usize> = text.match_indices(signs).map(|(at, _)| at).collect();
        let at = places[self.rng.index(places.len())];
        self.say_text([&text[..at], by, &text[at + 1..]].concat());
    }

    /// Whether a cover of the cell moves anything.
    fn is_payable(&self, cell: usize) -> bool {
        !self.live_lots(cell).is_empty() && !self.open_shortages(cell).is_empty()
    }

    fn some_cell(&mut self, fits: impl Fn(&Self, usize) -> bool) -> Option<usize> {
        let cells: Vec<usize> = (0..CELLS).filter(|&cell| fits(self, cell)).collect();
        self.rng.pick(&cells).copied()
    }
}

fn cover_of(cell: usize) -> Call {
    let (maker, set) = names(cell);
    Call::Cover(Cover { maker, set })
}
