//! What the accepted covers did.

use second::book::{cell, Book};
use second::covering::oldest_first;
use second::figuring::{is_live, is_open, Mg, ALL_CLOSED, FIRST_YEAR, YEARS};
use second::postings::Cover;
use std::cmp::Ordering;
use std::collections::BTreeSet;
use std::fmt;

#[derive(Default)]
pub struct Covers {
    /// Covers that moved something; the others are counts of these.
    moved: u64,
    from_several: u64,
    to_several: u64,
    all_closed: u64,
    /// With an expired lot or an overdue shortage, which stays.
    beside_others: u64,
    lots_used_up: u64,
    shortages_used_up: u64,
    both_used_up: u64,
}

impl Covers {
    pub fn count(&mut self, book: &Book, cover: &Cover) {
        let cell = cell(cover.maker as usize, cover.set as usize);
        let (lots, shortages) = (book.lots[cell], book.shortages[cell]);
        let made = oldest_first(cover, book.open_year, lots, shortages);
        if made.is_empty() {
            return;
        }
        self.moved += 1;
        let vintages: BTreeSet<u64> = made.iter().map(|c| c.vintage).collect();
        let years: BTreeSet<u64> = made.iter().map(|c| c.year).collect();
        self.from_several += u64::from(vintages.len() > 1);
        self.to_several += u64::from(years.len() > 1);
        self.all_closed += u64::from(book.open_year == ALL_CLOSED);
        let (live, expired) = split(&lots, |vintage| is_live(book.open_year, vintage));
        let (open, overdue) = split(&shortages, |year| is_open(book.open_year, year));
        self.beside_others += u64::from(expired + overdue > 0);
        *match live.cmp(&open) {
            Ordering::Less => &mut self.lots_used_up,
            Ordering::Equal => &mut self.both_used_up,
            Ordering::Greater => &mut self.shortages_used_up,
        } += 1;
    }
}

/// The Mg of the years that are wanted, and of the others.
fn split(figures: &[Mg; YEARS], wanted: impl Fn(u64) -> bool) -> (u128, u128) {
    let (mut inside, mut outside) = (0, 0);
    for (year, mg) in (FIRST_YEAR..).zip(figures) {
        *if wanted(year) {
            &mut inside
        } else {
            &mut outside
        } += u128::from(mg.0);
    }
    (inside, outside)
}

impl fmt::Display for Covers {
    fn fmt(&self, f: &mut fmt::Formatter<'_>) -> fmt::Result {
        let Covers {
            moved,
            from_several,
            to_several,
            all_closed,
            beside_others,
            lots_used_up,
            shortages_used_up,
            both_used_up,
        } = self;
        write!(
            f,
            "{moved} moved something: from several lots {from_several}, to several shortages \
             {to_several}, in 2038 {all_closed}, beside what is expired or overdue {beside_others}; \
             used up: lots {lots_used_up}, shortages {shortages_used_up}, both {both_used_up}"
        )
    }
}
