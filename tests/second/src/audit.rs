//! Holds a book against the accounts of the calls that were posted to it.

use crate::accounts::{place, Accounts, OutOfPlace};
use crate::book::{Book, MAKERS, SETS};
use crate::figuring::{is_live, is_open, Mg, FIRST_YEAR, LAST_YEAR, YEARS};
use crate::postings::{post, Application, Call, Cover, Results};
use crate::standards::Table;

/// A claim of the paper that does not hold, in words.
#[derive(Clone, Debug, PartialEq, Eq)]
pub struct Violation(pub String);

impl From<OutOfPlace> for Violation {
    fn from(_: OutOfPlace) -> Self {
        Violation("a call outside the accounts was accepted".into())
    }
}

#[derive(Clone, Debug, Default)]
pub struct Audit {
    accounts: Accounts,
}

impl Audit {
    /// Of a list that begins with this book.
    pub fn opened(book: &Book) -> Self {
        Audit {
            accounts: Accounts::opened(book),
        }
    }

    /// Takes the next call with its table, whether it was accepted, and the book
    /// around it.
    pub fn judge(
        &mut self,
        table: &Table,
        call: &Call,
        accepted: bool,
        before: &Book,
        after: &Book,
    ) -> Result<(), Violation> {
        if !accepted {
            return hold(before == after, || "a refusal changed the book".into());
        }
        match call {
            Call::Apply(application) => self.count(table, application)?,
            Call::Cover(cover) => self.count_cover(table, cover, before, after)?,
            _ => self.accounts.feed(table, call, accepted)?,
        }
        hold(after.is_sound(), || {
            "the book is not sound after an accepted posting".into()
        })?;
        self.hold_touched(call, after)
    }

    /// What an accepted call answers, asked before the call is judged: a cover's
    /// Mg are the smaller of the two totals, and those of the applications that
    /// the accounts give it.
    pub fn hold_results(
        &self,
        call: &Call,
        results: &Results,
        before: &Book,
    ) -> Result<(), Violation> {
        let Call::Cover(cover) = call else {
            return Ok(());
        };
        let (cell, _) = place(cover.maker, cover.set, FIRST_YEAR)?;
        let open_year = before.open_year;
        let live = total(&before.lots[cell], |vintage| is_live(open_year, vintage));
        let open = total(&before.shortages[cell], |year| is_open(open_year, year));
        let made = self.accounts.made_by(cover)?;
        let made: u128 = made.iter().map(|c| u128::from(c.mg)).sum();
        let answered = match results {
            Results::Moved(mg) => Some(u128::from(mg.0)),
            _ => None,
        };
        hold(answered == Some(live.min(open)), || {
            format!("a cover of {live} live and {open} open Mg answers {results:?}")
        })?;
        hold(answered == Some(made), || {
            format!("a cover answers {results:?}, the accounts give {made}")
        })
    }

    /// Every lot and every shortage is what the accounts give, and the open year.
    pub fn hold_all(&self, book: &Book) -> Result<(), Violation> {
        self.hold_open_year(book)?;
        (FIRST_YEAR..=LAST_YEAR).try_for_each(|year| self.hold_year(book, year))
    }

    /// An accepted application.
    fn count(&mut self, table: &Table, application: &Application) -> Result<(), Violation> {
        self.hold_covering(application)?;
        self.accounts
            .feed(table, &Call::Apply(*application), true)?;
        Ok(())
    }

    /// A cover is the applications that the accounts give it: put one by one to
    /// the book, each is accepted and holds as such, and they leave the book and
    /// the accounts that the cover leaves.
    fn count_cover(
        &mut self,
        table: &Table,
        cover: &Cover,
        before: &Book,
        after: &Book,
    ) -> Result<(), Violation> {
        let (mut one_by_one, mut book) = (self.clone(), before.clone());
        for application in self.accounts.made_by(cover)? {
            let answer = post(&mut book, table, &Call::Apply(application));
            hold(answer.is_ok(), || {
                format!("a cover's {application:?} by itself gets {answer:?}")
            })?;
            one_by_one.count(table, &application)?;
        }
        hold(book == *after, || {
            "a cover leaves another book than its applications".into()
        })?;
        self.accounts.feed(table, &Call::Cover(*cover), true)?;
        hold(self.accounts == one_by_one.accounts, || {
            "a cover counts otherwise than its applications".into()
        })
    }

    fn hold_covering(&self, c: &Application) -> Result<(), Violation> {
        let shortage = self.accounts.account(c.maker, c.set, c.year)?.shortage();
        hold(shortage >= i128::from(c.mg), || {
            format!("{} Mg were applied to a shortage of {shortage}", c.mg)
        })?;
        hold(i128::from(c.year) <= i128::from(c.vintage) + 5, || {
            format!("vintage {} covered the later year {}", c.vintage, c.year)
        })?;
        hold(i128::from(c.vintage) <= i128::from(c.year) + 3, || {
            format!("vintage {} covered the earlier year {}", c.vintage, c.year)
        })
    }

    fn hold_touched(&self, call: &Call, book: &Book) -> Result<(), Violation> {
        match call {
            Call::File(c) | Call::Small(c) | Call::Amend(c) => {
                self.hold_place(book, c.maker, c.set, c.year)
            }
            Call::Close { year } => {
                self.hold_open_year(book)?;
                self.hold_year(book, *year)
            }
            Call::Trade(c) => {
                self.hold_place(book, c.from, c.set, c.vintage)?;
                self.hold_place(book, c.to, c.set, c.vintage)
            }
            Call::Apply(c) => {
                self.hold_place(book, c.maker, c.set, c.vintage)?;
                self.hold_place(book, c.maker, c.set, c.year)
            }
            Call::Retire(c) => self.hold_place(book, c.maker, c.set, c.vintage),
            Call::Cover(c) => (FIRST_YEAR..=LAST_YEAR)
                .try_for_each(|year| self.hold_place(book, c.maker, c.set, year)),
        }
    }

    fn hold_open_year(&self, book: &Book) -> Result<(), Violation> {
        let (open, own) = (book.open_year, self.accounts.open_year());
        hold(open == own, || {
            format!("the open year is {open}, the accounts give {own}")
        })
    }

    fn hold_year(&self, book: &Book, year: u64) -> Result<(), Violation> {
        for maker in 0..MAKERS as u64 {
            for set in 0..SETS as u64 {
                self.hold_place(book, maker, set, year)?;
            }
        }
        Ok(())
    }

    fn hold_place(&self, book: &Book, maker: u64, set: u64, year: u64) -> Result<(), Violation> {
        let account = self.accounts.account(maker, set, year)?;
        let (cell, index) = place(maker, set, year)?;
        let (lot, shortage) = (book.lots[cell][index], book.shortages[cell][index]);
        hold(i128::from(lot.0) == account.lot(), || {
            format!(
                "lot {maker} {set} {year} is {lot}, the accounts give {}",
                account.lot()
            )
        })?;
        hold(i128::from(shortage.0) == account.shortage(), || {
            format!(
                "shortage {maker} {set} {year} is {shortage}, the accounts give {}",
                account.shortage()
            )
        })
    }
}

/// The Mg of the years that are wanted.
fn total(figures: &[Mg; YEARS], wanted: impl Fn(u64) -> bool) -> u128 {
    let years = (FIRST_YEAR..).zip(figures);
    years
        .filter(|&(year, _)| wanted(year))
        .map(|(_, mg)| u128::from(mg.0))
        .sum()
}

fn hold(claim: bool, otherwise: impl FnOnce() -> String) -> Result<(), Violation> {
    if claim {
        Ok(())
    } else {
        Err(Violation(otherwise()))
    }
}
