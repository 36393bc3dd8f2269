//! The accounts of a whole list of calls: fed the calls' arguments, the table
//! that each was handed, and, of each answer, only whether it was a refusal.
//! Of the book that the list begins with they have their opening figures and
//! its open year; nothing else is read from a book.

use crate::book::{cell, Book, CELLS, FAMILIES, MAKERS, SETS};
use crate::covering::oldest_first;
use crate::figuring::{rounded, year_index, Mg, Part, FIRST_YEAR, YEARS};
use crate::limits::Limits;
use crate::postings::{Application, Call, Cover, Filing};
use crate::standards::Table;
use std::array;
use std::collections::BTreeMap;

/// One maker, set and year. The paper's numbers have no bound; 128 bits hold
/// more than 2^63 calls of any 64-bit amount.
#[derive(Clone, Debug, Default, PartialEq, Eq)]
pub struct Account {
    /// Each family's, as last accepted, or as it was when the list began; all
    /// else is Mg.
    pub parts: BTreeMap<u64, Part>,
    /// What the lot and the shortage were when the list began.
    pub opening_lot: i128,
    pub opening_shortage: i128,
    pub earned: i128,
    pub shortfall: i128,
    pub bought: i128,
    pub sold: i128,
    pub applied: i128,
    pub retired: i128,
    pub covered: i128,
}

impl Account {
    /// In part units.
    pub fn sum(&self) -> i128 {
        self.parts.values().map(|part| i128::from(part.0)).sum()
    }

    pub fn lot(&self) -> i128 {
        let into = self.opening_lot + self.earned + self.bought;
        into - self.sold - self.applied - self.retired
    }

    pub fn shortage(&self) -> i128 {
        self.opening_shortage + self.shortfall - self.covered
    }

    fn close(&mut self) {
        let net = rounded(self.sum());
        if net > 0 {
            self.earned = net;
        } else {
            self.shortfall = -net;
        }
    }
}

/// An accepted call named a place or a figure that no account has, or was
/// figured under a table that is not accepted.
#[derive(Clone, Copy, Debug, PartialEq, Eq)]
pub struct OutOfPlace;

#[derive(Clone, Debug, PartialEq, Eq)]
pub struct Accounts {
    /// That of the first book, and one more for each accepted close.
    open_year: u64,
    by_cell: Vec<[Account; YEARS]>,
}

impl Default for Accounts {
    fn default() -> Self {
        Accounts {
            open_year: FIRST_YEAR,
            by_cell: vec![array::from_fn(|_| Account::default()); CELLS],
        }
    }
}

impl Accounts {
    /// Of a list that begins with this book.
    pub fn opened(book: &Book) -> Self {
        let mut accounts = Accounts {
            open_year: book.open_year,
            ..Accounts::default()
        };
        for (cell, years) in accounts.by_cell.iter_mut().enumerate() {
            for (year, account) in years.iter_mut().enumerate() {
                account.opening_lot = book.lots[cell][year].0.into();
                account.opening_shortage = book.shortages[cell][year].0.into();
            }
            // In 2038 the families of a book are no year's that can be closed.
            if let Some(year) = year_index(book.open_year) {
                years[year].parts = filed_parts(book, cell);
            }
        }
        accounts
    }

    /// Takes the next call of the list, with its table.
    pub fn feed(&mut self, table: &Table, call: &Call, accepted: bool) -> Result<(), OutOfPlace> {
        if !accepted {
            return Ok(());
        }
        match call {
            Call::File(filing) | Call::Amend(filing) => self.count(table, Limits::LARGE, filing)?,
            Call::Small(filing) => self.count(table, Limits::SMALL, filing)?,
            Call::Close { year } => self.close(*year)?,
            Call::Trade(c) => {
                self.account_mut(c.from, c.set, c.vintage)?.sold += i128::from(c.mg);
                self.account_mut(c.to, c.set, c.vintage)?.bought += i128::from(c.mg);
            }
            Call::Apply(application) => self.apply(application)?,
            Call::Retire(c) => {
                self.account_mut(c.maker, c.set, c.vintage)?.retired += i128::from(c.mg);
            }
            Call::Cover(cover) => {
                for application in self.made_by(cover)? {
                    self.apply(&application)?;
                }
            }
        }
        Ok(())
    }

    pub fn open_year(&self) -> u64 {
        self.open_year
    }

    /// The applications that a cover put now counts as, by its rule from these
    /// balances.
    pub fn made_by(&self, cover: &Cover) -> Result<Vec<Application>, OutOfPlace> {
        let (cell, _) = place(cover.maker, cover.set, FIRST_YEAR)?;
        let years = &self.by_cell[cell];
        let lots = array::from_fn(|year| payable(years[year].lot()));
        let shortages = array::from_fn(|year| payable(years[year].shortage()));
        Ok(oldest_first(cover, self.open_year, lots, shortages))
    }

    pub fn account(&self, maker: u64, set: u64, year: u64) -> Result<&Account, OutOfPlace> {
        let (cell, year) = place(maker, set, year)?;
        Ok(&self.by_cell[cell][year])
    }

    fn account_mut(&mut self, maker: u64, set: u64, year: u64) -> Result<&mut Account, OutOfPlace> {
        let (cell, year) = place(maker, set, year)?;
        Ok(&mut self.by_cell[cell][year])
    }

    /// A family counts with these figures, under the standard that they name
    /// by this table, in place of those it counted with.
    fn count(&mut self, table: &Table, limits: Limits, filing: &Filing) -> Result<(), OutOfPlace> {
        if !table.is_accepted() || limits.place(filing.family).is_none() {
            return Err(OutOfPlace);
        }
        let part = table
            .named_standard(filing.edition, filing.set, filing.usage, filing.year)
            .and_then(|standard| limits.part(standard, &filing.figures))
            .ok_or(OutOfPlace)?;
        let account = self.account_mut(filing.maker, filing.set, filing.year)?;
        account.parts.insert(filing.family, part);
        Ok(())
    }

    fn close(&mut self, year: u64) -> Result<(), OutOfPlace> {
        let year = year_index(year).ok_or(OutOfPlace)?;
        for years in &mut self.by_cell {
            years[year].close();
        }
        self.open_year += 1;
        Ok(())
    }

    fn apply(&mut self, c: &Application) -> Result<(), OutOfPlace> {
        self.account_mut(c.maker, c.set, c.vintage)?.applied += i128::from(c.mg);
        self.account_mut(c.maker, c.set, c.year)?.covered += i128::from(c.mg);
        Ok(())
    }
}

/// What of a balance an application can name; of one below 0, which no book
/// has, nothing.
fn payable(balance: i128) -> Mg {
    Mg(balance.clamp(0, u64::MAX.into()) as u64)
}

fn filed_parts(book: &Book, cell: usize) -> BTreeMap<u64, Part> {
    (0..FAMILIES)
        .filter(|family| book.marks[cell] >> family & 1 == 1)
        .map(|family| (family as u64, book.parts[cell][family]))
        .collect()
}

/// The place of a maker, set and year in arrays by cell and year.
pub fn place(maker: u64, set: u64, year: u64) -> Result<(usize, usize), OutOfPlace> {
    let year = year_index(year).ok_or(OutOfPlace)?;
    match (usize::try_from(maker), usize::try_from(set)) {
        (Ok(maker), Ok(set)) if maker < MAKERS && set < SETS => Ok((cell(maker, set), year)),
        _ => Err(OutOfPlace),
    }
}
