//! The seven postings, each with its refusals in the paper's checking order.

use crate::book::{cell, Book, CELLS, FAMILIES, MAKERS, SETS};
use crate::covering::oldest_first;
use crate::figuring::{is_live, is_open, rounded, year_index, Figures, Mg, Part, ALL_CLOSED};
use crate::limits::Limits;
use crate::standards::Table;

/// A call with its arguments other than the book and the table.
#[derive(Clone, Copy, Debug, PartialEq, Eq)]
pub enum Call {
    /// By the large entry.
    File(Filing),
    /// By the small makers' entry, to the same book.
    Small(Filing),
    /// Its figures take the place of those the family was filed with.
    Amend(Filing),
    Close {
        year: u64,
    },
    Trade(Trade),
    Apply(Application),
    Retire(Retirement),
    Cover(Cover),
}

#[derive(Clone, Copy, Debug, PartialEq, Eq)]
pub struct Filing {
    pub maker: u64,
    pub set: u64,
    pub year: u64,
    /// The paper's "use": 0 vocational, 1 tractor.
    pub usage: u64,
    /// 0 the table's standard, 1 and 2 the alternative one.
    pub edition: u64,
    pub family: u64,
    pub figures: Figures,
}

#[derive(Clone, Copy, Debug, PartialEq, Eq)]
pub struct Trade {
    pub from: u64,
    pub to: u64,
    pub set: u64,
    pub vintage: u64,
    pub mg: u64,
}

#[derive(Clone, Copy, Debug, PartialEq, Eq)]
pub struct Application {
    pub maker: u64,
    pub set: u64,
    pub vintage: u64,
    pub year: u64,
    pub mg: u64,
}

#[derive(Clone, Copy, Debug, PartialEq, Eq)]
pub struct Retirement {
    pub maker: u64,
    pub set: u64,
    pub vintage: u64,
    pub mg: u64,
}

/// Pays the cell's open shortages from its live lots, oldest first.
#[derive(Clone, Copy, Debug, PartialEq, Eq)]
pub struct Cover {
    pub maker: u64,
    pub set: u64,
}

/// The results of an accepted call.
#[derive(Clone, Copy, Debug, PartialEq, Eq)]
pub enum Results {
    /// The part, and how many families of the cell are now filed.
    Filed { part: Part, families: u64 },
    /// How many cells closed short.
    Closed { short: u64 },
    /// What is left in the paying lot.
    Left(Mg),
    /// What a cover moved.
    Moved(Mg),
}

/// The refusal list; each value is the paper's number. `Table` is checked
/// between `UnsoundBook` and `Maker`, `NoEdition` between `NoStandard` and
/// `Family`, and `NotFiled` stands in an amendment in place of `AlreadyFiled`.
/// `StdLine` is of a table's text alone; `ShortBuffer` is of a book that is
/// written, after `UnsoundBook`, and `NotABook` of one that is read, before it.
#[derive(Clone, Copy, Debug, PartialEq, Eq)]
pub enum Refusal {
    NoForm = 1,
    UnsoundBook = 2,
    Maker = 3,
    Set = 4,
    NotTheOpenYear = 5,
    NoStandard = 6,
    Family = 7,
    Limits = 8,
    AlreadyFiled = 9,
    VintageNotLive = 10,
    AmountZero = 11,
    SameMaker = 12,
    MakerIsShort = 13,
    NoOpenShortage = 14,
    AboveTheLot = 15,
    AboveTheShortage = 16,
    NoEdition = 17,
    NotFiled = 18,
    StdLine = 19,
    Table = 20,
    ShortBuffer = 21,
    NotABook = 22,
}

impl Refusal {
    pub fn number(self) -> u8 {
        self as u8
    }
}

pub type Answer = Result<Results, Refusal>;

/// Posts a call to the book in place; a refusal leaves the book as it was. Only
/// filings and amendments read the table.
pub fn post(book: &mut Book, table: &Table, call: &Call) -> Answer {
    require(book.is_sound(), Refusal::UnsoundBook)?;
    match call {
        Call::File(filing) => file(book, table, Limits::LARGE, filing),
        Call::Small(filing) => file(book, table, Limits::SMALL, filing),
        Call::Amend(amended) => amend(book, table, amended),
        Call::Close { year } => close(book, *year),
        Call::Trade(trade) => post_trade(book, trade),
        Call::Apply(application) => apply(book, application),
        Call::Retire(retirement) => retire(book, retirement),
        Call::Cover(named) => cover(book, named),
    }
}

/// Posts a filing by any pair of limits. The two entries are two such pairs, and
/// the book keeps neither.
pub fn file_by(book: &mut Book, table: &Table, limits: Limits, filing: &Filing) -> Answer {
    require(book.is_sound(), Refusal::UnsoundBook)?;
    file(book, table, limits, filing)
}

// Each function below is handed a sound book and moves nothing before its
// last check.

fn file(book: &mut Book, table: &Table, limits: Limits, filing: &Filing) -> Answer {
    let family = figured(book, table, limits, filing)?;
    require(!is_filed(book, &family), Refusal::AlreadyFiled)?;

    book.marks[family.cell] |= 1 << family.number;
    Ok(put(book, &family))
}

fn amend(book: &mut Book, table: &Table, amended: &Filing) -> Answer {
    let family = figured(book, table, Limits::LARGE, amended)?;
    require(is_filed(book, &family), Refusal::NotFiled)?;

    Ok(put(book, &family))
}

/// A family's place in the book, and the part it is to have.
struct Family {
    cell: usize,
    number: usize,
    part: Part,
}

/// What a filing and an amendment are asked alike: all but whether the family
/// is filed.
fn figured(book: &Book, table: &Table, limits: Limits, filing: &Filing) -> Result<Family, Refusal> {
    require(table.is_accepted(), Refusal::Table)?;
    let maker = known_maker(filing.maker)?;
    let set = known_set(filing.set)?;
    require_open_year(book, filing.year)?;
    let standard = standard_of(table, filing)?;
    let number = limits.place(filing.family).ok_or(Refusal::Family)?;
    let part = limits
        .part(standard, &filing.figures)
        .ok_or(Refusal::Limits)?;
    let cell = cell(maker, set);
    Ok(Family { cell, number, part })
}

fn is_filed(book: &Book, family: &Family) -> bool {
    book.marks[family.cell] >> family.number & 1 == 1
}

fn put(book: &mut Book, family: &Family) -> Results {
    let &Family { cell, number, part } = family;
    book.parts[cell][number] = part;
    Results::Filed {
        part,
        families: book.filed(cell),
    }
}

/// The standard that a filing names. Whatever its edition, refusal 6 goes by
/// the table; where that has a standard, what the named one lacks is an edition
/// that there is, or its sets or years.
fn standard_of(table: &Table, filing: &Filing) -> Result<u64, Refusal> {
    let &Filing {
        set,
        year,
        usage,
        edition,
        ..
    } = filing;
    let ordinary = table.standard(set, usage, year);
    require(ordinary.is_some(), Refusal::NoStandard)?;
    let named = table.named_standard(edition, set, usage, year);
    named.ok_or(Refusal::NoEdition)
}

fn close(book: &mut Book, year: u64) -> Answer {
    require_open_year(book, year)?;
    let closing = year_index(year).ok_or(Refusal::NotTheOpenYear)?;

    let mut short = 0;
    for cell in 0..CELLS {
        let sum = book.parts[cell].iter().map(|part| i128::from(part.0)).sum();
        let net = rounded(sum);
        // 64 sound parts come to less than 2.5 x 10^10 Mg.
        let mg = Mg(net.unsigned_abs() as u64);
        if net > 0 {
            book.lots[cell][closing] = mg;
        } else if net < 0 {
            book.shortages[cell][closing] = mg;
            short += 1;
        }
        book.marks[cell] = 0;
        book.parts[cell] = [Part(0); FAMILIES];
    }
    book.open_year += 1;
    Ok(Results::Closed { short })
}

fn post_trade(book: &mut Book, trade: &Trade) -> Answer {
    let from = known_maker(trade.from)?;
    let to = known_maker(trade.to)?;
    let set = known_set(trade.set)?;
    let vintage = live_vintage(book, trade.vintage)?;
    require(trade.mg > 0, Refusal::AmountZero)?;
    require(from != to, Refusal::SameMaker)?;
    let (seller, buyer) = (cell(from, set), cell(to, set));
    require_no_shortage(book, seller)?;
    let left = paid(book.lots[seller][vintage], trade.mg)?;

    book.lots[seller][vintage] = left;
    // Both lots are in the sum that soundness holds to 2 x 10^11.
    book.lots[buyer][vintage].0 += trade.mg;
    Ok(Results::Left(left))
}

fn apply(book: &mut Book, application: &Application) -> Answer {
    let maker = known_maker(application.maker)?;
    let set = known_set(application.set)?;
    let vintage = live_vintage(book, application.vintage)?;
    require(application.mg > 0, Refusal::AmountZero)?;
    let cell = cell(maker, set);
    let year = open_shortage(book, cell, application.year)?;
    let left = paid(book.lots[cell][vintage], application.mg)?;
    let uncovered = book.shortages[cell][year]
        .0
        .checked_sub(application.mg)
        .ok_or(Refusal::AboveTheShortage)?;

    book.lots[cell][vintage] = left;
    book.shortages[cell][year] = Mg(uncovered);
    Ok(Results::Left(left))
}

fn retire(book: &mut Book, retirement: &Retirement) -> Answer {
    let maker = known_maker(retirement.maker)?;
    let set = known_set(retirement.set)?;
    let vintage = live_vintage(book, retirement.vintage)?;
    require(retirement.mg > 0, Refusal::AmountZero)?;
    let cell = cell(maker, set);
    require_no_shortage(book, cell)?;
    let left = paid(book.lots[cell][vintage], retirement.mg)?;

    book.lots[cell][vintage] = left;
    Ok(Results::Left(left))
}

/// Nothing to move is no refusal. Of its applications none is refused: each
/// names a live lot and an open shortage, and no more than both have.
fn cover(book: &mut Book, named: &Cover) -> Answer {
    let maker = known_maker(named.maker)?;
    let set = known_set(named.set)?;
    let cell = cell(maker, set);
    let (lots, shortages) = (book.lots[cell], book.shortages[cell]);

    let mut moved = Mg(0);
    for application in oldest_first(named, book.open_year, lots, shortages) {
        apply(book, &application)?;
        moved.0 += application.mg;
    }
    Ok(Results::Moved(moved))
}

fn require(holds: bool, refusal: Refusal) -> Result<(), Refusal> {
    if holds {
        Ok(())
    } else {
        Err(refusal)
    }
}

fn below(number: u64, limit: usize) -> Option<usize> {
    usize::try_from(number).ok().filter(|&n| n < limit)
}

fn known_maker(maker: u64) -> Result<usize, Refusal> {
    below(maker, MAKERS).ok_or(Refusal::Maker)
}

fn known_set(set: u64) -> Result<usize, Refusal> {
    below(set, SETS).ok_or(Refusal::Set)
}

fn require_open_year(book: &Book, year: u64) -> Result<(), Refusal> {
    require(
        year == book.open_year && book.open_year != ALL_CLOSED,
        Refusal::NotTheOpenYear,
    )
}

/// The place of a live vintage.
fn live_vintage(book: &Book, vintage: u64) -> Result<usize, Refusal> {
    year_index(vintage)
        .filter(|_| is_live(book.open_year, vintage))
        .ok_or(Refusal::VintageNotLive)
}

/// The place of a year whose shortage in the cell is open and above 0.
fn open_shortage(book: &Book, cell: usize, year: u64) -> Result<usize, Refusal> {
    year_index(year)
        .filter(|&index| is_open(book.open_year, year) && book.shortages[cell][index] > Mg(0))
        .ok_or(Refusal::NoOpenShortage)
}

/// A shortage of any year, open or overdue, stops selling and retiring.
fn require_no_shortage(book: &Book, cell: usize) -> Result<(), Refusal> {
    let none = book.shortages[cell].iter().all(|&mg| mg == Mg(0));
    require(none, Refusal::MakerIsShort)
}

/// What is left of a lot that pays `mg`.
fn paid(lot: Mg, mg: u64) -> Result<Mg, Refusal> {
    lot.0.checked_sub(mg).map(Mg).ok_or(Refusal::AboveTheLot)
}
