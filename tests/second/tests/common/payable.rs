//! What a cell can pay, and what it lacks.

use super::book;
use second::book::{cell, Book};
use second::figuring::{is_live, is_open, Mg, FIRST_YEAR, YEARS};
use second::generate::books::{payable_book, Make};
use second::generate::rng::Rng;
use second::postings::{Application, Call, Cover};

/// The years with something above 0, and the Mg, oldest first.
pub type Figures = Vec<(u64, u64)>;

pub fn figures(years: &[Mg; YEARS], wanted: impl Fn(u64) -> bool) -> Figures {
    let years = (FIRST_YEAR..).zip(years.iter().map(|mg| mg.0));
    years.filter(|&(year, mg)| mg > 0 && wanted(year)).collect()
}

pub fn live_lots(book: &Book, cell: usize) -> Figures {
    figures(&book.lots[cell], |vintage| is_live(book.open_year, vintage))
}

pub fn open_shortages(book: &Book, cell: usize) -> Figures {
    figures(&book.shortages[cell], |year| is_open(book.open_year, year))
}

pub fn total(figures: &Figures) -> u64 {
    figures.iter().map(|&(_, mg)| mg).sum()
}

pub fn cell_of(cover: &Cover) -> usize {
    cell(cover.maker as usize, cover.set as usize)
}

/// A sound book with many lots and shortages.
pub fn many(rng: &mut Rng) -> Book {
    match rng.below(4) {
        0 => Make::Sound.book(rng),
        _ => payable_book(rng),
    }
}

pub fn applied(cover: &Cover, vintage: u64, year: u64, mg: u64) -> Call {
    let &Cover { maker, set } = cover;
    Call::Apply(Application {
        maker,
        set,
        vintage,
        year,
        mg,
    })
}

/// A cover, and a book in which it has much to pass over.
pub const COVER: Cover = Cover { maker: 1, set: 3 };

/// In 2021 vintages from 2015 on are live, and shortages from 2017 on open.
pub fn opened() -> Book {
    book(
        2021,
        &[
            (1, 3, 2014, 50),
            (1, 3, 2015, 4),
            (1, 3, 2018, 9),
            (1, 3, 2020, 7),
            (2, 3, 2015, 5),
        ],
        &[(1, 3, 2016, 50), (1, 3, 2017, 6), (1, 3, 2019, 5)],
    )
}
