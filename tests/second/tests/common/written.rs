//! A book and its text.

use super::book;
use second::book::{cell, Book};
use second::figuring::Part;
use second::written::read;

/// A book in 2017 with figures in every group.
pub const TEXT: &str = "\
(open 2017)
(family 0 2 63 38400000000000000)
(family 0 3 5 -2610000000)
(family 0 3 10 7)
(family 1 0 0 0)
(family 7 3 63 -38400000000000000)
(lot 0 3 2014 11980)
(lot 0 3 2016 1)
(lot 7 0 2015 200000000000)
(short 1 3 2014 61)
(short 1 3 2015 25000000000)
";

pub fn written_book() -> Book {
    let mut book = book(
        2017,
        &[
            (0, 3, 2014, 11_980),
            (0, 3, 2016, 1),
            (7, 0, 2015, 200_000_000_000),
        ],
        &[(1, 3, 2014, 61), (1, 3, 2015, 25_000_000_000)],
    );
    for (maker, set, family, part) in [
        (0, 2, 63, 38_400_000_000_000_000),
        (0, 3, 5, -2_610_000_000),
        (0, 3, 10, 7),
        (1, 0, 0, 0),
        (7, 3, 63, -38_400_000_000_000_000),
    ] {
        book.marks[cell(maker, set)] |= 1 << family;
        book.parts[cell(maker, set)][family] = Part(part);
    }
    book
}

/// The number that a text is refused by, or 0.
pub fn verdict(text: impl AsRef<[u8]>) -> u8 {
    read(text.as_ref()).map_or_else(|refusal| refusal.number(), |_| 0)
}
