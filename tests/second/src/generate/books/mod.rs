//! Books for testing: sound ones, ones with a fault, and any others.

mod faulty;
mod payable;
mod sound;

use super::rng::Rng;
use crate::book::{Book, CELLS, FAMILIES, LOTS_LIMIT, PART_LIMIT, SHORTAGE_LIMIT};
use crate::figuring::{Mg, Part, ALL_CLOSED, FIRST_YEAR, YEARS};
pub use faulty::Fault;
use faulty::{faulty_book, FAULTS};
pub use payable::payable_book;
pub use sound::{full_book, sparse_book};
use sound::{some_open_year, sound_book};

/// How a book is made.
#[derive(Clone, Copy, Debug)]
pub enum Make {
    /// Sound, with figures in every place.
    Sound,
    /// Sound, with lots and shortages of like size.
    Payable,
    /// Sound but for one fault.
    Fault(Fault),
    /// Sound but for a few places that hold anything.
    Touched,
    /// Anything in every place.
    Wild,
}

impl Make {
    pub fn drawn(rng: &mut Rng) -> Self {
        match rng.below(20) {
            0..=10 => Make::Sound,
            11 | 12 => Make::Payable,
            13..=16 => Make::Fault(FAULTS[rng.index(FAULTS.len())]),
            17 | 18 => Make::Touched,
            _ => Make::Wild,
        }
    }

    /// A way to make a book that is not sound, or hardly is.
    pub fn unsound(rng: &mut Rng) -> Self {
        match rng.below(8) {
            0 => Make::Touched,
            1 => Make::Wild,
            _ => Make::Fault(FAULTS[rng.index(FAULTS.len())]),
        }
    }

    /// Whether its books are sound, where that is known beforehand.
    pub fn soundness(self) -> Option<bool> {
        match self {
            Make::Sound | Make::Payable => Some(true),
            Make::Fault(_) => Some(false),
            Make::Touched | Make::Wild => None,
        }
    }

    pub fn book(self, rng: &mut Rng) -> Book {
        match self {
            Make::Sound => {
                let open_year = some_open_year(rng);
                sound_book(rng, open_year)
            }
            Make::Payable => payable_book(rng),
            Make::Fault(fault) => faulty_book(rng, fault),
            Make::Touched => touched_book(rng),
            Make::Wild => wild_book(rng),
        }
    }
}

/// A place of a table, its last one often.
fn place(rng: &mut Rng, length: usize) -> usize {
    if rng.once_in(4) {
        length - 1
    } else {
        rng.index(length)
    }
}

fn touched_book(rng: &mut Rng) -> Book {
    let open_year = rng.between(FIRST_YEAR, ALL_CLOSED);
    let mut book = sound_book(rng, open_year);
    for _ in 0..rng.between(1, 3) {
        let at = place(rng, CELLS);
        let word = any(rng);
        match rng.below(5) {
            0 => book.open_year = word,
            1 => book.marks[at] = word,
            2 => book.parts[at][place(rng, FAMILIES)] = Part(word as i64),
            3 => book.lots[at][place(rng, YEARS)] = Mg(word),
            _ => book.shortages[at][place(rng, YEARS)] = Mg(word),
        }
    }
    book
}

fn wild_book(rng: &mut Rng) -> Book {
    let mut book = Book::fresh();
    book.open_year = any(rng);
    book.marks.fill_with(|| any(rng));
    book.parts
        .as_flattened_mut()
        .fill_with(|| Part(any(rng) as i64));
    book.lots.as_flattened_mut().fill_with(|| Mg(any(rng)));
    book.shortages.as_flattened_mut().fill_with(|| Mg(any(rng)));
    book
}

/// Any 64 bits, the ends of their ranges often.
pub fn any(rng: &mut Rng) -> u64 {
    let near = rng.below(3);
    match rng.below(10) {
        0 => near,
        1 => u64::MAX - near,
        2 => (1 << 63) + near,
        3 => (1 << 63) - 1 - near,
        4 => LOTS_LIMIT.0 + near,
        5 => SHORTAGE_LIMIT.0 + near,
        6 => PART_LIMIT + near,
        7 => (PART_LIMIT + near).wrapping_neg(),
        8 => rng.between(FIRST_YEAR - 1, ALL_CLOSED + 1),
        _ => rng.draw(),
    }
}
