//! Books that are sound but for one fault.

use super::place;
use super::sound::{closed_years, sound_book};
use crate::book::{
    cell, Book, CELLS, FAMILIES, LOTS_LIMIT, MAKERS, PART_LIMIT, SETS, SHORTAGE_LIMIT,
};
use crate::figuring::{Mg, Part, ALL_CLOSED, FIRST_YEAR, LAST_YEAR, YEARS};
use crate::generate::rng::Rng;

#[derive(Clone, Copy, Debug)]
pub enum Fault {
    PartAbove,
    PartBelow,
    PartUnmarked,
    ShortageAbove,
    TotalAbove,
    TotalWraps,
    LotFromOpenYearOn,
    ShortageFromOpenYearOn,
    OpenYearBefore,
    OpenYearAfter,
}

pub(super) const FAULTS: [Fault; 10] = [
    Fault::PartAbove,
    Fault::PartBelow,
    Fault::PartUnmarked,
    Fault::ShortageAbove,
    Fault::TotalAbove,
    Fault::TotalWraps,
    Fault::LotFromOpenYearOn,
    Fault::ShortageFromOpenYearOn,
    Fault::OpenYearBefore,
    Fault::OpenYearAfter,
];

pub(super) fn faulty_book(rng: &mut Rng, fault: Fault) -> Book {
    let (first, last) = match fault {
        Fault::ShortageAbove | Fault::TotalAbove | Fault::TotalWraps => {
            (FIRST_YEAR + 1, ALL_CLOSED)
        }
        Fault::LotFromOpenYearOn | Fault::ShortageFromOpenYearOn => (FIRST_YEAR, LAST_YEAR),
        Fault::OpenYearBefore => (FIRST_YEAR, FIRST_YEAR),
        _ => (FIRST_YEAR, ALL_CLOSED),
    };
    let open_year = rng.between(first, last);
    let mut book = sound_book(rng, open_year);
    let at = place(rng, CELLS);
    let set = place(rng, SETS);
    let family = place(rng, FAMILIES);
    let closed = closed_years(open_year);
    match fault {
        Fault::PartAbove => {
            book.marks[at] |= 1 << family;
            book.parts[at][family] = Part(pick(rng, PART_LIMIT as i64 + 1, i64::MAX));
        }
        Fault::PartBelow => {
            book.marks[at] |= 1 << family;
            book.parts[at][family] = Part(pick(rng, -(PART_LIMIT as i64) - 1, i64::MIN));
        }
        Fault::PartUnmarked => {
            book.marks[at] &= !(1 << family);
            book.parts[at][family] = Part(pick(rng, 1, -1));
        }
        Fault::ShortageAbove => {
            let index = place(rng, closed);
            book.shortages[at][index] = Mg(pick(rng, SHORTAGE_LIMIT.0 + 1, u64::MAX));
        }
        Fault::TotalAbove => {
            let index = place(rng, closed);
            let total: u64 = (0..MAKERS)
                .map(|maker| book.lots[cell(maker, set)][index].0)
                .sum();
            let maker = place(rng, MAKERS);
            book.lots[cell(maker, set)][index].0 += LOTS_LIMIT.0 + 1 - total;
        }
        Fault::TotalWraps => wrap_total(rng, &mut book, set, closed),
        Fault::LotFromOpenYearOn => {
            let index = closed + place(rng, YEARS - closed);
            book.lots[at][index] = Mg(pick(rng, 1, LOTS_LIMIT.0));
        }
        Fault::ShortageFromOpenYearOn => {
            let index = closed + place(rng, YEARS - closed);
            book.shortages[at][index] = Mg(pick(rng, 1, SHORTAGE_LIMIT.0));
        }
        Fault::OpenYearBefore => book.open_year = pick(rng, FIRST_YEAR - 1, 0),
        Fault::OpenYearAfter => book.open_year = pick(rng, ALL_CLOSED + 1, u64::MAX),
    }
    book
}

/// The lots of a vintage come to 2^64 and something within the limit.
fn wrap_total(rng: &mut Rng, book: &mut Book, set: usize, closed: usize) {
    let index = place(rng, closed);
    let one = rng.index(MAKERS);
    let other = (one + rng.between(1, MAKERS as u64 - 1) as usize) % MAKERS;
    for maker in 0..MAKERS {
        book.lots[cell(maker, set)][index] = Mg(0);
    }
    let lot = pick(rng, 1 << 63, 1);
    let rest = rng.below(LOTS_LIMIT.0 + 1).min(lot - 1);
    book.lots[cell(one, set)][index] = Mg(lot);
    book.lots[cell(other, set)][index] = Mg(u64::MAX - lot + 1 + rest);
}

/// The first mostly, the second at times.
fn pick<T>(rng: &mut Rng, usual: T, far: T) -> T {
    if rng.once_in(4) {
        far
    } else {
        usual
    }
}
