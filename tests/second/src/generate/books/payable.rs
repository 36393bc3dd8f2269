//! Sound books whose cells have many lots and shortages of like size, so that
//! covers end in every way.

use super::sound::closed_years;
use crate::book::{Book, CELLS, LOTS_LIMIT, MAKERS, SHORTAGE_LIMIT};
use crate::figuring::{Mg, ALL_CLOSED, FIRST_YEAR};
use crate::generate::rng::Rng;

/// The most that a lot or a shortage has in a cell; so much of every maker is
/// sound.
const MOST: [u64; 5] = [1, 3, 10, 1_000, SHORTAGE_LIMIT.0];

const _: () = assert!(SHORTAGE_LIMIT.0 * MAKERS as u64 <= LOTS_LIMIT.0);

pub fn payable_book(rng: &mut Rng) -> Book {
    let mut book = Book::fresh();
    book.open_year = match rng.below(4) {
        0 => ALL_CLOSED,
        _ => rng.between(FIRST_YEAR + 1, ALL_CLOSED),
    };
    let closed = closed_years(book.open_year);
    for cell in 0..CELLS {
        let most = MOST[rng.index(MOST.len())];
        for figures in [&mut book.lots, &mut book.shortages] {
            let gaps = rng.between(1, 4);
            for mg in &mut figures[cell][..closed] {
                *mg = some_mg(rng, most, gaps);
            }
        }
    }
    book
}

/// Nothing so often in five times.
fn some_mg(rng: &mut Rng, most: u64, gaps: u64) -> Mg {
    match rng.below(5) {
        turn if turn < gaps => Mg(0),
        4 if rng.once_in(3) => Mg(most),
        _ => Mg(rng.between(1, most)),
    }
}
