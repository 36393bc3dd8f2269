//! Sound books: with figures in every place, in a few, and at their largest.

use crate::book::{
    cell, Book, CELLS, FAMILIES, LOTS_LIMIT, MAKERS, PART_LIMIT, SETS, SHORTAGE_LIMIT,
};
use crate::figuring::{Mg, Part, ALL_CLOSED, FIRST_YEAR, HALF_A_MG, PARTS_IN_A_MG};
use crate::generate::{rng::Rng, TELLING_YEARS};

/// Any, and often a telling one.
pub(super) fn some_open_year(rng: &mut Rng) -> u64 {
    if rng.once_in(3) {
        rng.between(*TELLING_YEARS.start(), *TELLING_YEARS.end())
    } else {
        rng.between(FIRST_YEAR, ALL_CLOSED)
    }
}

pub(super) fn closed_years(open_year: u64) -> usize {
    (open_year - FIRST_YEAR) as usize
}

pub(super) fn sound_book(rng: &mut Rng, open_year: u64) -> Book {
    let mut book = Book::fresh();
    book.open_year = open_year;
    let closed = closed_years(open_year);
    for cell in 0..CELLS {
        book.marks[cell] = sound_mark(rng);
        book.parts[cell] = sound_parts(rng, book.marks[cell]);
    }
    for set in 0..SETS {
        for index in 0..closed {
            share_lots(rng, &mut book, set, index);
        }
    }
    for cell in 0..CELLS {
        if rng.once_in(2) {
            for shortage in &mut book.shortages[cell][..closed] {
                *shortage = sound_shortage(rng);
            }
        }
    }
    book
}

fn sound_mark(rng: &mut Rng) -> u64 {
    match rng.below(6) {
        0 => 0,
        1 => u64::MAX,
        2 => 1 << rng.below(64),
        3 => rng.draw() & rng.draw() & rng.draw(),
        _ => rng.draw(),
    }
}

fn sound_parts(rng: &mut Rng, mark: u64) -> [Part; FAMILIES] {
    let limit = PART_LIMIT as i64;
    // Room for the one part that brings the sum near a half.
    let room = limit - PARTS_IN_A_MG;
    let style = rng.below(5);
    let mut parts = [Part(0); FAMILIES];
    for family in (0..FAMILIES).filter(|family| mark >> family & 1 == 1) {
        parts[family] = Part(match style {
            0 => limit,
            1 => -limit,
            _ if rng.once_in(8) => 0,
            2 => up_to(rng, PARTS_IN_A_MG),
            _ => up_to(rng, room),
        });
    }
    let first = mark.trailing_zeros() as usize;
    if style >= 2 && first < FAMILIES && !rng.once_in(4) {
        let sum: i64 = parts.iter().map(|part| part.0).sum();
        let near = HALF_A_MG + up_to(rng, 1);
        parts[first].0 += near - sum.rem_euclid(PARTS_IN_A_MG);
    }
    parts
}

/// A number whose size is at most `most`.
fn up_to(rng: &mut Rng, most: i64) -> i64 {
    rng.below(2 * most as u64 + 1) as i64 - most
}

/// Shares out an amount up to the limit among the makers.
fn share_lots(rng: &mut Rng, book: &mut Book, set: usize, index: usize) {
    let mut rest = match rng.below(5) {
        0 => 0,
        1 => LOTS_LIMIT.0,
        2 => rng.below(1_000),
        _ => rng.below(LOTS_LIMIT.0 + 1),
    };
    let start = rng.index(MAKERS);
    for turn in 0..MAKERS {
        let lot = match rng.below(4) {
            _ if turn + 1 == MAKERS => rest,
            0 => 0,
            _ => rng.below(rest + 1),
        };
        book.lots[cell((start + turn) % MAKERS, set)][index] = Mg(lot);
        rest -= lot;
    }
}

fn sound_shortage(rng: &mut Rng) -> Mg {
    match rng.below(8) {
        0 => SHORTAGE_LIMIT,
        1 => Mg(1),
        2 | 3 => Mg(rng.below(SHORTAGE_LIMIT.0 + 1)),
        _ => Mg(0),
    }
}

/// A few families, lots and shortages, at the ends of their limits often.
pub fn sparse_book(rng: &mut Rng) -> Book {
    let mut book = Book::fresh();
    book.open_year = some_open_year(rng);
    for _ in 0..rng.below(7) {
        let (cell, family) = (rng.index(CELLS), rng.index(FAMILIES));
        book.marks[cell] |= 1 << family;
        book.parts[cell][family] = telling_part(rng);
    }
    let closed = closed_years(book.open_year);
    if closed > 0 {
        for _ in 0..rng.below(7) {
            // One lot of each set and vintage at most, so that any is sound.
            let (set, index) = (rng.index(SETS), rng.index(closed));
            if (0..MAKERS).all(|maker| book.lots[cell(maker, set)][index] == Mg(0)) {
                book.lots[cell(rng.index(MAKERS), set)][index] = telling_mg(rng, LOTS_LIMIT);
            }
        }
        for _ in 0..rng.below(7) {
            let (cell, index) = (rng.index(CELLS), rng.index(closed));
            book.shortages[cell][index] = telling_mg(rng, SHORTAGE_LIMIT);
        }
    }
    book
}

fn telling_part(rng: &mut Rng) -> Part {
    let limit = PART_LIMIT as i64;
    Part(match rng.below(8) {
        0 | 1 => 0,
        2 => limit,
        3 => -limit,
        4 => up_to(rng, 10),
        _ => up_to(rng, limit),
    })
}

fn telling_mg(rng: &mut Rng, limit: Mg) -> Mg {
    match rng.below(4) {
        0 => limit,
        1 => Mg(rng.between(1, 10)),
        _ => Mg(rng.between(1, limit.0)),
    }
}

/// Every family filed, and a lot and a shortage in every place before the open
/// year, which is one of the last.
pub fn full_book(rng: &mut Rng) -> Book {
    let mut book = Book::fresh();
    book.open_year = rng.between(ALL_CLOSED - 1, ALL_CLOSED);
    let closed = closed_years(book.open_year);
    let part = [PART_LIMIT as i64, -(PART_LIMIT as i64), 0][rng.index(3)];
    let share = LOTS_LIMIT.0 / MAKERS as u64;
    for cell in 0..CELLS {
        book.marks[cell] = u64::MAX;
        book.parts[cell] = [Part(part); FAMILIES];
        book.lots[cell][..closed].fill(Mg(share));
        book.shortages[cell][..closed].fill(SHORTAGE_LIMIT);
    }
    book
}
