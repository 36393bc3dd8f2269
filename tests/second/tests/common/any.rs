//! Any books in the middle of a year, any filings by either entry and any
//! amendments.

use super::{post, BUILT_IN};
use second::book::{cell, Book, MAKERS, SETS};
use second::figuring::Figures;
use second::generate::rng::Rng;
use second::generate::{session, Kind};
use second::postings::{Call, Filing};
use second::text::parse;

pub fn calls(input: &[u8]) -> Vec<Call> {
    let lines = input.split(|&byte| byte == b'\n');
    lines.filter_map(parse).collect()
}

/// A book in the middle of a year; once in ten, one that is not sound.
pub fn begun(rng: &mut Rng) -> Book {
    let mut book = Book::fresh();
    let calls = calls(&session(Kind::Years, rng.draw(), 600));
    for call in &calls[..rng.index(calls.len())] {
        let _ = post(&mut book, call);
    }
    if rng.once_in(10) {
        book.open_year = 2013;
    }
    book
}

/// A figure within 1 to `most`; of an odd filing also just outside, or any.
fn figure(rng: &mut Rng, most: u64, odd: bool) -> u64 {
    match rng.below(if odd { 6 } else { 24 }) {
        0 => most,
        1 if odd => 0,
        2 if odd => most + 1,
        3 if odd => rng.draw(),
        _ => rng.between(1, most),
    }
}

/// One of the three where there are that many; of an odd filing also one more.
fn any_edition(rng: &mut Rng, year: u64, odd: bool) -> u64 {
    match year {
        _ if odd && rng.once_in(4) => rng.below(4),
        2024..=2026 => rng.below(3),
        _ => 0,
    }
}

/// Any filing, one in six with something outside its limits. A `narrow` one
/// names maker 0 in set 2 or 3, so that many of them fill these cells.
pub fn any_filing(rng: &mut Rng, year: u64, narrow: bool) -> Filing {
    let odd = rng.once_in(6);
    let usage = rng.below(if odd { 3 } else { 2 });
    let edition = any_edition(rng, year, odd);
    let level = match rng.below(8) {
        0 => {
            let named = BUILT_IN.named_standard(edition, 2, usage, year);
            named.unwrap_or(1)
        }
        _ => figure(rng, 1_200, odd),
    };
    Filing {
        maker: if narrow {
            0
        } else {
            rng.below(if odd { 10 } else { 8 })
        },
        // A set above 3 may have the cell number of another maker's cell.
        set: match (narrow, odd) {
            (true, _) => rng.between(2, 3),
            (false, true) => rng.below(9),
            (false, false) => rng.below(4),
        },
        year: if odd && rng.once_in(4) {
            rng.draw()
        } else {
            year
        },
        usage,
        edition,
        family: rng.below(if odd { 70 } else { 64 }),
        figures: Figures {
            fcl: level,
            cf: figure(rng, 1_000_000, odd),
            volume: figure(rng, 100_000, odd),
            life: figure(rng, 500, odd),
        },
    }
}

/// By the small entry, its number and its volume within that once in two each.
pub fn any_small(rng: &mut Rng, mut filing: Filing) -> Call {
    if rng.once_in(2) {
        filing.family = filing.family.min(rng.between(0, 16));
    }
    if rng.once_in(2) {
        let most = rng.between(1, 5_001);
        filing.figures.volume = filing.figures.volume.min(most);
    }
    Call::Small(filing)
}

/// Any filing by either entry.
pub fn any_entry(rng: &mut Rng, year: u64, narrow: bool) -> Call {
    let filing = any_filing(rng, year, narrow);
    match rng.below(2) {
        0 => any_small(rng, filing),
        _ => Call::File(filing),
    }
}

/// Files some of any families more, by either entry.
pub fn fill(book: &mut Book, rng: &mut Rng, narrow: bool) {
    let year = book.open_year;
    for _ in 0..rng.below(200) {
        let _ = post(book, &any_entry(rng, year, narrow));
    }
}

/// As any filing, most often of a family that the book has.
pub fn any_amendment(rng: &mut Rng, book: &Book, year: u64, narrow: bool) -> Filing {
    let any = any_filing(rng, year, narrow);
    let known = any.maker < MAKERS as u64 && any.set < SETS as u64;
    if !known || rng.once_in(4) {
        return any;
    }
    let mark = book.marks[cell(any.maker as usize, any.set as usize)];
    let filed: Vec<u64> = (0..64).filter(|family| mark >> family & 1 == 1).collect();
    Filing {
        family: rng.pick(&filed).copied().unwrap_or(any.family),
        ..any
    }
}

/// Hands `see` each of 120 books a hundred times over, as it left it the last
/// time, and whether its filings are narrow.
pub fn each_book(seed: u64, mut see: impl FnMut(&mut Book, &mut Rng, bool)) {
    let mut rng = Rng::new(seed);
    for _ in 0..120 {
        let mut book = begun(&mut rng);
        let narrow = rng.once_in(2);
        fill(&mut book, &mut rng, narrow);
        for _ in 0..100 {
            see(&mut book, &mut rng, narrow);
        }
    }
}

/// The same each time with any filing, seldom of another year than the open one.
pub fn each_filing(seed: u64, mut see: impl FnMut(&mut Book, &mut Rng, Filing)) {
    each_book(seed, |book, rng, narrow| {
        let year = match rng.below(24) {
            0 => book.open_year + 1,
            1 => rng.draw(),
            _ => book.open_year,
        };
        let filing = any_filing(rng, year, narrow);
        see(book, rng, filing);
    });
}
