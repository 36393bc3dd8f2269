//! Texts of books: right ones, ones of books that are not sound, bent ones,
//! near ones and others.

use super::book_bends::BENDS;
use super::books::{full_book, payable_book, sparse_book, Make};
use super::lines::{huge, Text};
use super::rng::Rng;
use super::std_texts::std_text;
use super::{session, Kind, Script};
use crate::book::{Book, CELLS, FAMILIES};
use crate::figuring::{Mg, Part, ALL_CLOSED, YEARS};
use crate::listing::list;
use crate::standards::Table;
use crate::written::text_of;

/// Apart from the numbers that a session of the same seed draws.
const APART: u64 = 0x626f_6f6b_2e74_7874;

/// The greatest number of 18 digits.
const GREATEST: u64 = 999_999_999_999_999_999;

/// The text of a seed. About two in five are accepted.
pub fn book_text(seed: u64) -> Vec<u8> {
    let rng = &mut Rng::new(seed ^ APART);
    match rng.below(24) {
        0..=7 => text_of(&some_book(rng)).into(),
        8..=10 => text_of(&Make::unsound(rng).book(rng)).into(),
        11..=17 => bent(rng, 1),
        18 => bent(rng, 2),
        19..=21 => near(rng),
        _ => strange(rng),
    }
}

/// A sound book, as a terminal may have it at any moment or at the ends of what
/// is sound.
pub fn some_book(rng: &mut Rng) -> Book {
    match rng.below(16) {
        0 => Book::fresh(),
        1 => full_book(rng),
        2..=4 => Make::Sound.book(rng),
        5..=9 => played_book(rng),
        10 => Book {
            open_year: ALL_CLOSED,
            ..sparse_book(rng)
        },
        11 => payable_book(rng),
        _ => sparse_book(rng),
    }
}

/// As it is after some lines of a session.
fn played_book(rng: &mut Rng) -> Book {
    let mut script = Script::begun(Book::fresh(), Table::built_in(), rng.draw());
    for _ in 0..rng.below(400) {
        if script.rng.once_in(20) {
            script.close();
        } else {
            script.plausible_line();
        }
    }
    script.book
}

/// A text with so many bends; of a book that may be unsound, so that 22 has to
/// come before 2.
fn bent(rng: &mut Rng, bends: usize) -> Vec<u8> {
    let book = match rng.below(6) {
        0 => Make::unsound(rng).book(rng),
        1 => some_book(rng),
        _ => sparse_book(rng),
    };
    let mut text = Text::of(&text_of(&book));
    for _ in 0..bends {
        BENDS[rng.index(BENDS.len())](&mut text, rng);
    }
    text.bytes()
}

/// A right text but for a few bytes.
fn near(rng: &mut Rng) -> Vec<u8> {
    let book = match rng.below(4) {
        0 => some_book(rng),
        _ => sparse_book(rng),
    };
    let mut text = text_of(&book).into_bytes();
    for _ in 0..rng.between(1, 3) {
        let at = rng.index(text.len());
        match rng.below(8) {
            0 => drop(text.remove(at)),
            1 => text.insert(at, text[at]),
            2 => text.insert(at, b"0123456789 -()\n"[rng.index(15)]),
            3 => text[at] = rng.draw() as u8,
            4 => text[at] = b"0123456789 -()\n\r\t\0"[rng.index(18)],
            5 if at > 0 => text.swap(at - 1, at),
            // A digit by another.
            _ => {
                let digits: Vec<usize> = (0..text.len())
                    .filter(|&at| text[at].is_ascii_digit())
                    .collect();
                if let Some(&at) = rng.pick(&digits) {
                    text[at] = b'0' + rng.below(10) as u8;
                }
            }
        }
        if text.is_empty() {
            break;
        }
    }
    text
}

fn strange(rng: &mut Rng) -> Vec<u8> {
    let book = some_book(rng);
    let text = text_of(&book).into_bytes();
    match rng.below(12) {
        0 => Vec::new(),
        1 => b"\n".repeat(rng.between(1, 3) as usize),
        2 | 3 => text[..rng.index(text.len())].into(),
        4 => [b"\xef\xbb\xbf", text.as_slice()].concat(),
        5 => text.repeat(2),
        6 if rng.once_in(4) => huge(rng, text),
        6 | 7 => longest(rng),
        8 => std_text(rng.draw()),
        9 => session(Kind::Years, rng.draw(), 20),
        10 => listed(&book),
        _ => (0..rng.below(300)).map(|_| rng.draw() as u8).collect(),
    }
}

/// The longest text that is of the form, of no sound book; or one byte more.
fn longest(rng: &mut Rng) -> Vec<u8> {
    let book = Book {
        open_year: GREATEST,
        marks: [u64::MAX; CELLS],
        parts: [[Part(-(GREATEST as i64)); FAMILIES]; CELLS],
        lots: [[Mg(GREATEST); YEARS]; CELLS],
        shortages: [[Mg(GREATEST); YEARS]; CELLS],
    };
    let mut text = text_of(&book).into_bytes();
    if rng.once_in(2) {
        text.push(b'\n');
    }
    text
}

fn listed(book: &Book) -> Vec<u8> {
    let mut listing = text_of(&Book::fresh()).into_bytes();
    list(book, &mut listing).expect("bytes can be written");
    listing
}
