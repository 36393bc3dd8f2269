//! One book and some bytes as a record: the bytes are read as a book's text,
//! and the book is written over them.

use crate::calls::{CALL_WORDS, TEXT};
use crate::words::{hold_answer, next_bytes, record};
use second::book::Book;
use second::generate::book_texts::{book_text, some_book};
use second::generate::books::{any, Make};
use second::generate::rng::Rng;
use second::postings::Refusal;
use second::standards::Table;
use second::written::{read_in, text_of, write};
use std::io::Read;

/// The most bytes that a record may have, one more than the room of a written
/// book.
pub const MOST: usize = 229_441;

const NAMES: [&str; 4] = [
    "soundness",
    "refusal when written",
    "length",
    "refusal when read",
];

pub struct TextCase {
    pub book: Book,
    pub bytes: Vec<u8>,
    call: [u64; CALL_WORDS],
    table: Table,
}

/// What a record of a text got in both.
pub struct Outcome {
    pub written: Result<usize, Refusal>,
    pub read: Result<(), Refusal>,
}

impl TextCase {
    pub fn drawn(rng: &mut Rng) -> Self {
        let book = match rng.below(3) {
            0 => Make::drawn(rng).book(rng),
            1 => Make::unsound(rng).book(rng),
            _ => some_book(rng),
        };
        let mut bytes = match rng.below(2) {
            0 => book_text(rng.draw()),
            _ => buffer(rng, &book),
        };
        bytes.truncate(MOST);
        // Of the arguments only the first counts, and the table not at all.
        let mut call = [0; CALL_WORDS];
        call.fill_with(|| any(rng));
        call[0] = TEXT as u64;
        call[1] = bytes.len() as u64;
        TextCase {
            book,
            bytes,
            call,
            table: Table::built_in(),
        }
    }

    pub fn told(&self) -> String {
        let length = self.bytes.len();
        let text = text_of(&self.book).len();
        format!("a book whose text has {text} bytes, {length} bytes lent")
    }

    /// The same with another number of bytes than there are.
    pub fn record_with(&self, length: u64) -> Vec<u8> {
        let mut call = self.call;
        call[1] = length;
        let mut bytes = record(&self.book, &call, &self.table);
        bytes.extend(&self.bytes);
        bytes
    }

    pub fn record(&self) -> Vec<u8> {
        self.record_with(self.bytes.len() as u64)
    }

    /// What it got in both, or the first difference in words.
    pub fn hold(&self, answers: &mut impl Read) -> Result<Outcome, String> {
        let mut buffer = self.bytes.clone();
        let written = write(&self.book, &mut buffer);
        let mut after = self.book.clone();
        let read = read_in(&mut after, &self.bytes);
        let (refused, length) = match written {
            Ok(length) => (0, length as u64),
            Err(refusal) => (u64::from(refusal.number()), 0),
        };
        let sound = u64::from(self.book.is_sound());
        let not_read = read.err().map_or(0, |refusal| refusal.number().into());
        hold_answer(answers, NAMES, [sound, refused, length, not_read], &after)?;
        let theirs = next_bytes(answers, buffer.len())?;
        match theirs.iter().zip(&buffer).position(|(a, b)| a != b) {
            None => Ok(Outcome { written, read }),
            Some(at) => Err(format!(
                "byte {at} of the buffer: program {}, second {}",
                theirs[at], buffer[at]
            )),
        }
    }
}

/// Of a length that tells, filled with anything or with the book's own text.
fn buffer(rng: &mut Rng, book: &Book) -> Vec<u8> {
    let text = text_of(book).into_bytes();
    let length = match rng.below(8) {
        0..=2 => text.len(),
        3 => text.len() - 1,
        4 => text.len() + 1,
        5 => 0,
        6 => [1, MOST - 1, MOST][rng.index(3)],
        _ => rng.index(2 * text.len()),
    };
    let own = rng.once_in(2);
    let anything = rng.draw().to_le_bytes();
    let filling = anything.into_iter().cycle();
    let first = text.into_iter().filter(|_| own);
    first.chain(filling).take(length).collect()
}
