//! One book, one call and one table as a record, and the answer to it.

use crate::calls::{call_of, call_on, filing_of, kind_on, pair_of, CALL_WORDS, COVER};
use crate::words::{hold_answer, record};
use second::book::Book;
use second::generate::{books::Make, rng::Rng, tables};
use second::postings::{file_by, post, Answer, Results};
use second::standards::Table;
use std::io::Read;

const NAMES: [&str; 4] = ["soundness", "refusal", "first value", "second value"];

pub struct Case {
    make: Make,
    table_make: tables::Made,
    pub book: Book,
    pub call: [u64; CALL_WORDS],
    pub table: Table,
}

impl Case {
    pub fn drawn(rng: &mut Rng) -> Self {
        let make = Make::drawn(rng);
        let book = make.book(rng);
        let table_make = tables::Made::drawn(rng);
        let table = table_make.table(rng);
        let kind = match make {
            Make::Payable if rng.once_in(2) => COVER,
            _ => kind_on(&book, rng),
        };
        let call = call_on(&book, &table, rng, kind);
        Case {
            make,
            table_make,
            book,
            call,
            table,
        }
    }

    pub fn told(&self) -> String {
        let Case {
            make, table_make, ..
        } = self;
        let call = call_of(&self.call);
        let pair = pair_of(&self.call);
        format!("a book {make:?}, a table {table_make:?}, {call:?}, by {pair:?}")
    }

    pub fn record(&self) -> Vec<u8> {
        record(&self.book, &self.call, &self.table)
    }

    /// Whether this library finds the book and the table as they were made.
    fn as_meant(&self, sound: bool) -> Result<(), String> {
        let accepted = self.table.is_accepted();
        let wrong = |meant: Option<bool>, found: bool| meant.is_some_and(|meant| meant != found);
        let amiss =
            wrong(self.make.soundness(), sound) || wrong(self.table_make.acceptance(), accepted);
        if amiss {
            return Err(format!(
                "the second implementation itself: sound is {sound}, accepted is {accepted}"
            ));
        }
        Ok(())
    }

    fn post(&self, book: &mut Book) -> Answer {
        match pair_of(&self.call) {
            Some(pair) => file_by(book, &self.table, pair.limits(), &filing_of(&self.call)),
            None => post(book, &self.table, &call_of(&self.call)),
        }
    }

    /// The answer in both, or the first difference in words.
    pub fn hold(&self, answers: &mut impl Read) -> Result<Answer, String> {
        let sound = self.book.is_sound();
        self.as_meant(sound)?;
        let mut after = self.book.clone();
        let answer = self.post(&mut after);
        let [refusal, first, second] = values(&answer);
        let head = [u64::from(sound), refusal, first, second];
        hold_answer(answers, NAMES, head, &after)?;
        Ok(answer)
    }
}

/// The refusal or 0, and the two values.
fn values(answer: &Answer) -> [u64; 3] {
    match *answer {
        Err(refusal) => [u64::from(refusal.number()), 0, 0],
        Ok(Results::Filed { part, families }) => [0, part.0 as u64, families],
        Ok(Results::Closed { short }) => [0, short, 0],
        Ok(Results::Left(mg) | Results::Moved(mg)) => [0, mg.0, 0],
    }
}
