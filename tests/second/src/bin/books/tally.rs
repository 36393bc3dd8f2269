//! What the answers were.

use crate::calls::{call_of, filing_of, kind_of, pair_of, KINDS};
use crate::case::Case;
use crate::covers::Covers;
use crate::pairs::Pairs;
use crate::texts::{Outcome, TextCase};
use second::book::{cell, MAKERS};
use second::postings::{Answer, Call, Filing, Refusal, Results};
use second::standards::Table;
use std::fmt;

#[derive(Default)]
pub struct Tally {
    pub books: u64,
    sound: u64,
    accepted: [u64; KINDS],
    /// Accepted filings, by a pair or not, and amendments, by their edition.
    filed_under: [u64; 3],
    amended_under: [u64; 3],
    /// Accepted amendments whose part became 0, or changed its sign.
    to_nothing: u64,
    to_other_sign: u64,
    covers: Covers,
    pairs: Pairs,
    refused: [u64; 21],
    tables: Tables,
    texts: Texts,
}

/// How calls fared that were handed a table of their own.
#[derive(Default)]
struct Tables {
    /// Filings and amendments accepted under another table than the built-in.
    accepted: u64,
    /// Of the tables that are not accepted: filings and amendments of an
    /// unsound book (2), those with a maker above 7 (20), and other calls that
    /// were accepted.
    unsound: u64,
    before_maker: u64,
    others: u64,
}

impl Tables {
    fn count(&mut self, case: &Case, answer: &Answer) {
        let own = case.table != Table::built_in();
        let broken = !case.table.is_accepted();
        match (call_of(&case.call), answer) {
            (Call::File(_) | Call::Amend(_), Ok(_)) => self.accepted += u64::from(own),
            (Call::File(_) | Call::Amend(_), Err(Refusal::UnsoundBook)) => {
                self.unsound += u64::from(broken)
            }
            (Call::File(c) | Call::Amend(c), Err(Refusal::Table)) => {
                self.before_maker += u64::from(c.maker >= MAKERS as u64)
            }
            (_, Ok(_)) => self.others += u64::from(broken),
            (_, Err(_)) => {}
        }
    }
}

impl fmt::Display for Tables {
    fn fmt(&self, f: &mut fmt::Formatter<'_>) -> fmt::Result {
        let Tables {
            accepted,
            unsound,
            before_maker,
            others,
        } = self;
        write!(
            f,
            "accepted under a table of its own {accepted}; with one that is not accepted: \
             2 before 20 {unsound}, 20 before 3 {before_maker}, other calls accepted {others}"
        )
    }
}

/// How books were written and texts read.
#[derive(Default)]
struct Texts {
    /// Into buffers exactly as long.
    exact: u64,
    written: u64,
    /// Refused by 2 and by 21.
    unwritten: [u64; 2],
    read: u64,
    /// In place of a book that is not sound.
    read_over: u64,
    /// Refused by 22 and by 2.
    unread: [u64; 2],
}

impl Texts {
    fn count(&mut self, case: &TextCase, outcome: &Outcome) {
        match outcome.written {
            Ok(length) => {
                self.written += 1;
                self.exact += u64::from(length == case.bytes.len());
            }
            Err(Refusal::UnsoundBook) => self.unwritten[0] += 1,
            Err(_) => self.unwritten[1] += 1,
        }
        match outcome.read {
            Ok(()) => {
                self.read += 1;
                self.read_over += u64::from(!case.book.is_sound());
            }
            Err(Refusal::UnsoundBook) => self.unread[1] += 1,
            Err(_) => self.unread[0] += 1,
        }
    }
}

impl fmt::Display for Texts {
    fn fmt(&self, f: &mut fmt::Formatter<'_>) -> fmt::Result {
        let Texts {
            exact,
            written,
            unwritten,
            read,
            read_over,
            unread,
        } = self;
        write!(
            f,
            "written {written} ({exact} with no byte more), refused by 2: {}, 21: {}; \
             read {read} ({read_over} over an unsound book), refused by 22: {}, 2: {}",
            unwritten[0], unwritten[1], unread[0], unread[1]
        )
    }
}

impl Tally {
    pub fn count_text(&mut self, case: &TextCase, outcome: &Outcome) {
        self.books += 1;
        self.sound += u64::from(case.book.is_sound());
        self.texts.count(case, outcome);
    }

    pub fn count(&mut self, case: &Case, answer: &Answer) {
        self.books += 1;
        self.sound += u64::from(case.book.is_sound());
        match answer {
            Ok(_) => self.accepted[kind_of(&case.call)] += 1,
            Err(refusal) => self.refused[usize::from(refusal.number())] += 1,
        }
        self.tables.count(case, answer);
        if let Some(pair) = pair_of(&case.call) {
            self.pairs.count(pair, &filing_of(&case.call), answer);
        }
        match (call_of(&case.call), answer) {
            (Call::File(filing), Ok(_)) => self.filed_under[filing.edition as usize] += 1,
            (Call::Amend(amended), Ok(results)) => self.count_amended(case, &amended, results),
            (Call::Cover(cover), Ok(_)) => self.covers.count(&case.book, &cover),
            _ => {}
        }
    }

    fn count_amended(&mut self, case: &Case, amended: &Filing, results: &Results) {
        self.amended_under[amended.edition as usize] += 1;
        let cell = cell(amended.maker as usize, amended.set as usize);
        let before = case.book.parts[cell][amended.family as usize].0.signum();
        if let Results::Filed { part, .. } = results {
            let after = part.0.signum();
            self.to_nothing += u64::from(before != 0 && after == 0);
            self.to_other_sign += u64::from(before * after < 0);
        }
    }

    pub fn answers(&self) -> String {
        let accepted: u64 = self.accepted.iter().sum();
        let refused: u64 = self.refused.iter().sum();
        // No call gets 1 or 19, which are of text alone.
        let numbers = self.refused.iter().enumerate();
        let numbers: Vec<String> = numbers
            .filter(|(number, _)| ![0, 1, 19].contains(number))
            .map(|(number, n)| format!("{number}: {n}"))
            .collect();
        format!(
            "{accepted} accepted, {refused} refused by number: {}",
            numbers.join(", ")
        )
    }

    pub fn by_kind(&self) -> String {
        let [file, close, trade, apply, retire, amend, _, cover, file_by] = self.accepted;
        let [ordinary, earlier, later] = self.filed_under;
        let amended = self.amended_under;
        let Tally {
            books,
            sound,
            to_nothing,
            to_other_sign,
            covers,
            pairs,
            tables,
            texts,
            ..
        } = self;
        format!(
            "{sound} of {books} books sound; accepted: \
             file {file}, by a pair {file_by} (by edition {ordinary}, {earlier}, {later}), \
             amend {amend} (by edition {}, {}, {}; part to 0 {to_nothing}, to the other sign {to_other_sign}), \
             close {close}, trade {trade}, apply {apply}, retire {retire}, \
             cover {cover} ({covers}); by a pair: {pairs}; {tables}; texts: {texts}",
            amended[0], amended[1], amended[2]
        )
    }
}
