//! What was compared.

use crate::trial::Held;
use second::postings::Refusal;
use std::fmt;

#[derive(Default)]
pub struct Tally {
    pub lines: usize,
    sessions: Counts,
    texts: Counts,
    /// Sessions that were also cut in two.
    halves: u64,
    books: Books,
}

/// Texts of books: accepted, and refused by 2 and by 22.
#[derive(Default)]
struct Books {
    accepted: u64,
    unsound: u64,
    none: u64,
}

#[derive(Default)]
struct Counts {
    /// Without a text of standards.
    without: u64,
    /// With one that is accepted.
    accepted: u64,
    /// With one at fault, by 19 and by 20.
    faults: [u64; 2],
}

impl Tally {
    pub fn count_session(&mut self, held: Held) {
        self.lines += held.lines;
        self.sessions.count(&held);
    }

    pub fn count_text(&mut self, held: Held) {
        self.texts.count(&held);
    }

    pub fn count_halves(&mut self, cut: bool) {
        self.halves += u64::from(cut);
    }

    pub fn count_book(&mut self, verdict: Result<(), Refusal>) {
        let Books {
            accepted,
            unsound,
            none,
        } = &mut self.books;
        let place = match verdict {
            Ok(()) => accepted,
            Err(Refusal::UnsoundBook) => unsound,
            Err(_) => none,
        };
        *place += 1;
    }
}

impl Counts {
    fn count(&mut self, held: &Held) {
        let place = match held.std {
            None => &mut self.without,
            Some(Ok(())) => &mut self.accepted,
            Some(Err(Refusal::Table)) => &mut self.faults[1],
            Some(Err(_)) => &mut self.faults[0],
        };
        *place += 1;
    }
}

impl fmt::Display for Tally {
    fn fmt(&self, f: &mut fmt::Formatter<'_>) -> fmt::Result {
        let Tally {
            sessions,
            texts,
            halves,
            books,
            ..
        } = self;
        write!(f, "{} without std.txt, {sessions}; ", sessions.without)?;
        write!(f, "texts beside them: {texts}; ")?;
        write!(f, "{halves} cut in two; texts of books: {books}")
    }
}

impl fmt::Display for Books {
    fn fmt(&self, f: &mut fmt::Formatter<'_>) -> fmt::Result {
        let Books {
            accepted,
            unsound,
            none,
        } = self;
        write!(f, "{accepted} accepted, ")?;
        write!(f, "refused by number: 2: {unsound}, 22: {none}")
    }
}

impl fmt::Display for Counts {
    fn fmt(&self, f: &mut fmt::Formatter<'_>) -> fmt::Result {
        let Counts {
            accepted,
            faults: [form, figures],
            ..
        } = self;
        write!(f, "{accepted} with one that is accepted, ")?;
        write!(f, "refused by number: 19: {form}, 20: {figures}")
    }
}
