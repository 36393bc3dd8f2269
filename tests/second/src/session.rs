//! A terminal session: bytes in, answers and the listing out.

use crate::audit::{Audit, Violation};
use crate::book::Book;
use crate::listing::list;
use crate::postings::{post, Answer, Call, Refusal};
use crate::standards::Table;
use crate::text::{parse, Answered, Lines};
use std::fmt;
use std::io::{self, Write};

/// Why a session stopped before its end.
#[derive(Debug)]
pub enum Halt {
    Stream(io::Error),
    Violation { line: u64, claim: String },
}

impl From<io::Error> for Halt {
    fn from(error: io::Error) -> Self {
        Halt::Stream(error)
    }
}

impl fmt::Display for Halt {
    fn fmt(&self, f: &mut fmt::Formatter<'_>) -> fmt::Result {
        match self {
            Halt::Stream(error) => write!(f, "{error}"),
            Halt::Violation { line, claim } => write!(f, "line {line}: {claim}"),
        }
    }
}

pub struct Session<W> {
    lines: Lines,
    terminal: Terminal<W>,
}

impl<W: Write> Session<W> {
    /// Begins with a fresh book.
    pub fn new(out: W, table: Table, audited: bool) -> Self {
        Session::begun(Book::fresh(), out, table, audited)
    }

    /// Begins with this book, and hands this table to every filing and
    /// amendment; `audited` sessions also keep the accounts and hold the paper's
    /// claims at every call.
    pub fn begun(book: Book, out: W, table: Table, audited: bool) -> Self {
        Session {
            lines: Lines::default(),
            terminal: Terminal {
                watch: audited.then(|| Watch::opened(&book)),
                book,
                table,
                line: 0,
                out,
            },
        }
    }

    pub fn feed(&mut self, piece: &[u8]) -> Result<(), Halt> {
        let Session { lines, terminal } = self;
        lines.feed(piece, |line| terminal.answer(line))
    }

    /// Answers a last line without line feed, lists the cells and gives the
    /// output back, with the book as it is then.
    pub fn finish(mut self) -> Result<(W, Book), Halt> {
        if let Some(line) = self.lines.last() {
            self.terminal.answer(&line)?;
        }
        self.terminal.finish()
    }
}

/// The output of a whole audited session that begins with this book, handed
/// over in pieces, and the book at its end.
pub fn answers(
    book: Book,
    table: &Table,
    input: &[u8],
    piece: usize,
) -> Result<(Vec<u8>, Book), Halt> {
    let mut session = Session::begun(book, Vec::new(), table.clone(), true);
    for bytes in input.chunks(piece) {
        session.feed(bytes)?;
    }
    session.finish()
}

struct Terminal<W> {
    book: Book,
    table: Table,
    watch: Option<Watch>,
    line: u64,
    out: W,
}

impl<W: Write> Terminal<W> {
    fn answer(&mut self, line: &[u8]) -> Result<(), Halt> {
        self.line += 1;
        let answer = match parse(line) {
            None => Err(Refusal::NoForm),
            Some(call) => self.post(&call)?,
        };
        writeln!(self.out, "{}", Answered(answer))?;
        Ok(())
    }

    fn post(&mut self, call: &Call) -> Result<Answer, Halt> {
        let Some(watch) = &mut self.watch else {
            return Ok(post(&mut self.book, &self.table, call));
        };
        let line = self.line;
        watch
            .post(&mut self.book, &self.table, call)
            .map_err(|Violation(claim)| Halt::Violation { line, claim })
    }

    fn finish(mut self) -> Result<(W, Book), Halt> {
        if let Some(watch) = &self.watch {
            let line = self.line;
            watch
                .audit
                .hold_all(&self.book)
                .map_err(|Violation(claim)| Halt::Violation { line, claim })?;
        }
        list(&self.book, &mut self.out)?;
        self.out.flush()?;
        Ok((self.out, self.book))
    }
}

/// Posts under the audit's eye.
struct Watch {
    audit: Audit,
    before: Book,
}

impl Watch {
    fn opened(book: &Book) -> Self {
        Watch {
            audit: Audit::opened(book),
            before: book.clone(),
        }
    }

    fn post(&mut self, book: &mut Book, table: &Table, call: &Call) -> Result<Answer, Violation> {
        self.before.clone_from(book);
        let answer = post(book, table, call);
        if let Ok(results) = &answer {
            self.audit.hold_results(call, results, &self.before)?;
        }
        self.audit
            .judge(table, call, answer.is_ok(), &self.before, book)?;
        Ok(answer)
    }
}
