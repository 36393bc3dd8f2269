//! The text of a book, read at the beginning of a session and written at its
//! end, or refused.

use crate::files::{hold_file, AFTER, BOOK};
use crate::runs::{run, run_unread};
use crate::standards::{refused, Standards};
use crate::trial::{cut, ours};
use second::book::Book;
use second::generate::book_texts::book_text;
use second::generate::rng::Rng;
use second::generate::std_texts::std_text;
use second::generate::{session_on, Kind};
use second::postings::Refusal;
use second::room::Room;
use second::written::{read, text_of};
use std::ffi::OsStr;
use std::io;

/// Lines of a session that begins with a book.
const LINES: usize = 120;

/// One text with a session, the same again for the same seed.
pub struct BookTrial {
    seed: u64,
    text: Vec<u8>,
    book: Result<Book, Refusal>,
    standards: Standards,
    kind: Kind,
    lines: usize,
    /// What the file written to holds before; it may be the one read.
    before: Before,
}

enum Before {
    Nothing,
    Other,
    Same,
}

const OTHER: &[u8] = b"another book\n";
const UNREAD: &[u8] = b"(close (year 2014))\n";

impl BookTrial {
    /// Half of them have no line between reading and writing.
    pub fn of(seed: u64) -> Self {
        let text = book_text(seed);
        let rng = &mut Rng::new(!seed);
        let std = rng.once_in(8).then(|| std_text(seed));
        BookTrial {
            seed,
            book: read(&text),
            text,
            standards: Standards::of(std),
            kind: [Kind::Years, Kind::Hostile, Kind::Mixed][rng.index(3)],
            lines: [0, LINES][rng.index(2)],
            before: match rng.below(3) {
                0 => Before::Nothing,
                1 => Before::Other,
                _ => Before::Same,
            },
        }
    }

    /// The verdict on the text, or the first difference in words.
    pub fn hold(&self, room: &Room, program: &OsStr) -> Result<Result<(), Refusal>, String> {
        self.held(room, program).map_err(|why| self.told(&why))?;
        Ok(self.book.as_ref().map(drop).map_err(|&refusal| refusal))
    }

    fn held(&self, room: &Room, program: &OsStr) -> Result<(), String> {
        let failed = |error| format!("{}: {error}", program.to_string_lossy());
        self.lay_out(room).map_err(failed)?;
        let input = self.input();
        let (output, after) = self.expected(&input)?;
        let mut command = room.command(program).map_err(failed)?;
        command.args(["--read", BOOK, "--write", self.after()]);
        let (given, lines) = if after.is_some() {
            (run(&mut command, &input, 1 << 16), cut(&input))
        } else {
            (run_unread(room, &mut command, &input), Vec::new())
        };
        given.map_err(failed)?.hold(&lines, &output)?;
        let after = after.as_deref().or(match self.before {
            Before::Nothing => None,
            Before::Other => Some(OTHER),
            Before::Same => Some(&self.text),
        });
        hold_file(room, self.after(), after)?;
        [BOOK, AFTER]
            .iter()
            .try_for_each(|file| room.remove(file))
            .map_err(failed)
    }

    fn after(&self) -> &'static str {
        match self.before {
            Before::Same => BOOK,
            _ => AFTER,
        }
    }

    fn lay_out(&self, room: &Room) -> io::Result<()> {
        self.standards.lay_out(room)?;
        room.write(BOOK, &self.text)?;
        match self.before {
            Before::Other => room.write(AFTER, OTHER).map(drop),
            _ => Ok(()),
        }
    }

    /// Aimed at the book and the standards; where they are refused, a line that
    /// is not to be read.
    fn input(&self) -> Vec<u8> {
        match (&self.standards.table, &self.book) {
            (Ok(_), Ok(_)) if self.lines == 0 => Vec::new(),
            (Ok(table), Ok(book)) => session_on(book, table, self.kind, self.seed, self.lines),
            _ => UNREAD.into(),
        }
    }

    /// The output, and the text of the book that is written, if one is. The
    /// standards are judged before the book.
    fn expected(&self, input: &[u8]) -> Result<(Vec<u8>, Option<Vec<u8>>), String> {
        let (table, book) = match (&self.standards.table, &self.book) {
            (Err(refusal), _) | (_, Err(refusal)) => return Ok((refused(*refusal), None)),
            (Ok(table), Ok(book)) => (table, book),
        };
        let (output, after) = ours(book.clone(), table, input, 1 << 16)?;
        Ok((output, Some(text_of(&after).into())))
    }

    /// With the commands that write the texts again.
    fn told(&self, what: &str) -> String {
        let BookTrial {
            seed, kind, lines, ..
        } = self;
        let (std, file) = if self.standards.are_own() {
            (format!("sessions std {seed} > std.txt; "), "std.txt")
        } else {
            (String::new(), "-")
        };
        let input = match lines {
            0 => "no input".into(),
            _ => format!("sessions {kind} {seed} {lines} {file} {BOOK}"),
        };
        let after = self.after();
        format!(
            "book {seed}, --write {after} ({std}sessions book {seed} > {BOOK}; {input}): {what}"
        )
    }
}
