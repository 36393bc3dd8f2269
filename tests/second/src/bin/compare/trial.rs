//! One session with its standards, put to the program and to this library.

use crate::runs::{run, run_unread};
use crate::standards::{refused, Standards};
use second::book::Book;
use second::generate::rng::Rng;
use second::generate::std_texts::std_text;
use second::generate::{session_under, Kind};
use second::postings::Refusal;
use second::room::Room;
use second::session::answers;
use second::standards::Table;
use second::text::Lines;
use std::convert::Infallible;
use std::ffi::OsStr;

/// One session, the same again for the same kind, seed and length.
pub struct Trial {
    pub kind: Kind,
    pub seed: u64,
    lines: usize,
    /// Bytes handed to the program at a time.
    pub piece: usize,
    pub standards: Standards,
}

/// A trial without a difference.
pub struct Held {
    /// The lines that were answered.
    pub lines: usize,
    /// Whether the standards, if there were any, were accepted.
    pub std: Option<Result<(), Refusal>>,
}

impl Trial {
    /// The kinds in turn, with a short session now and then and a full one
    /// every thirty-ninth, so that odd and even seeds take turns there too.
    /// Half of them have standards of their own.
    pub fn of(turn: u64, seed: u64) -> Self {
        let kind = match turn % 4 {
            _ if turn % 39 == 38 => Kind::Full,
            0 => Kind::Years,
            1 | 3 => Kind::Hostile,
            _ => Kind::Mixed,
        };
        let short = turn % 10 == 5 && kind != Kind::Full;
        let lines = if short {
            turn as usize / 10 % 30
        } else {
            kind.usual_lines()
        };
        let piece = match (short, turn % 3) {
            (true, _) => 1,
            (_, 0) => 997,
            (_, 1) => 4_096,
            _ => 1 << 20,
        };
        let std = Rng::new(!seed).once_in(2).then(|| std_text(seed));
        Trial {
            kind,
            seed,
            lines,
            piece,
            standards: Standards::of(std),
        }
    }

    /// A session that shows every standard, beside a text of them.
    pub fn of_text(seed: u64) -> Self {
        let kind = Kind::Standards;
        Trial {
            kind,
            seed,
            lines: kind.usual_lines(),
            piece: 1 << 20,
            standards: Standards::of(Some(std_text(seed))),
        }
    }

    pub fn input(&self) -> Vec<u8> {
        session_under(&self.standards.aim(), self.kind, self.seed, self.lines)
    }

    /// What was held, or the first difference in words.
    pub fn hold(&self, room: &Room, program: &OsStr) -> Result<Held, String> {
        self.held(room, program).map_err(|why| self.told(&why))
    }

    /// With standards at fault nothing but their number is given, and no line
    /// answered.
    fn held(&self, room: &Room, program: &OsStr) -> Result<Held, String> {
        let failed = |error| format!("{}: {error}", program.to_string_lossy());
        self.standards.lay_out(room).map_err(failed)?;
        let input = self.input();
        let mut command = room.command(program).map_err(failed)?;
        let (given, expected, lines) = match &self.standards.table {
            Ok(table) => {
                let (expected, _) = ours(Book::fresh(), table, &input, self.piece)?;
                (run(&mut command, &input, self.piece), expected, cut(&input))
            }
            Err(refusal) => {
                let given = run_unread(room, &mut command, &input);
                (given, refused(*refusal), Vec::new())
            }
        };
        given.map_err(failed)?.hold(&lines, &expected)?;
        Ok(Held {
            lines: lines.len(),
            std: self.standards.verdict(),
        })
    }

    /// With the commands that write the texts again.
    pub fn told(&self, what: &str) -> String {
        let Trial {
            kind, seed, lines, ..
        } = self;
        let texts = if self.standards.are_own() {
            format!("sessions std {seed} > std.txt; sessions {kind} {seed} {lines} std.txt")
        } else {
            format!("sessions {kind} {seed} {lines}")
        };
        format!("kind {kind}, seed {seed} ({texts}): {what}")
    }
}

/// The output of this library, with its accounts kept and held, and the book
/// at the end.
pub fn ours(
    book: Book,
    table: &Table,
    input: &[u8],
    piece: usize,
) -> Result<(Vec<u8>, Book), String> {
    answers(book, table, input, piece)
        .map_err(|halt| format!("the second implementation itself: {halt}"))
}

/// The input's lines as a session sees them.
pub fn cut(input: &[u8]) -> Vec<Vec<u8>> {
    let mut lines = Vec::new();
    let mut cutter = Lines::default();
    let cut: Result<(), Infallible> = cutter.feed(input, |line| {
        lines.push(line.to_vec());
        Ok(())
    });
    let Ok(()) = cut;
    lines.extend(cutter.last());
    lines
}
