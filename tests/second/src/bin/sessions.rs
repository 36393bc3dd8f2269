//! `sessions KIND SEED [LINES [STD-FILE [BOOK-FILE]]]`: writes a generated
//! session to standard output, aimed at the standards of that file, or at the
//! built-in ones (also by `-`), and at the book of that file, or at a fresh one;
//! `sessions std SEED` writes a generated text of standards, and `sessions
//! book SEED` one of a book.

use second::book::Book;
use second::generate::book_texts::book_text;
use second::generate::std_texts::std_text;
use second::generate::{session_on, Kind};
use second::standards::Table;
use second::std_text::read_table;
use second::written::read_from;
use std::fs::File;
use std::io::{self, Write};
use std::process::ExitCode;

const MOST_LINES: usize = 100_000_000;
const BUILT_IN: &str = "-";
const USAGE: &str =
    "sessions years|hostile|mixed|full|bench|single|standards SEED [LINES [STD-FILE [BOOK-FILE]]]
       sessions std SEED
       sessions book SEED";

fn main() -> ExitCode {
    let arguments: Vec<String> = std::env::args_os()
        .skip(1)
        .map(|argument| argument.to_string_lossy().into_owned())
        .collect();
    let Some(asked) = asked(&arguments) else {
        eprintln!("usage: {USAGE}");
        return ExitCode::from(2);
    };
    let written = asked
        .text()
        .and_then(|text| io::stdout().lock().write_all(&text));
    match written {
        Ok(()) => ExitCode::SUCCESS,
        Err(error) => {
            eprintln!("sessions: {error}");
            ExitCode::from(2)
        }
    }
}

enum Asked<'a> {
    Std {
        seed: u64,
    },
    Book {
        seed: u64,
    },
    Session {
        kind: Kind,
        seed: u64,
        lines: usize,
        std: Option<&'a String>,
        book: Option<&'a String>,
    },
}

impl Asked<'_> {
    fn text(&self) -> io::Result<Vec<u8>> {
        match *self {
            Asked::Std { seed } => Ok(std_text(seed)),
            Asked::Book { seed } => Ok(book_text(seed)),
            Asked::Session {
                kind,
                seed,
                lines,
                std,
                book,
            } => Ok(session_on(&begun(book)?, &table(std)?, kind, seed, lines)),
        }
    }
}

/// Where the text is at fault, no line of a session is answered: then it may be
/// one for the built-in table.
fn table(std: Option<&String>) -> io::Result<Table> {
    let read = std.map(|path| File::open(path).and_then(read_table));
    let table = read.transpose()?.and_then(Result::ok);
    Ok(table.unwrap_or_else(Table::built_in))
}

/// Likewise a fresh book.
fn begun(book: Option<&String>) -> io::Result<Book> {
    let read = book.map(|path| File::open(path).and_then(read_from));
    let book = read.transpose()?.and_then(Result::ok);
    Ok(book.unwrap_or_default())
}

fn asked(arguments: &[String]) -> Option<Asked<'_>> {
    let (kind, seed, more) = match arguments {
        [kind, seed, more @ ..] if more.len() <= 3 => (kind, seed.parse().ok()?, more),
        _ => return None,
    };
    match kind.as_str() {
        "std" => return more.is_empty().then_some(Asked::Std { seed }),
        "book" => return more.is_empty().then_some(Asked::Book { seed }),
        _ => {}
    }
    let kind: Kind = kind.parse().ok()?;
    let lines = match more.first() {
        None => kind.usual_lines(),
        Some(lines) => lines.parse().ok().filter(|&lines| lines <= MOST_LINES)?,
    };
    Some(Asked::Session {
        kind,
        seed,
        lines,
        std: more.get(1).filter(|&path| path != BUILT_IN),
        book: more.get(2),
    })
}
