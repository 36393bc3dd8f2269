//! `second [--no-accounts] [--std FILE] [--read FILE] [--write FILE]`: the
//! paper's program on standard input and output, with the accounts kept beside
//! the book unless told otherwise. Its standards are those of the first FILE;
//! where none is named, those of `std.txt` in the working directory, and the
//! built-in ones where that is absent. It begins with the book of the second
//! FILE, or a fresh one, and at the end writes its book to the third.

mod asked;
mod files;

use asked::{Asked, USAGE};
use files::replace;
use second::book::Book;
use second::postings::Refusal;
use second::session::{Halt, Session};
use second::standards::Table;
use second::std_text::read_table;
use second::text::Answered;
use second::written::{read_from, written};
use std::fmt::{self, Display, Formatter};
use std::fs::File;
use std::io::{self, BufWriter, Read, Write};
use std::path::{Path, PathBuf};
use std::process::ExitCode;

const CHUNK: usize = 1 << 16;

fn main() -> ExitCode {
    let Some(asked) = Asked::by(std::env::args_os().skip(1)) else {
        eprintln!("usage: {USAGE}");
        return ExitCode::from(2);
    };
    match run(&asked) {
        Ok(()) => ExitCode::SUCCESS,
        Err(failure) => {
            eprintln!("second: {failure}");
            failure.code()
        }
    }
}

enum Failure {
    Halt(Halt),
    /// A file could not be read, or written.
    File(PathBuf, io::Error),
}

impl Failure {
    fn of(path: &Path) -> impl FnOnce(io::Error) -> Self + '_ {
        |error| Failure::File(path.into(), error)
    }

    fn code(&self) -> ExitCode {
        ExitCode::from(match self {
            Failure::File(..) | Failure::Halt(Halt::Violation { .. }) => 1,
            Failure::Halt(Halt::Stream(_)) => 2,
        })
    }
}

impl<E: Into<Halt>> From<E> for Failure {
    fn from(halt: E) -> Self {
        Failure::Halt(halt.into())
    }
}

impl Display for Failure {
    fn fmt(&self, f: &mut Formatter<'_>) -> fmt::Result {
        match self {
            Failure::Halt(halt) => halt.fmt(f),
            Failure::File(path, error) => write!(f, "{}: {error}", path.display()),
        }
    }
}

/// With standards or a book at fault no input is read, and no book written.
fn run(asked: &Asked) -> Result<(), Failure> {
    let mut out = BufWriter::with_capacity(CHUNK, io::stdout().lock());
    match begin(asked)? {
        Ok((table, book)) => {
            let session = Session::begun(book, out, table, asked.audited);
            let book = answer(io::stdin().lock(), session)?;
            asked.write().map_or(Ok(()), |path| put(&book, path))
        }
        Err(refusal) => {
            writeln!(out, "{}", Answered(Err(refusal)))?;
            Ok(out.flush()?)
        }
    }
}

/// The standards are asked for before the book.
fn begin(asked: &Asked) -> Result<Result<(Table, Book), Refusal>, Failure> {
    let table = match table(asked)? {
        Ok(table) => table,
        Err(refusal) => return Ok(Err(refusal)),
    };
    let book = match asked.read() {
        None => Ok(Book::fresh()),
        Some(path) => File::open(path)
            .and_then(read_from)
            .map_err(Failure::of(path))?,
    };
    Ok(book.map(|book| (table, book)))
}

fn table(asked: &Asked) -> Result<Result<Table, Refusal>, Failure> {
    let (path, may_be_absent) = asked.std();
    match File::open(path) {
        Err(error) if may_be_absent && error.kind() == io::ErrorKind::NotFound => {
            Ok(Ok(Table::built_in()))
        }
        opened => opened.and_then(read_table).map_err(Failure::of(path)),
    }
}

/// The book at the input's end.
fn answer(mut input: impl Read, mut session: Session<impl Write>) -> Result<Book, Halt> {
    let mut chunk = vec![0; CHUNK];
    loop {
        match input.read(&mut chunk) {
            Ok(0) => return session.finish().map(|(_, book)| book),
            Ok(length) => session.feed(&chunk[..length])?,
            Err(error) if error.kind() == io::ErrorKind::Interrupted => {}
            Err(error) => return Err(error.into()),
        }
    }
}

/// A session's book is sound.
fn put(book: &Book, path: &Path) -> Result<(), Failure> {
    let text = written(book).map_err(|_| io::Error::other("the book is not sound"));
    text.and_then(|text| replace(path, text.as_bytes()))
        .map_err(Failure::of(path))
}
