//! Short ways to write calls and sessions.

#![allow(dead_code)]

pub mod any;
pub mod faults;
pub mod pairs;
pub mod payable;
pub mod program;
pub mod rivals;
pub mod times;
pub mod written;

use second::book::{cell, Book};
use second::figuring::{Figures, Mg, Part, PARTS_IN_A_MG};
use second::generate::{session, Kind};
use second::postings::{self, Answer, Call, Cover, Filing, Refusal, Results};
use second::session::answers;
use second::standards::Table;
use second::text::parse;
use std::ops::Range;
use std::sync::LazyLock;

pub static BUILT_IN: LazyLock<Table> = LazyLock::new(Table::built_in);

/// Posts a call that is handed the built-in table.
pub fn post(book: &mut Book, call: &Call) -> Answer {
    postings::post(book, &BUILT_IN, call)
}

/// The whole output of an audited session, handed over in pieces.
pub fn output_in_pieces(input: &[u8], piece: usize) -> String {
    output_under(&BUILT_IN, input, piece)
}

/// The same under a table.
pub fn output_under(table: &Table, input: &[u8], piece: usize) -> String {
    output_begun(Book::fresh(), table, input, piece).0
}

/// The same begun on a book, and the book at its end.
pub fn output_begun(book: Book, table: &Table, input: &[u8], piece: usize) -> (String, Book) {
    let (output, book) = answers(book, table, input, piece).expect("every claim holds");
    (String::from_utf8(output).expect("plain text"), book)
}

pub fn output(input: &str) -> String {
    output_in_pieces(input.as_bytes(), 1 << 16)
}

/// Hands `see` every call of generated sessions, with the book before it and
/// the answer.
pub fn each_call(kind: Kind, seeds: Range<u64>, mut see: impl FnMut(&Book, &Call, Answer)) {
    for seed in seeds {
        let mut book = Book::fresh();
        let mut before = book.clone();
        for call in any::calls(&session(kind, seed, kind.usual_lines())) {
            before.clone_from(&book);
            let answer = post(&mut book, &call);
            see(&before, &call, answer);
        }
    }
}

/// The filings of generated sessions, by either entry, each with its answer.
pub fn filings(kind: Kind, seeds: Range<u64>) -> Vec<(Filing, Answer)> {
    let mut seen = Vec::new();
    each_call(kind, seeds, |_, call, answer| {
        if let Call::File(filing) | Call::Small(filing) = call {
            seen.push((*filing, answer));
        }
    });
    seen
}

/// Posts a call written as terminal text.
pub fn say(book: &mut Book, line: &str) -> Answer {
    post(book, &parse(line.as_bytes()).expect("a form"))
}

pub fn say_all(book: &mut Book, lines: &[&str]) {
    for line in lines {
        say(book, line).expect("accepted");
    }
}

/// A filing of maker 0 whose part is the standard less 1.
pub fn filing(edition: u64, set: u64, usage: u64, year: u64) -> Filing {
    Filing {
        maker: 0,
        set,
        year,
        usage,
        edition,
        family: 0,
        figures: Figures {
            fcl: 1,
            cf: 1,
            volume: 1,
            life: 1,
        },
    }
}

/// The largest figures that a filing may have, but for its level.
pub fn at_the_limits(fcl: u64) -> Figures {
    Figures {
        fcl,
        cf: 1_000_000,
        volume: 100_000,
        life: 500,
    }
}

/// Files for maker 0 in set 3, use 0.
pub fn file(book: &mut Book, family: u64, fcl: u64, cf: u64, volume: u64) -> Answer {
    let year = book.open_year;
    say(
        book,
        &format!(
            "(file (maker 0) (set 3) (year {year}) (use 0) (edition 0) (family {family}) \
             (fcl {fcl}) (cf {cf}) (volume {volume}) (life 1))"
        ),
    )
}

pub fn close(book: &mut Book) -> Answer {
    let year = book.open_year;
    say(book, &format!("(close (year {year}))"))
}

/// Closes years until `year` is open.
pub fn close_until(book: &mut Book, year: u64) {
    while book.open_year < year {
        close(book).expect("accepted");
    }
}

pub fn filed(part: i64, families: u64) -> Answer {
    Ok(Results::Filed {
        part: Part(part),
        families,
    })
}

pub fn left(mg: u64) -> Answer {
    Ok(Results::Left(Mg(mg)))
}

pub fn moved(mg: u64) -> Answer {
    Ok(Results::Moved(Mg(mg)))
}

pub fn closed(short: u64) -> Answer {
    Ok(Results::Closed { short })
}

pub fn refused(answer: Answer) -> u8 {
    answer.expect_err("refused").number()
}

pub fn lot(book: &Book, maker: usize, set: usize, year: usize) -> u64 {
    book.lots[cell(maker, set)][year - 2014].0
}

pub fn shortage(book: &Book, maker: usize, set: usize, year: usize) -> u64 {
    book.shortages[cell(maker, set)][year - 2014].0
}

/// A book with the given open year, and lots and shortages as
/// `(maker, set, year, mg)`.
pub fn book(
    open_year: u64,
    lots: &[(usize, usize, usize, u64)],
    shortages: &[(usize, usize, usize, u64)],
) -> Book {
    let mut book = Book::fresh();
    book.open_year = open_year;
    for &(maker, set, year, mg) in lots {
        book.lots[cell(maker, set)][year - 2014] = Mg(mg);
    }
    for &(maker, set, year, mg) in shortages {
        book.shortages[cell(maker, set)][year - 2014] = Mg(mg);
    }
    assert!(book.is_sound());
    book
}

/// The refusal of a call that must leave the book as it was.
pub fn refusal_of(book: &Book, line: &str) -> u8 {
    let mut after = book.clone();
    let number = refused(say(&mut after, line));
    assert!(*book == after, "a refusal changed the book");
    number
}

pub const UNSOUND: u8 = Refusal::UnsoundBook as u8;

pub const MG: i64 = PARTS_IN_A_MG;

/// A vocational family of maker 0 in set 3, 2014, with 1 Mg a g/hp-hr below the
/// standard, 567.
pub fn plain(family: u64, fcl: u64) -> Filing {
    Filing {
        maker: 0,
        set: 3,
        year: 2014,
        usage: 0,
        edition: 0,
        family,
        figures: Figures {
            fcl,
            cf: 1_000_000,
            volume: 100,
            life: 1,
        },
    }
}

/// Family 5 is filed with 7 Mg, family 9 with 2.
pub fn two_families() -> Book {
    let mut book = Book::fresh();
    for filing in [plain(5, 560), plain(9, 565)] {
        post(&mut book, &Call::File(filing)).expect("accepted");
    }
    book
}

pub fn amend(book: &mut Book, amended: Filing) -> Answer {
    post(book, &Call::Amend(amended))
}

pub fn small(book: &mut Book, filing: Filing) -> Answer {
    post(book, &Call::Small(filing))
}

/// A plain family with a volume of its own.
pub fn of_volume(family: u64, fcl: u64, volume: u64) -> Filing {
    let mut filing = plain(family, fcl);
    filing.figures.volume = volume;
    filing
}

/// The number of a call's refusal, which must leave the book as it was.
pub fn refused_unchanged(book: &Book, call: &Call) -> u8 {
    let mut after = book.clone();
    let number = refused(post(&mut after, call));
    assert!(*book == after, "a refusal changed the book");
    number
}

pub fn cover(book: &mut Book, maker: u64, set: u64) -> Answer {
    post(book, &Call::Cover(Cover { maker, set }))
}
