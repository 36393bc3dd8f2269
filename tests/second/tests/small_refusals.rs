//! Card 10: what a small filing is refused for, in the order of a filing's
//! refusals, each alone and any two of them.

mod common;

use common::faults::*;
use common::*;
use second::book::Book;
use second::figuring::Mg;
use second::postings::{post as post_under, Call, Filing};
use second::standards::Table;

/// Families that are filed: by the large entry, and by the small one.
const BY_LARGE: u64 = 5;
const BY_SMALL: u64 = 9;

/// What else may be wrong with a small filing.
const OWN: [Fault; 11] = [
    (|f| f.family = 16, 7),
    (|f| f.family = 17, 7),
    (|f| f.family = 63, 7),
    (|f| f.family = (1 << 8) + 1, 7),
    (|f| f.family = (1 << 32) + 1, 7),
    (|f| f.figures.volume = 5_001, 8),
    (|f| f.figures.volume = 100_000, 8),
    (|f| f.figures.volume = (1 << 32) + 1, 8),
    (|f| f.figures.volume = u64::MAX, 8),
    (|f| f.family = BY_LARGE, 9),
    (|f| f.family = BY_SMALL, 9),
];

fn begun() -> Book {
    let mut book = Book::fresh();
    post(&mut book, &Call::File(plain(BY_LARGE, 560))).expect("accepted");
    small(&mut book, plain(BY_SMALL, 560)).expect("accepted");
    // What 7 concerns may be filed by the large entry.
    for family in [16, 17, 63] {
        post(&mut book, &Call::File(plain(family, 560))).expect("accepted");
    }
    book
}

fn right() -> Filing {
    plain(6, 560)
}

fn get(book: &Book, filing: Filing) -> u8 {
    refused_unchanged(book, &Call::Small(filing))
}

#[test]
fn the_first_of_two_faults_answers() {
    let book = begun();
    assert_eq!(small(&mut book.clone(), right()), filed(7 * MG, 6));
    the_first_of_two_answers(&with_own(&OWN), right(), |filing| get(&book, filing));
}

#[test]
fn the_order_of_a_small_filings_refusals() {
    let book = begun();
    the_first_of_all_answers(&with_own(&OWN), right(), |filing| get(&book, filing));
}

#[test]
fn refusals_2_and_20_come_before_all() {
    let (book, broken) = (begun(), Table([[770; 6]; 24]));
    let mut unsound = book.clone();
    unsound.lots[31][23] = Mg(1);
    for (fault, _) in with_own(&OWN) {
        let mut faulty = right();
        fault(&mut faulty);
        for (table, book, number) in [
            (&broken, &book, 20),
            (&broken, &unsound, UNSOUND),
            (&BUILT_IN, &unsound, UNSOUND),
        ] {
            let mut after = book.clone();
            let answer = post_under(&mut after, table, &Call::Small(faulty));
            assert_eq!(refused(answer), number, "{faulty:?}");
            assert!(after == *book, "a refusal changed the book");
        }
    }
}

#[test]
fn nothing_small_is_filed_once_all_years_are_closed() {
    let mut book = Book::fresh();
    close_until(&mut book, 2038);
    for year in [2037, 2038, 2039] {
        let late = Filing { year, ..right() };
        assert_eq!(get(&book, late), 5, "{year}");
        let faulty = of_volume(16, 560, 5_001);
        assert_eq!(get(&book, Filing { year, ..faulty }), 5, "{year}");
    }
}

/// What the large entry takes, and the small one's refusal of it.
#[test]
fn the_large_entry_takes_what_is_too_large_for_the_small_one() {
    for (filing, number) in [
        (of_volume(16, 566, 1), 7),
        (of_volume(63, 566, 100_000), 7),
        (of_volume(15, 566, 5_001), 8),
        (of_volume(0, 566, 100_000), 8),
    ] {
        let mut book = Book::fresh();
        assert_eq!(get(&book, filing), number);
        let part = filing.figures.volume as i64 * 1_000_000;
        assert_eq!(post(&mut book, &Call::File(filing)), filed(part, 1));
        // Then 7 and 8 still answer before 9.
        assert_eq!(get(&book, filing), number);
    }
}
