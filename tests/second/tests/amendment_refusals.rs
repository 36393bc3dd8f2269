//! Card 6: what an amendment is refused for, in the order of a filing's
//! refusals, with 18 in place of 9.

mod common;

use common::faults::*;
use common::*;
use second::book::{cell, Book};
use second::figuring::Part;
use second::postings::{Call, Filing};

fn amend_refused(book: &Book, amended: Filing) -> u8 {
    refused_unchanged(book, &Call::Amend(amended))
}

/// A number that nobody files.
const UNFILED: u64 = 6;

/// What else may be wrong with an amendment.
const OWN: [Fault; 1] = [(|f| f.family = UNFILED, 18)];

#[test]
fn the_first_of_two_faults_answers() {
    let book = two_families();
    let gets = |amended| amend_refused(&book, amended);
    the_first_of_two_answers(&with_own(&OWN), plain(5, 560), gets);
}

#[test]
fn the_order_of_an_amendments_refusals() {
    let book = two_families();
    let gets = |amended| amend_refused(&book, amended);
    the_first_of_all_answers(&with_own(&OWN), plain(5, 560), gets);
}

#[test]
fn a_family_of_another_cell_or_number_gets_18() {
    let book = two_families();
    let right = plain(5, 570);
    let mut others: Vec<Filing> = (1..8).map(|maker| Filing { maker, ..right }).collect();
    others.extend((1..3).map(|set| Filing { set, ..right }));
    let numbers = (0..64).filter(|number| ![5, 9].contains(number));
    others.extend(numbers.map(|number| plain(number, 570)));
    for other in others {
        assert_eq!(amend_refused(&book, other), 18, "{other:?}");
    }
    // Nor is the family of the other cell this one's.
    let mut book = book;
    let other = Filing { maker: 1, ..right };
    post(&mut book, &Call::File(other)).expect("accepted");
    assert_eq!(amend(&mut book, other), filed(-3 * MG, 1));
    assert_eq!(book.parts[cell(0, 3)][5], Part(7 * MG));
}

#[test]
fn a_family_of_last_year_gets_18_until_it_is_filed_again() {
    let mut book = two_families();
    close(&mut book).expect("accepted");
    let next = |fcl| Filing {
        year: 2015,
        ..plain(5, fcl)
    };
    assert_eq!(amend_refused(&book, plain(5, 570)), 5);
    assert_eq!(amend_refused(&book, next(570)), 18);
    assert_eq!(lot(&book, 0, 3, 2014), 9);
    assert_eq!(post(&mut book, &Call::File(next(560))), filed(7 * MG, 1));
    assert_eq!(amend(&mut book, next(570)), filed(-3 * MG, 1));
    assert_eq!(close(&mut book), closed(1));
    let found = (lot(&book, 0, 3, 2014), shortage(&book, 0, 3, 2015));
    assert_eq!(found, (9, 3));
}

#[test]
fn nothing_is_amended_once_all_years_are_closed() {
    let mut book = Book::fresh();
    close_until(&mut book, 2037);
    let last = |year| Filing {
        year,
        ..plain(5, 500)
    };
    post(&mut book, &Call::File(last(2037))).expect("accepted");
    assert_eq!(amend(&mut book, last(2037)), filed(3 * MG, 1));
    close(&mut book).expect("accepted");
    for year in [2036, 2037, 2038, 2039] {
        assert_eq!(amend_refused(&book, last(year)), 5, "{year}");
    }
}
