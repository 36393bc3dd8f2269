//! Card 9: refusals 2, 3 and 4, in this order, and no other.

mod common;

use common::*;
use second::book::{Book, MAKERS, SETS};
use second::generate::books::Make;
use second::generate::rng::Rng;
use second::generate::tables;
use second::postings::{post as post_under, Call, Cover};

fn payable() -> Book {
    book(2019, &[(2, 1, 2018, 9)], &[(2, 1, 2018, 7)])
}

fn refuses(book: &Book, maker: u64, set: u64, number: u8) {
    let mut after = book.clone();
    let answer = cover(&mut after, maker, set);
    assert_eq!(refused(answer), number, "{maker} {set}");
    assert!(after == *book, "a refusal changed the book");
}

/// The first number above, and others that a narrower type takes for this one.
fn above(number: u64, limit: usize) -> Vec<u64> {
    let limit = limit as u64;
    let ends = [limit, limit + 1, 2 * limit - 1, 255, u64::MAX];
    let bits = [8, 16, 32, 63].map(|bits| (1 << bits) + number);
    ends.into_iter().chain(bits).collect()
}

#[test]
fn three_comes_before_four() {
    let sets = (0..SETS as u64).chain(above(1, SETS));
    for set in sets {
        for maker in above(2, MAKERS) {
            refuses(&payable(), maker, set, 3);
        }
    }
    for set in above(1, SETS) {
        for maker in 0..MAKERS as u64 {
            refuses(&payable(), maker, set, 4);
        }
    }
}

/// Whatever the fault, wherever it is, and whatever the cover names.
#[test]
fn two_comes_before_both() {
    let mut rng = Rng::new(92);
    for _ in 0..100 {
        let book = Make::unsound(&mut rng).book(&mut rng);
        if book.is_sound() {
            continue;
        }
        for maker in [rng.below(8), 8, u64::MAX] {
            for set in [rng.below(4), 4, u64::MAX] {
                refuses(&book, maker, set, 2);
            }
        }
    }
    let mut book = payable();
    book.open_year = 2018;
    refuses(&book, 2, 1, 2);
}

/// So 20 does not concern it, nor does any standard.
#[test]
fn a_cover_reads_no_table() {
    let mut rng = Rng::new(20);
    for table in [tables::Made::Wild, tables::Made::Empty].map(|made| made.table(&mut rng)) {
        for (maker, set) in [(2, 1), (2, 0), (8, 1), (2, 4)] {
            let call = Call::Cover(Cover { maker, set });
            let (mut one, mut other) = (payable(), payable());
            let answer = post_under(&mut one, &table, &call);
            assert_eq!(answer, post(&mut other, &call));
            assert!(one == other);
        }
    }
}
