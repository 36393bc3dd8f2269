//! Card 8: a session cut in two by a write and a read gives the answers and
//! the listing of the whole.

mod common;

use common::*;
use second::book::Book;
use second::generate::rng::Rng;
use second::generate::tables::accepted;
use second::generate::{session_under, Kind};
use second::standards::Table;
use second::written::{read, text_of, written};

/// Where the lines of an input end.
fn ends(input: &[u8]) -> Vec<usize> {
    let feeds = input.iter().enumerate().filter(|(_, &byte)| byte == b'\n');
    feeds.map(|(at, _)| at + 1).collect()
}

/// The answers without the listing, and the book at the end, written and read.
fn part(book: Book, table: &Table, input: &[u8]) -> (String, Book) {
    let (output, book) = output_begun(book, table, input, 4_096);
    let answers = output
        .split_inclusive('\n')
        .filter(|line| line.starts_with("(ok") || line.starts_with("(no"));
    let moved = read(written(&book).expect("sound").as_bytes()).expect("a book");
    assert!(moved == book);
    (answers.collect(), moved)
}

/// The output of an input that is cut at these places.
fn in_parts(table: &Table, input: &[u8], cuts: &[usize]) -> String {
    let (mut said, mut book, mut begun) = (String::new(), Book::fresh(), 0);
    for &cut in cuts {
        let (answers, moved) = part(book, table, &input[begun..cut]);
        said += &answers;
        (book, begun) = (moved, cut);
    }
    said + &output_begun(book, table, &input[begun..], 997).0
}

#[test]
fn a_session_cut_in_two_is_the_whole() {
    let mut rng = Rng::new(88);
    for (kind, lines) in [
        (Kind::Years, 1_500),
        (Kind::Hostile, 800),
        (Kind::Mixed, 800),
    ] {
        for seed in 20..26 {
            let table = accepted(&mut rng);
            let input = session_under(&table, kind, seed, lines);
            let whole = output_under(&table, &input, 4_096);
            let ends = ends(&input);
            for _ in 0..4 {
                let cut = ends[rng.index(ends.len())];
                assert_eq!(
                    in_parts(&table, &input, &[cut]),
                    whole,
                    "{kind} {seed} {cut}"
                );
            }
            // At the beginning and at the end.
            for cut in [0, *ends.last().expect("a line")] {
                assert_eq!(in_parts(&table, &input, &[cut]), whole, "{kind} {seed}");
            }
        }
    }
}

#[test]
fn a_session_cut_at_every_line_is_the_whole() {
    for kind in [Kind::Years, Kind::Mixed] {
        let input = session_under(&BUILT_IN, kind, 3, 400);
        let whole = output_under(&BUILT_IN, &input, 4_096);
        assert_eq!(in_parts(&BUILT_IN, &input, &ends(&input)), whole);
    }
}

/// Nothing but the book is carried over: a part's history is not.
#[test]
fn what_is_carried_over_is_the_book_alone() {
    let first = "(file (maker 0) (set 3) (year 2014) (use 0) (edition 0) (family 5) \
                 (fcl 560) (cf 1000000) (volume 100) (life 1))\n";
    let (_, book) = part(Book::fresh(), &BUILT_IN, first.as_bytes());
    assert_eq!(text_of(&book), "(open 2014)\n(family 0 3 5 700000000)\n");
    let second = "(amend (maker 0) (set 3) (year 2014) (use 0) (edition 0) (family 5) \
                  (fcl 570) (cf 1000000) (volume 100) (life 1))\n(close (year 2014))\n";
    let (output, book) = output_begun(book, &BUILT_IN, second.as_bytes(), 1);
    assert_eq!(
        output,
        "(ok -300000000 1)\n(ok 1)\n(short 0 3 2014 open 3)\n"
    );
    assert_eq!(text_of(&book), "(open 2015)\n(short 0 3 2014 3)\n");
}
