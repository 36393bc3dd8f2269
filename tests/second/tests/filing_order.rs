//! The same filings, by either entry, and amendments of a year in another order,
//! under one table: equal books, and each gets the same part or the same refusal. No two name the
//! same maker, set and number, or those that do keep their order.

mod common;

use common::any::*;
use common::*;
use second::book::{Book, CELLS};
use second::figuring::Part;
use second::generate::rng::Rng;
use second::generate::tables::{accepted, changed};
use second::generate::{session, Kind};
use second::listing::list;
use second::postings::{post as post_under, Answer, Call, Refusal, Results};
use second::standards::Table;
use std::collections::{BTreeMap, BTreeSet, VecDeque};

type Name = (u64, u64, u64);
type Gets = BTreeMap<Name, Result<Part, Refusal>>;

/// The maker, set and number that a filing or an amendment names.
fn name(call: &Call) -> Name {
    match call {
        Call::File(c) | Call::Small(c) | Call::Amend(c) => (c.maker, c.set, c.family),
        other => panic!("{other} names no family"),
    }
}

fn is_filing(call: &Call) -> bool {
    matches!(call, Call::File(_) | Call::Small(_))
}

fn is_small(call: &Call) -> bool {
    matches!(call, Call::Small(_))
}

fn is_amendment(call: &Call) -> bool {
    matches!(call, Call::Amend(_))
}

/// What a call gets, its count aside.
fn part_or_refusal(answer: Answer) -> Result<Part, Refusal> {
    answer.map(|results| match results {
        Results::Filed { part, .. } => part,
        other => panic!("{other:?} to a filing or an amendment"),
    })
}

/// The calls put to a book in turn: the book after them, and what each gets.
fn put(book: &Book, table: &Table, calls: &[Call]) -> (Book, Gets) {
    let mut after = book.clone();
    let gets = calls.iter().map(|call| {
        let answer = post_under(&mut after, table, call);
        (name(call), part_or_refusal(answer))
    });
    let gets = gets.collect();
    (after, gets)
}

/// Drops each call that names what an earlier one names.
fn no_two_alike(calls: Vec<Call>) -> Vec<Call> {
    let mut named = BTreeSet::new();
    let calls = calls.into_iter();
    calls.filter(|call| named.insert(name(call))).collect()
}

fn shuffle<T>(rng: &mut Rng, things: &mut [T]) {
    for last in (1..things.len()).rev() {
        things.swap(last, rng.index(last + 1));
    }
}

fn listed(book: &Book) -> String {
    let mut text = Vec::new();
    list(book, &mut text).expect("a vector takes it");
    String::from_utf8(text).expect("plain text")
}

/// Filings alone, both, or amendments alone, in turn.
fn any_calls(rng: &mut Rng, book: &Book, turn: u64, year: u64, narrow: bool) -> Vec<Call> {
    let calls = (0..rng.below(400)).map(|_| match turn % 3 {
        0 => any_entry(rng, year, narrow),
        1 if rng.once_in(2) => any_entry(rng, year, narrow),
        _ => Call::Amend(any_amendment(rng, book, year, narrow)),
    });
    no_two_alike(calls.collect())
}

/// The built-in table, or any other; seldom one that is not accepted.
fn any_table(rng: &mut Rng) -> Table {
    match rng.below(12) {
        0..=5 => Table::built_in(),
        6 => changed(rng),
        _ => accepted(rng),
    }
}

#[test]
fn two_orders_of_any_calls_give_one_book() {
    let mut rng = Rng::new(1);
    let (mut reached, mut editions, mut most) = (BTreeSet::new(), BTreeSet::new(), 0);
    for turn in 0..240 {
        let mut book = begun(&mut rng);
        let (year, narrow) = match rng.below(12) {
            0 => (book.open_year + 1, false),
            1 => (rng.draw(), false),
            draw => (book.open_year, draw < 6),
        };
        if turn % 3 > 0 {
            fill(&mut book, &mut rng, narrow);
        }
        let table = any_table(&mut rng);
        let mut calls = any_calls(&mut rng, &book, turn, year, narrow);
        let (after, gets) = put(&book, &table, &calls);
        for call in &calls {
            let kind = match gets[&name(call)] {
                Ok(part) => Ok(part.0.signum()),
                Err(refusal) => Err(refusal.number()),
            };
            let form = (is_amendment(call), is_small(call));
            reached.insert((form, kind));
            if let (Ok(_), Call::File(c) | Call::Small(c) | Call::Amend(c)) = (kind, call) {
                editions.insert((form, c.edition));
            }
            let (_, alone) = put(&book, &table, std::slice::from_ref(call));
            assert_eq!(gets[&name(call)], alone[&name(call)]);
        }
        most = most.max((0..CELLS).map(|cell| after.filed(cell)).max().unwrap_or(0));
        for _ in 0..3 {
            shuffle(&mut rng, &mut calls);
            let (mut other, others) = put(&book, &table, &calls);
            assert!(other == after, "another book");
            assert_eq!(others, gets);
            let mut after = after.clone();
            assert_eq!(close(&mut other), close(&mut after));
            assert_eq!(listed(&other), listed(&after));
        }
    }
    // Of filings by each entry, and of amendments: parts below 0, of 0 and above,
    // every refusal, every edition.
    for (form, last) in [((false, false), 9), ((false, true), 9), ((true, false), 18)] {
        let refusals = (2..=8).chain([17, last, 20]).map(Err);
        for wanted in [-1, 0, 1].map(Ok).into_iter().chain(refusals) {
            let wanted = (form, wanted);
            assert!(reached.contains(&wanted), "{wanted:?} was never given");
        }
        assert!((0..3).all(|edition| editions.contains(&(form, edition))));
    }
    assert!(most >= 50, "no cell had more than {most} families");
}

/// A session's calls by year: those that are moved come first.
type Years = Vec<(Vec<Call>, Vec<Call>)>;

fn by_year(calls: &[Call], moved: fn(&Call) -> bool) -> Years {
    let years = calls.split_inclusive(|call| matches!(call, Call::Close { .. }));
    let years = years.map(|year| year.iter().copied().partition(moved));
    years.collect()
}

/// The answers to the calls that are moved, sorted and without their counts;
/// all other lines of the output, the listing with them.
fn shown(years: &Years) -> (Vec<String>, Vec<String>) {
    let mut input = String::new();
    let mut moved = Vec::new();
    for (number, (calls, others)) in years.iter().enumerate() {
        for call in calls {
            input += &format!("{call}\n");
            moved.push(Some(format!("{number} {call}")));
        }
        for call in others {
            input += &format!("{call}\n");
            moved.push(None);
        }
    }
    let output = output(&input);
    let mut lines = output.lines();
    let (mut gets, mut rest) = (Vec::new(), Vec::new());
    for (call, line) in moved.iter().zip(&mut lines) {
        match call {
            Some(call) => {
                let words: Vec<_> = line.split(' ').take(2).collect();
                gets.push(format!("{call} {}", words.join(" ")));
            }
            None => rest.push(line.to_string()),
        }
    }
    rest.extend(lines.map(str::to_string));
    gets.sort();
    (gets, rest)
}

#[test]
fn shuffled_filings_are_shown_alike() {
    for seed in 0..6 {
        let mut rng = Rng::new(seed);
        // `Single` files all 64 numbers of each cell that has a standard.
        let kind = [Kind::Years, Kind::Mixed, Kind::Single][seed as usize % 3];
        let mut years = by_year(&calls(&session(kind, seed, 6_000)), is_filing);
        for (filings, _) in &mut years {
            *filings = no_two_alike(std::mem::take(filings));
        }
        let first = shown(&years);
        assert!(first.1.iter().any(|line| line.starts_with("(lot ")));
        for (filings, _) in &mut years {
            shuffle(&mut rng, filings);
        }
        assert_eq!(shown(&years), first);
    }
}

/// Any order that keeps the calls of each family in theirs.
fn interleave(rng: &mut Rng, calls: &mut [Call]) {
    let mut of_family: BTreeMap<Name, VecDeque<Call>> = BTreeMap::new();
    for call in calls.iter() {
        of_family.entry(name(call)).or_default().push_back(*call);
    }
    let mut names: Vec<Name> = calls.iter().map(name).collect();
    shuffle(rng, &mut names);
    for (call, name) in calls.iter_mut().zip(names) {
        let next = of_family.get_mut(&name).and_then(VecDeque::pop_front);
        *call = next.expect("as many calls as names");
    }
}

#[test]
fn families_filed_and_amended_in_another_order_are_shown_alike() {
    for seed in 0..6 {
        let mut rng = Rng::new(seed);
        let kind = [Kind::Years, Kind::Mixed, Kind::Hostile][seed as usize % 3];
        let calls = calls(&session(kind, seed, 4_000));
        let mut years = by_year(&calls, |call| is_filing(call) || is_amendment(call));
        let first = shown(&years);
        let amended = |get: &&String| get.contains("(amend") && get.contains(") (ok ");
        let amended = first.0.iter().filter(amended).count();
        assert!(amended >= 100, "{kind:?}: {amended} amended");
        for (calls, _) in &mut years {
            interleave(&mut rng, calls);
        }
        assert_eq!(shown(&years), first);
    }
}

/// Why the count stands aside.
#[test]
fn the_count_goes_by_the_order() {
    let count = |calls: [Call; 2]| {
        let mut book = Book::fresh();
        calls.map(|call| post(&mut book, &call))
    };
    let (one, other) = (Call::File(plain(0, 566)), Call::File(plain(1, 568)));
    assert_eq!(count([one, other]), [filed(MG, 1), filed(-MG, 2)]);
    assert_eq!(count([other, one]), [filed(-MG, 1), filed(MG, 2)]);
}

/// Why no two may name one family: then the books differ, and this is noticed.
#[test]
fn two_calls_of_one_family_are_told_apart() {
    let (one, other) = (plain(5, 566), plain(5, 568));
    let (fresh, mut begun) = (Book::fresh(), Book::fresh());
    post(&mut begun, &Call::File(plain(5, 567))).expect("accepted");
    for (book, pair) in [
        (&fresh, [Call::File(one), Call::File(other)]),
        (&fresh, [Call::File(one), Call::Small(other)]),
        (&fresh, [Call::Small(one), Call::Small(other)]),
        (&fresh, [Call::File(one), Call::Amend(other)]),
        (&fresh, [Call::Small(one), Call::Amend(other)]),
        (&begun, [Call::Amend(one), Call::Amend(other)]),
    ] {
        let [first, second] = pair;
        let orders = [[first, second], [second, first]];
        let orders = orders.map(|calls| put(book, &BUILT_IN, &calls));
        assert!(orders[0].0 != orders[1].0, "{first} {second}");
    }
    let (_, gets) = put(&fresh, &BUILT_IN, &[Call::File(one), Call::File(other)]);
    assert_eq!(gets[&(0, 3, 5)], Err(Refusal::AlreadyFiled));
}
