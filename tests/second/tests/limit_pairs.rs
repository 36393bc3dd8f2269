//! Card 10: a filing by any pair of limits, the largest number and the largest
//! volume. One above the large entry's counts as that.

mod common;

use common::any::*;
use common::pairs::*;
use common::*;
use second::audit::Audit;
use second::book::Book;
use second::figuring::Mg;
use second::generate::rng::Rng;
use second::limits::Limits;
use second::postings::{file_by, Answer, Call, Filing, Refusal, Results};
use second::standards::Table;
use std::collections::BTreeSet;

fn number(answer: Answer) -> u8 {
    answer.err().map_or(0, Refusal::number)
}

/// What a filing of this number and volume gets, put to a fresh book.
fn gets(pair: Pair, family: u64, volume: u64) -> u8 {
    let filing = of_volume(family, 566, volume);
    number(file_within(&mut Book::fresh(), pair, &filing))
}

#[test]
fn both_sides_of_any_pair() {
    let mut rng = Rng::new(1);
    for _ in 0..2_000 {
        let pair = any_pair(&mut rng);
        let (most, largest) = (pair.0.min(63), pair.1.min(100_000));
        // By a volume of 0 nothing is filed.
        let taken = if largest == 0 { 8 } else { 0 };
        let one = rng.between(1, largest.max(1));
        for family in [0, most, rng.below(most + 1)] {
            for volume in [1, largest.max(1), one] {
                assert_eq!(gets(pair, family, volume), taken, "{pair:?}");
            }
            for volume in [largest + 1, 100_001, u64::MAX, 0] {
                assert_eq!(gets(pair, family, volume), 8, "{pair:?}");
            }
        }
        for family in [most + 1, 64, u64::MAX] {
            for volume in [1, largest, largest + 1] {
                assert_eq!(gets(pair, family, volume), 7, "{pair:?}");
            }
        }
    }
}

/// By itself or both.
#[test]
fn what_is_above_the_large_limits_counts_as_they_do() {
    for number in [63, 64, 65, 127, (1 << 8) + 3, 1 << 32, u64::MAX] {
        for volume in [100_000, 100_001, 1 << 17, 1 << 32, u64::MAX] {
            for (pair, limits) in [
                ((number, volume), LARGE),
                ((number, 5_000), (63, 5_000)),
                ((15, volume), (15, 100_000)),
                ((number, 0), (63, 0)),
                ((0, volume), (0, 100_000)),
            ] {
                let (n, v) = limits;
                assert_eq!(Limits::of(pair.0, pair.1), Limits::of(n, v));
                assert_eq!(gets(pair, n, v.max(1)), if v == 0 { 8 } else { 0 });
                assert_eq!(gets(pair, n + 1, 1), 7);
                assert_eq!(gets(pair, n, v + 1), 8);
            }
            // Above the large limits and within the pair.
            assert_eq!(gets((number, volume), number.max(64), 1), 7);
            assert_eq!(gets((number, volume), 0, volume.max(100_001)), 8);
        }
    }
}

#[test]
fn with_a_limit_of_0() {
    // The numbers 0 and 1 by a volume of 1.
    assert_eq!([0, 1].map(|family| gets((0, 100_000), family, 1)), [0, 7]);
    assert_eq!([0, 1].map(|family| gets((0, 0), family, 1)), [8, 7]);
    assert_eq!([0, 63].map(|family| gets((63, 0), family, 1)), [8, 8]);
    assert_eq!([0, 1].map(|volume| gets((63, 0), 0, volume)), [8, 8]);
    assert_eq!([1, 2].map(|volume| gets((63, 1), 0, volume)), [0, 8]);
    // 8 still before 9, and 7 before both.
    let book = two_families();
    for (family, answer) in [(5, 8), (9, 8), (6, 8), (64, 7)] {
        let mut after = book.clone();
        let answered = file_within(&mut after, (63, 0), &plain(family, 560));
        assert_eq!(number(answered), answer);
        assert!(after == book);
    }
}

/// In the card's words, with every refusal, and the book that the large entry
/// leaves where the filing is taken.
#[test]
fn any_filing_by_any_pair() {
    let mut reached = BTreeSet::new();
    each_filing(101, |book, rng, filing| {
        let pair = match rng.below(8) {
            0 => SMALL,
            1 => LARGE,
            // At the figures of the filing, or one below.
            2 => (
                filing.family.saturating_sub(rng.below(2)),
                filing.figures.volume.saturating_sub(rng.below(2)),
            ),
            _ => any_pair(rng),
        };
        let (mut by_large, mut after) = (book.clone(), book.clone());
        let large = post(&mut by_large, &Call::File(filing));
        let answer = file_within(&mut after, pair, &filing);
        assert_eq!(answer, limited(large, &filing, pair), "{pair:?} {filing:?}");
        let expected = if answer.is_ok() {
            by_large
        } else {
            book.clone()
        };
        assert!(after == expected, "another book after {filing:?}");
        reached.insert((number(large), number(answer)));
    });
    let same = (2..=9).chain([17, 0]).map(|number| (number, number));
    let others = [(0, 7), (0, 8), (8, 7), (9, 7), (9, 8)];
    assert_eq!(reached, same.chain(others).collect());
}

#[test]
fn the_entries_are_two_pairs() {
    let mut rng = Rng::new(102);
    for _ in 0..30 {
        let mut begun = begun(&mut rng);
        fill(&mut begun, &mut rng, true);
        for _ in 0..100 {
            let filing = any_filing(&mut rng, begun.open_year, true);
            for (pair, call) in [
                (LARGE, Call::File(filing)),
                ((u64::MAX, u64::MAX), Call::File(filing)),
                (SMALL, Call::Small(filing)),
            ] {
                let (mut one, mut other) = (begun.clone(), begun.clone());
                let answers = (
                    file_within(&mut one, pair, &filing),
                    post(&mut other, &call),
                );
                assert_eq!(answers.0, answers.1, "{call}");
                assert!(one == other, "{call}");
            }
        }
    }
}

/// What a pair takes, any wider pair takes, with the same results.
#[test]
fn a_wider_pair_takes_as_much() {
    let mut rng = Rng::new(103);
    let mut met = [0; 3];
    for _ in 0..40 {
        let mut begun = begun(&mut rng);
        fill(&mut begun, &mut rng, true);
        for _ in 0..100 {
            let filing = any_filing(&mut rng, begun.open_year, true);
            let (one, other) = (any_pair(&mut rng), any_pair(&mut rng));
            let wider = (one.0.max(other.0), one.1.max(other.1));
            let mut books = [begun.clone(), begun.clone()];
            let narrow = file_within(&mut books[0], one, &filing);
            let wide = file_within(&mut books[1], wider, &filing);
            if narrow.is_ok() {
                assert_eq!(wide, narrow, "{one:?} {wider:?} {filing:?}");
                assert!(books[0] == books[1]);
            }
            met[0] += u32::from(narrow.is_ok());
            met[1] += u32::from(wide.is_ok() && narrow == Err(Refusal::Family));
            met[2] += u32::from(wide.is_ok() && narrow == Err(Refusal::Limits));
        }
    }
    assert!(met.iter().all(|&n| n >= 100), "{met:?}");
}

#[test]
fn refusals_2_and_20_come_before_7_by_any_pair() {
    let mut rng = Rng::new(104);
    let book = two_families();
    let mut unsound = book.clone();
    unsound.lots[31][23] = Mg(1);
    let broken = Table([[770; 6]; 24]);
    for _ in 0..200 {
        let (n, v) = any_pair(&mut rng);
        let limits = Limits::of(n, v);
        let filing = any_filing(&mut rng, 2014, true);
        let mut after = unsound.clone();
        for table in [&broken, &BUILT_IN] {
            let answer = file_by(&mut after, table, limits, &filing);
            assert_eq!(answer, Err(Refusal::UnsoundBook));
            assert!(after == unsound);
        }
        let mut after = book.clone();
        let answer = file_by(&mut after, &broken, limits, &filing);
        assert_eq!(answer, Err(Refusal::Table));
        assert!(after == book);
    }
}

type Name = (u64, u64, u64);

fn name(c: &Filing) -> Name {
    (c.maker, c.set, c.family)
}

/// Card 1 with card 10: filings that each have a pair of their own change places.
#[test]
fn filings_by_any_pairs_change_places() {
    let mut rng = Rng::new(105);
    let mut met = BTreeSet::new();
    for _ in 0..60 {
        let begun = begun(&mut rng);
        let mut named = BTreeSet::new();
        let mut filings = Vec::new();
        for _ in 0..rng.below(300) {
            let filing = any_filing(&mut rng, begun.open_year, true);
            if named.insert(name(&filing)) {
                filings.push((filing, any_pair(&mut rng)));
            }
        }
        let put = |filings: &[(Filing, Pair)]| {
            let mut book = begun.clone();
            let mut gets: Vec<_> = filings
                .iter()
                .map(|(filing, pair)| {
                    let got = match file_within(&mut book, *pair, filing) {
                        Ok(Results::Filed { part, .. }) => Ok(part),
                        Ok(other) => panic!("{other:?}"),
                        Err(refusal) => Err(refusal.number()),
                    };
                    (name(filing), got)
                })
                .collect();
            gets.sort();
            (book, gets)
        };
        let first = put(&filings);
        met.extend(first.1.iter().map(|(_, got)| got.err().unwrap_or(0)));
        for _ in 0..3 {
            for last in (1..filings.len()).rev() {
                filings.swap(last, rng.index(last + 1));
            }
            let other = put(&filings);
            assert!(other == first, "another book, or another part");
        }
    }
    assert!(
        [0, 2, 7, 8, 9].iter().all(|number| met.contains(number)),
        "{met:?}"
    );
}

/// Demand 3 of a list whose filings each have a pair of their own, with
/// amendments by the large limits among them: an accepted one counts as any
/// other.
#[test]
fn the_accounts_of_filings_by_any_pairs() {
    let mut rng = Rng::new(106);
    let mut met = [0; 3];
    for _ in 0..20 {
        let (mut audit, mut book) = (Audit::default(), Book::fresh());
        while book.open_year < 2038 {
            for _ in 0..40 {
                let before = book.clone();
                let year = book.open_year;
                let (call, answer) = if rng.once_in(4) {
                    let amended = any_amendment(&mut rng, &book, year, true);
                    let call = Call::Amend(amended);
                    (call, post(&mut book, &call))
                } else {
                    let filing = any_filing(&mut rng, year, true);
                    let pair = any_pair(&mut rng);
                    let answer = file_within(&mut book, pair, &filing);
                    (Call::File(filing), answer)
                };
                let accepted = answer.is_ok();
                audit
                    .judge(&BUILT_IN, &call, accepted, &before, &book)
                    .expect("holds");
                met[0] += u32::from(accepted && matches!(call, Call::File(_)));
                met[1] += u32::from(!accepted && matches!(call, Call::File(_)));
                met[2] += u32::from(accepted && matches!(call, Call::Amend(_)));
            }
            let before = book.clone();
            let call = Call::Close {
                year: book.open_year,
            };
            let accepted = post(&mut book, &call).is_ok();
            audit
                .judge(&BUILT_IN, &call, accepted, &before, &book)
                .expect("holds");
        }
        audit.hold_all(&book).expect("holds");
    }
    assert!(met.iter().all(|&n| n >= 1_000), "{met:?}");
}
