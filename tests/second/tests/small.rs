//! Card 10: the small makers' entry, with family numbers 0 to 15 and a volume of
//! at most 5,000, beside the large one in one book.

mod common;

use common::any::*;
use common::pairs::*;
use common::*;
use second::book::{cell, Book};
use second::postings::{post as post_under, Answer, Call, Filing, Refusal};
use second::standards::Table;
use std::collections::BTreeSet;

type Form = fn(Filing) -> Call;

const FORMS: [(Form, Pair); 2] = [(Call::File, LARGE), (Call::Small, SMALL)];

#[test]
fn a_small_filing_alone() {
    let mut book = Book::fresh();
    assert_eq!(small(&mut book, plain(5, 560)), filed(7 * MG, 1));
    let mut expected = Book::fresh();
    assert_eq!(
        post(&mut expected, &Call::File(plain(5, 560))),
        filed(7 * MG, 1)
    );
    assert!(book == expected);
    assert_eq!(close(&mut book), closed(0));
    assert_eq!(lot(&book, 0, 3, 2014), 7);
}

#[test]
fn both_sides_of_both_limits() {
    for (form, (number, volume)) in FORMS {
        for (family, engines, answer) in [
            (0, 1, Ok(())),
            (number - 1, volume - 1, Ok(())),
            (number, 1, Ok(())),
            (0, volume, Ok(())),
            (number, volume, Ok(())),
            (number + 1, 1, Err(7)),
            (number + 1, volume, Err(7)),
            (number + 1, volume + 1, Err(7)),
            (number + 1, 0, Err(7)),
            (u64::MAX, 1, Err(7)),
            (0, volume + 1, Err(8)),
            (number, volume + 1, Err(8)),
            (number, 0, Err(8)),
            (number, u64::MAX, Err(8)),
        ] {
            let filing = of_volume(family, 566, engines);
            let call = form(filing);
            match answer {
                Ok(()) => {
                    let part = engines as i64 * 1_000_000;
                    assert_eq!(post(&mut Book::fresh(), &call), filed(part, 1), "{call}");
                }
                Err(refusal) => {
                    assert_eq!(
                        refused_unchanged(&Book::fresh(), &call),
                        refusal,
                        "{filing:?}"
                    );
                }
            }
        }
    }
}

/// Every number by each entry, with a volume at each side of the small limit.
#[test]
fn every_number_by_both_entries() {
    for family in 0..=64 {
        for volume in [4_999, 5_000, 5_001] {
            let gets = |form: Form| {
                let answer = post(&mut Book::fresh(), &form(of_volume(family, 566, volume)));
                answer.map(|_| 0).unwrap_or_else(Refusal::number)
            };
            assert_eq!(gets(Call::File), if family > 63 { 7 } else { 0 });
            let expected = match (family, volume) {
                (16.., _) => 7,
                (_, 5_001..) => 8,
                _ => 0,
            };
            assert_eq!(gets(Call::Small), expected, "{family} {volume}");
        }
    }
}

#[test]
fn any_small_filing_is_a_filing_but_for_its_limits() {
    let mut reached = BTreeSet::new();
    each_filing(10, |book, rng, any| {
        let Call::Small(filing) = any_small(rng, any) else {
            panic!("another form");
        };
        let (mut by_large, mut after) = (book.clone(), book.clone());
        let large = post(&mut by_large, &Call::File(filing));
        let answer = small(&mut after, filing);
        assert_eq!(answer, limited(large, &filing, SMALL), "{filing:?}");
        let expected = if answer.is_ok() {
            by_large
        } else {
            book.clone()
        };
        assert!(after == expected, "another book after {filing:?}");
        let number = |answer: Answer| answer.map(|_| 0).unwrap_or_else(Refusal::number);
        reached.insert((number(large), number(answer)));
        if rng.once_in(2) {
            *book = after;
        }
    });
    // Taken by the large entry alone, and by both; each of its refusals; and 7 or
    // 8 in the place of what comes later.
    let same = (2..=9).chain([17, 0]).map(|number| (number, number));
    let others = [(0, 7), (0, 8), (8, 7), (9, 7), (9, 8)];
    let wanted: BTreeSet<_> = same.chain(others).collect();
    assert_eq!(reached, wanted);
}

#[test]
fn both_entries_post_to_one_cell() {
    let mut book = Book::fresh();
    assert_eq!(small(&mut book, plain(15, 565)), filed(2 * MG, 1));
    assert_eq!(
        post(&mut book, &Call::File(plain(63, 560))),
        filed(7 * MG, 2)
    );
    assert_eq!(
        post(&mut book, &Call::File(plain(0, 577))),
        filed(-10 * MG, 3)
    );
    assert_eq!(
        small(&mut book, of_volume(1, 566, 5_000)),
        filed(50 * MG, 4)
    );
    assert_eq!(book.marks[cell(0, 3)], 1 << 63 | 1 << 15 | 0b11);
    assert_eq!(close(&mut book), closed(0));
    assert_eq!(lot(&book, 0, 3, 2014), 50 + 7 + 2 - 10);
}

/// Whichever filed first, with other figures too, and with a part of 0.
#[test]
fn a_family_is_filed_once_by_either_entry() {
    for (first, second) in [
        (Call::File as Form, Call::Small as Form),
        (Call::Small, Call::File),
        (Call::Small, Call::Small),
    ] {
        for (one, other) in [(560, 560), (567, 560), (560, 567), (570, 565)] {
            let mut book = Book::fresh();
            post(&mut book, &first(plain(15, one))).expect("accepted");
            assert_eq!(refused_unchanged(&book, &second(plain(15, other))), 9);
            // Another number, another set and another maker are other families.
            for beside in [
                plain(14, other),
                Filing {
                    set: 2,
                    ..plain(15, other)
                },
                Filing {
                    maker: 1,
                    ..plain(15, other)
                },
            ] {
                post(&mut book, &second(beside)).expect("accepted");
            }
            // Next year it is filed anew.
            close(&mut book).expect("accepted");
            let next = Filing {
                year: 2015,
                ..plain(15, other)
            };
            post(&mut book, &second(next)).expect("accepted");
            assert_eq!(refused_unchanged(&book, &first(next)), 9);
        }
    }
}

/// An amendment has the large limits whoever filed: the book does not keep the
/// entry.
#[test]
fn a_small_filing_is_amended_beyond_its_limits() {
    let mut book = Book::fresh();
    assert_eq!(
        small(&mut book, of_volume(15, 566, 5_000)),
        filed(50 * MG, 1)
    );
    for volume in [5_001, 100_000, 5_000, 5_001] {
        let amended = of_volume(15, 566, volume);
        let part = volume as i64 * 1_000_000;
        assert_eq!(amend(&mut book, amended), filed(part, 1));
        // By neither entry is it filed again, whatever the volume.
        assert_eq!(refused_unchanged(&book, &Call::File(amended)), 9);
        let again = if volume > 5_000 { 8 } else { 9 };
        assert_eq!(refused_unchanged(&book, &Call::Small(amended)), again);
    }
    let largest = of_volume(15, 566, 100_001);
    assert_eq!(refused_unchanged(&book, &Call::Amend(largest)), 8);
    assert_eq!(
        amend(&mut book, of_volume(15, 566, 100_000)),
        filed(1_000 * MG, 1)
    );
    assert_eq!(close(&mut book), closed(0));
    assert_eq!(lot(&book, 0, 3, 2014), 1_000);
}

/// Of the large entry's families an amendment may name each, after small filings
/// too.
#[test]
fn small_filings_leave_amendments_their_limits() {
    let mut book = Book::fresh();
    for family in [16, 63] {
        post(&mut book, &Call::File(plain(family, 560))).expect("accepted");
    }
    small(&mut book, plain(0, 560)).expect("accepted");
    for family in [16, 63] {
        let amended = of_volume(family, 566, 100_000);
        assert_eq!(amend(&mut book, amended), filed(1_000 * MG, 3));
    }
    assert_eq!(refused_unchanged(&book, &Call::Amend(plain(15, 560))), 18);
    assert_eq!(refused_unchanged(&book, &Call::Amend(plain(64, 560))), 7);
}

/// Under a table of its own a small filing has that table's standard.
#[test]
fn a_small_filing_is_figured_under_the_table_handed_to_it() {
    let mut rows = [[600; 6]; 24];
    rows[0][3] = 0;
    let (own, empty) = (Table([[600; 6]; 24]), Table(rows));
    let call = Call::Small(plain(5, 560));
    let by = |table: &Table| post_under(&mut Book::fresh(), table, &call);
    assert_eq!(by(&own), filed(40 * MG, 1));
    assert_eq!(by(&BUILT_IN), filed(7 * MG, 1));
    assert_eq!(refused(by(&empty)), 6);
    assert_eq!(refused(by(&Table([[770; 6]; 24]))), 20);
}

#[test]
fn a_small_filing_names_any_edition() {
    for (edition, usage, standard) in [
        (0, 0, 506),
        (1, 0, 506),
        (2, 0, 510),
        (0, 1, 436),
        (1, 1, 442),
        (2, 1, 442),
    ] {
        let mut book = book(2025, &[], &[]);
        let answer = small(&mut book, filing(edition, 3, usage, 2025));
        assert_eq!(answer, filed(standard - 1, 1));
    }
    let wrong = Call::Small(filing(1, 1, 0, 2025));
    assert_eq!(refused_unchanged(&book(2025, &[], &[]), &wrong), 17);
}

/// The largest small credits and debits of a whole cell's sixteen.
#[test]
fn sixteen_small_families_at_the_limits() {
    let largest = |family, fcl| {
        let mut figures = at_the_limits(fcl);
        figures.volume = 5_000;
        Filing {
            family,
            figures,
            ..filing(0, 3, 0, 2014)
        }
    };
    for (fcl, margin) in [(1, 566), (1_200, -633)] {
        let mut book = Book::fresh();
        for family in 0..16 {
            let answer = small(&mut book, largest(family, fcl));
            assert_eq!(answer, filed(margin * 2_500_000_000_000, family + 1));
        }
        assert_eq!(
            refused_unchanged(&book, &Call::Small(largest(16, fcl))),
            7,
            "{fcl}"
        );
        close(&mut book).expect("accepted");
        let found = (lot(&book, 0, 3, 2014), shortage(&book, 0, 3, 2014));
        let mg = 16 * margin.unsigned_abs() * 25_000;
        assert_eq!(found, if margin > 0 { (mg, 0) } else { (0, mg) });
    }
}
