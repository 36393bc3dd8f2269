//! Card 7: what a call makes of the table that it is handed.

mod common;

use common::*;
use second::accounts::Accounts;
use second::audit::Audit;
use second::book::{cell, Book};
use second::figuring::Mg;
use second::generate::rng::Rng;
use second::generate::tables::{accepted, Made};
use second::postings::{post as post_under, Answer, Call, Filing, Results};
use second::standards::Table;

/// The sets and uses of the columns.
const USES: [(u64, u64); 6] = [(0, 0), (1, 0), (2, 0), (3, 0), (2, 1), (3, 1)];

/// The built-in table with one entry too low.
fn broken() -> Table {
    let mut table = BUILT_IN.clone();
    table.0[0][1] = 431;
    table
}

/// The standard of a filing, or the number of its refusal. With its family
/// filed, an amendment must get the same.
fn gets(table: &Table, book: &Book, filing: Filing) -> u64 {
    let number = |answer: Answer| match answer {
        Ok(Results::Filed { part, .. }) => part.0 as u64 + 1,
        Ok(other) => panic!("{other:?} to a filing"),
        Err(refusal) => u64::from(refusal.number()),
    };
    let found = number(post_under(&mut book.clone(), table, &Call::File(filing)));
    let mut filed = book.clone();
    for set in 0..4 {
        filed.marks[cell(0, set)] |= 1 << (filing.family % 64);
    }
    let amended = number(post_under(&mut filed, table, &Call::Amend(filing)));
    assert_eq!(amended, found, "{filing:?}");
    found
}

#[test]
fn edition_0_means_the_table_that_the_call_is_handed() {
    let mut rng = Rng::new(1);
    let mut met = [0; 2];
    for _ in 0..60 {
        let table = accepted(&mut rng);
        for (year, row) in (2014..).zip(&table.0) {
            let book = book(year, &[], &[]);
            for ((set, usage), &entry) in USES.into_iter().zip(row) {
                let expected = if entry == 0 { 6 } else { entry };
                met[usize::from(entry == 0)] += 1;
                assert_eq!(gets(&table, &book, filing(0, set, usage, year)), expected);
            }
            // No table has a tractor standard of sets 0 and 1, nor another use.
            for (set, usage) in [(0, 1), (1, 1), (2, 2), (3, 2), (3, u64::MAX)] {
                assert_eq!(gets(&table, &book, filing(0, set, usage, year)), 6);
            }
        }
    }
    assert!(met.iter().all(|&times| times > 500), "{met:?}");
}

#[test]
fn refusal_6_goes_by_one_entry() {
    for (at, (set, usage)) in USES.into_iter().enumerate() {
        for year in [2014, 2015, 2016, 2024, 2037] {
            let book = book(year, &[], &[]);
            let mut table = Table([[600; 6]; 24]);
            table.0[(year - 2014) as usize][at] = 0;
            assert_eq!(gets(&table, &book, filing(0, set, usage, year)), 6);
            for (set, usage) in USES.into_iter().filter(|&column| column != (set, usage)) {
                assert_eq!(gets(&table, &book, filing(0, set, usage, year)), 600);
            }
            let mut table = Table([[0; 6]; 24]);
            table.0[(year - 2014) as usize][at] = 769;
            assert_eq!(gets(&table, &book, filing(0, set, usage, year)), 769);
            for (set, usage) in USES.into_iter().filter(|&column| column != (set, usage)) {
                assert_eq!(gets(&table, &book, filing(0, set, usage, year)), 6);
            }
        }
    }
}

/// The figures of 2024 to 2026 by column, under editions 1 and 2.
const EDITIONS: [[u64; 6]; 2] = [[17, 17, 538, 506, 467, 442], [17, 17, 542, 510, 467, 442]];

#[test]
fn editions_1_and_2_keep_their_figures() {
    for (entry, year) in [432, 500, 769]
        .into_iter()
        .flat_map(|e| (2022..2029).map(move |y| (e, y)))
    {
        let (table, book) = (Table([[entry; 6]; 24]), book(year, &[], &[]));
        for (edition, figures) in (1..).zip(EDITIONS) {
            for ((set, usage), figure) in USES.into_iter().zip(figures) {
                let expected = if (2024..=2026).contains(&year) {
                    figure
                } else {
                    17
                };
                let found = gets(&table, &book, filing(edition, set, usage, year));
                assert_eq!(found, expected, "{edition} {set} {usage} {year}");
            }
        }
        assert_eq!(gets(&table, &book, filing(3, 2, 0, year)), 17);
    }
}

/// Without an ordinary standard every edition gets 6, before 17 and all that
/// comes later.
#[test]
fn refusal_6_goes_by_the_table_whatever_the_edition() {
    let mut table = Table([[600; 6]; 24]);
    for row in &mut table.0[10..13] {
        *row = [600, 600, 0, 0, 0, 600];
    }
    for year in 2024..=2026 {
        let book = book(year, &[], &[]);
        for (set, usage) in [(2, 0), (3, 0), (2, 1)] {
            for edition in [0, 1, 2, 3, u64::MAX] {
                let mut without = filing(edition, set, usage, year);
                assert_eq!(gets(&table, &book, without), 6, "{without:?}");
                without.figures.life = 501;
                without.family = 64;
                assert_eq!(gets(&table, &book, without), 6, "{without:?}");
            }
        }
        let tractor = |edition| gets(&table, &book, filing(edition, 3, 1, year));
        assert_eq!([0, 1, 2, 3].map(tractor), [600, 442, 442, 17]);
    }
}

#[test]
fn a_table_that_is_not_accepted_gets_20_wherever_its_fault_is() {
    let book = book(2025, &[], &[]);
    let sound = filing(2, 3, 0, 2025);
    assert_eq!(gets(&BUILT_IN, &book, sound), 510);
    for (year, column) in (0..24).flat_map(|year| (0..6).map(move |column| (year, column))) {
        for entry in [1, 431, 770, u64::MAX, (1 << 32) + 600] {
            let mut table = BUILT_IN.clone();
            table.0[year][column] = entry;
            assert_eq!(gets(&table, &book, sound), 20, "{year} {column} {entry}");
        }
        let mut table = Table([[500; 6]; 24]);
        table.0[year][column] = 501;
        let number = if year == 0 { 510 } else { 20 };
        assert_eq!(gets(&table, &book, sound), number, "{year} {column}");
    }
}

type Fault = fn(&mut Filing);

/// What a filing of 2014 may be refused for, from 3 on.
const FAULTS: [Fault; 10] = [
    |f| f.maker = 8,
    |f| f.maker = u64::MAX,
    |f| f.set = 4,
    |f| f.year = 2015,
    |f| f.usage = 2,
    |f| f.set = 0,
    |f| f.edition = 1,
    |f| f.family = 64,
    |f| f.figures.fcl = 0,
    |f| f.family = 5,
];

#[test]
fn refusal_20_comes_after_2_and_before_3() {
    let mut book = Book::fresh();
    assert_eq!(file(&mut book, 5, 567, 1, 1), filed(0, 1));
    let mut unsound = book.clone();
    unsound.lots[31][23] = Mg(1);
    for form in [Call::File as fn(Filing) -> Call, Call::Amend] {
        for fault in FAULTS {
            let mut faulty = plain(6, 560);
            fault(&mut faulty);
            for (book, number) in [(&book, 20), (&unsound, UNSOUND)] {
                let mut after = book.clone();
                let answer = post_under(&mut after, &broken(), &form(faulty));
                assert_eq!(refused(answer), number, "{faulty:?}");
                assert!(after == *book, "a refusal changed the book");
            }
            // With the built-in table it isn't this that refuses.
            let answer = post_under(&mut book.clone(), &BUILT_IN, &form(faulty));
            assert!(answer.is_ok() || (3..19).contains(&refused(answer)));
        }
    }
}

/// The answer and the book, whatever the table.
#[test]
fn other_calls_do_not_read_the_table() {
    let lots = [(0, 3, 2016, 10), (1, 3, 2016, 10)];
    let short = book(2019, &lots, &[(1, 3, 2017, 7)]);
    let mut rng = Rng::new(20);
    let tables: Vec<Table> = [
        Made::BuiltIn,
        Made::Accepted,
        Made::Changed,
        Made::Empty,
        Made::Wild,
    ]
    .into_iter()
    .map(|made| made.table(&mut rng))
    .chain([broken(), Table([[u64::MAX; 6]; 24])])
    .collect();
    for line in [
        "(close (year 2019))",
        "(close (year 2020))",
        "(trade (from 0) (to 1) (set 3) (vintage 2016) (mg 4))",
        "(trade (from 1) (to 0) (set 3) (vintage 2016) (mg 4))",
        "(apply (maker 1) (set 3) (vintage 2016) (year 2017) (mg 7))",
        "(apply (maker 1) (set 3) (vintage 2016) (year 2017) (mg 8))",
        "(retire (maker 0) (set 3) (vintage 2016) (mg 10))",
        "(retire (maker 8) (set 3) (vintage 2016) (mg 10))",
    ] {
        let call = second::text::parse(line.as_bytes()).expect("a form");
        let mut expected = short.clone();
        let answer = say(&mut expected, line);
        for table in &tables {
            let mut after = short.clone();
            assert_eq!(
                post_under(&mut after, table, &call),
                answer,
                "{line} {table}"
            );
            assert!(after == expected, "{line} {table}");
        }
    }
}

/// All makers at the ends of all limits, under the greatest standard and the
/// least: the largest balances that there are.
#[test]
fn the_limits_of_a_table_keep_the_book_sound() {
    let mut row = [769; 6];
    row[5] = 432;
    let table = Table([row; 24]);
    assert!(table.is_accepted());
    let mut book = Book::fresh();
    for (maker, family) in (0..8).flat_map(|maker| (0..64).map(move |family| (maker, family))) {
        for (set, usage, fcl, part) in [(0, 0, 1, 38_400), (3, 1, 1_200, -38_400)] {
            let largest = Filing {
                maker,
                family,
                figures: at_the_limits(fcl),
                ..filing(0, set, usage, 2014)
            };
            let answer = post_under(&mut book, &table, &Call::File(largest));
            assert_eq!(answer, filed(part * 1_000_000_000_000, family + 1));
        }
    }
    assert!(book.is_sound());
    assert_eq!(close(&mut book), closed(8));
    assert!(book.is_sound());
    assert_eq!(lot(&book, 7, 0, 2014), 24_576_000_000);
    assert_eq!(shortage(&book, 7, 3, 2014), 24_576_000_000);
}

/// Under a table of 560, 567 and 600 in turn a family of 560 has these Mg.
const IN_TURN: [(u64, i64); 3] = [(560, 0), (567, 7), (600, 40)];

#[test]
fn a_family_counts_under_the_table_of_its_own_call() {
    let (mut audit, mut book) = (Audit::default(), Book::fresh());
    let mut put = |book: &mut Book, table: &Table, call: Call| {
        let before = book.clone();
        let answer = post_under(book, table, &call);
        audit
            .judge(table, &call, answer.is_ok(), &before, book)
            .expect("holds");
        answer
    };
    for (family, (entry, mg)) in (0..).zip(IN_TURN) {
        let answer = put(
            &mut book,
            &Table([[entry; 6]; 24]),
            Call::File(plain(family, 560)),
        );
        assert_eq!(answer, filed(mg * MG, family + 1));
    }
    let lower = Table([[559; 6]; 24]);
    assert_eq!(
        put(&mut book, &lower, Call::Amend(plain(1, 560))),
        filed(-MG, 3)
    );
    // Refused, it leaves the family as it was.
    assert_eq!(
        refused(put(&mut book, &broken(), Call::Amend(plain(2, 560)))),
        20
    );
    let empty = Table([[0; 6]; 24]);
    assert_eq!(
        refused(put(&mut book, &empty, Call::Amend(plain(2, 560)))),
        6
    );
    assert_eq!(
        put(&mut book, &broken(), Call::Close { year: 2014 }),
        closed(0)
    );
    assert_eq!(lot(&book, 0, 3, 2014), 40 - 1);
    audit.hold_all(&book).expect("holds");
}

#[test]
fn a_balance_under_another_table_is_noticed() {
    for (told, booked) in IN_TURN
        .into_iter()
        .flat_map(|t| IN_TURN.map(move |b| (t, b)))
    {
        let (mut audit, mut book) = (Audit::default(), Book::fresh());
        let (named, other) = (Table([[told.0; 6]; 24]), Table([[booked.0; 6]; 24]));
        let (file, close) = (Call::File(plain(5, 560)), Call::Close { year: 2014 });
        let before = book.clone();
        post_under(&mut book, &other, &file).expect("accepted");
        audit
            .judge(&named, &file, true, &before, &book)
            .expect("holds");
        let before = book.clone();
        post_under(&mut book, &named, &close).expect("accepted");
        let judged = audit.judge(&named, &close, true, &before, &book);
        assert_eq!(judged.is_ok(), told == booked, "{told:?} {booked:?}");
    }
}

#[test]
fn an_accepted_filing_under_a_table_that_is_not_has_no_account() {
    let mut empty = BUILT_IN.clone();
    empty.0[0][3] = 0;
    let calls = [Call::File(plain(5, 560)), Call::Amend(plain(5, 560))];
    for (table, call) in calls.into_iter().flat_map(|call| {
        [broken(), empty.clone(), Table([[u64::MAX; 6]; 24])].map(|table| (table, call))
    }) {
        let mut accounts = Accounts::default();
        assert!(accounts.feed(&table, &call, true).is_err());
        assert!(accounts.feed(&table, &call, false).is_ok());
        assert_eq!(accounts, Accounts::default());
        // Of a close no table is asked.
        let close = Call::Close { year: 2014 };
        assert!(accounts.feed(&table, &close, true).is_ok());
    }
}
