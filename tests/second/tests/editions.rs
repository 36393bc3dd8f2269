//! Card 5: a filing names the ordinary standard, or the alternative one of
//! 1036.150(p)(2) by the earlier table or by the later.

mod common;

use common::faults::*;
use common::*;
use second::accounts::Accounts;
use second::audit::Audit;
use second::book::{cell, Book};
use second::figuring::Figures;
use second::postings::{Answer, Call, Filing, Results};
use second::text::parse;

fn put(book: &Book, filing: &Filing) -> Answer {
    post(&mut book.clone(), &Call::File(*filing))
}

/// The standard, or the number of the refusal.
fn gets(book: &Book, filing: &Filing) -> u64 {
    match put(book, filing) {
        Ok(Results::Filed { part, .. }) => part.0 as u64 + 1,
        Ok(other) => panic!("{other:?} to a filing"),
        Err(refusal) => u64::from(refusal.number()),
    }
}

/// All editions but the ordinary; a narrower type takes the last for 0 to 2.
const OTHERS: &[u64] = &[
    1,
    2,
    3,
    4,
    255,
    u64::MAX,
    1 << 8,
    (1 << 8) + 1,
    (1 << 16) + 2,
    1 << 32,
    (1 << 32) + 1,
    (1 << 63) + 2,
];
const ABOVE: &[u64] = OTHERS.split_at(2).1;

/// What sets 0 to 3 get, each with the uses 0, 1 and 2: a standard, or a
/// refusal, whose number is below 18.
type Row = [u64; 12];

#[rustfmt::skip]
const ANSWERS: [(&[u64], &[u64], Row); 10] = [
    // Set                           0             1             2               3
    (&[2014],              &[0],   [  6, 6, 6,  600, 6, 6,  600, 502, 6,  567, 475, 6]),
    (&[2014],              OTHERS, [  6, 6, 6,   17, 6, 6,   17,  17, 6,   17,  17, 6]),
    (&[2022, 2023],        &[0],   [627, 6, 6,  563, 6, 6,  545, 473, 6,  513, 447, 6]),
    (&[2022, 2023],        OTHERS, [ 17, 6, 6,   17, 6, 6,   17,  17, 6,   17,  17, 6]),
    (&[2024, 2025, 2026],  &[0],   [627, 6, 6,  555, 6, 6,  538, 461, 6,  506, 436, 6]),
    (&[2024, 2025, 2026],  &[1],   [ 17, 6, 6,   17, 6, 6,  538, 467, 6,  506, 442, 6]),
    (&[2024, 2025, 2026],  &[2],   [ 17, 6, 6,   17, 6, 6,  542, 467, 6,  510, 442, 6]),
    (&[2024, 2025, 2026],  ABOVE,  [ 17, 6, 6,   17, 6, 6,   17,  17, 6,   17,  17, 6]),
    (&[2027, 2028, 2037],  &[0],   [627, 6, 6,  552, 6, 6,  535, 457, 6,  503, 432, 6]),
    (&[2027, 2028, 2037],  OTHERS, [ 17, 6, 6,   17, 6, 6,   17,  17, 6,   17,  17, 6]),
];

/// Every filing of the table with what it gets; in set 4 always refusal 4.
fn each_answer(mut hold: impl FnMut(Filing, u64)) {
    for (years, editions, row) in ANSWERS {
        for (&year, &edition) in years
            .iter()
            .flat_map(|y| editions.iter().map(move |e| (y, e)))
        {
            for (place, answer) in row.into_iter().chain([4; 3]).enumerate() {
                let (set, usage) = (place as u64 / 3, place as u64 % 3);
                hold(filing(edition, set, usage, year), answer);
            }
        }
    }
}

#[test]
fn every_edition_set_use_and_year() {
    let mut held = 0;
    each_answer(|filing, answer| {
        let book = book(filing.year, &[], &[]);
        assert_eq!(gets(&book, &filing), answer, "{filing:?}");
        held += 1;
    });
    assert_eq!(held, 9 * 13 * 15);
}

/// What is refused has no account; all else counts under the named standard.
#[test]
fn the_accounts_take_the_named_standard() {
    each_answer(|filing, answer| {
        let mut accounts = Accounts::default();
        let fed = accounts.feed(&BUILT_IN, &Call::File(filing), true);
        assert_eq!(fed.is_ok(), answer > 17, "{filing:?}");
        if let Ok(account) = accounts.account(0, filing.set, filing.year) {
            let part = if fed.is_ok() { answer - 1 } else { 0 };
            assert_eq!(account.sum(), i128::from(part), "{filing:?}");
        }
    });
}

const BEFORE_17: [Fault; 7] = [
    (|f| f.maker = 8, 3),
    (|f| f.set = 4, 4),
    (|f| f.year -= 1, 5),
    (|f| f.year += 1, 5),
    (|f| f.usage = 2, 6),
    (|f| f.usage = u64::MAX, 6),
    (|f| (f.set, f.usage) = (1, 1), 6),
];

/// A family that maker 0 has filed in every set.
const FILED: u64 = 5;
const FILED_AGAIN: Fault = (|f| f.family = FILED, 9);

fn changed(mut filing: Filing, changes: &[fn(&mut Filing)]) -> Filing {
    for change in changes {
        change(&mut filing);
    }
    filing
}

#[test]
fn refusal_17_comes_after_6_and_before_7() {
    for (edition, set, year) in [
        (3, 2, 2024),
        (3, 3, 2026),
        (u64::MAX, 3, 2025),
        (1, 0, 2024),
        (2, 1, 2026),
        (1, 2, 2023),
        (2, 3, 2023),
        (1, 3, 2027),
        (2, 2, 2027),
    ] {
        let mut book = book(year, &[], &[]);
        for set in 0..4 {
            book.marks[cell(0, set)] = 1 << FILED;
        }
        let (right, wrong) = (filing(0, set, 0, year), filing(edition, set, 0, year));
        assert!(put(&book, &right).is_ok());
        assert_eq!(gets(&book, &wrong), 17, "{wrong:?}");
        for (before, number) in BEFORE_17 {
            let both = changed(wrong, &[before]);
            assert_eq!(gets(&book, &both), u64::from(number), "{both:?}");
        }
        for (after, number) in OF_7_AND_8.into_iter().chain([FILED_AGAIN]) {
            assert_eq!(gets(&book, &changed(right, &[after])), u64::from(number));
            let both = changed(wrong, &[after]);
            assert_eq!(gets(&book, &both), 17, "{both:?}");
            for (before, number) in BEFORE_17 {
                let all = changed(wrong, &[before, after]);
                assert_eq!(gets(&book, &all), u64::from(number), "{all:?}");
            }
        }
    }
}

/// A named standard that there isn't, beside an ordinary one that there is,
/// gets 17; beside none it gets 6.
#[test]
fn refusal_6_goes_by_the_ordinary_standard() {
    for (edition, set, usage, year, number) in [
        (1, 3, 0, 2023, 17),
        (2, 3, 1, 2027, 17),
        (1, 0, 0, 2016, 17),
        (1, 0, 0, 2015, 6),
        (3, 0, 0, 2015, 6),
        (1, 1, 1, 2024, 6),
        (2, 0, 1, 2024, 6),
        (3, 3, 2, 2024, 6),
        (1, 3, 2, 2024, 6),
    ] {
        let filing = filing(edition, set, usage, year);
        assert_eq!(gets(&book(year, &[], &[]), &filing), number, "{filing:?}");
    }
}

/// For each column: the set, the use, a level between the standards, and the
/// Mg under the editions 0, 1 and 2 of a family that has 1 Mg a g/hp-hr.
const ALIKE: [(u64, u64, u64, [i64; 3]); 4] = [
    (2, 0, 540, [-2, -2, 2]),
    (3, 0, 508, [-2, -2, 2]),
    (2, 1, 464, [-3, 3, 3]),
    (3, 1, 439, [-3, 3, 3]),
];

/// The lines that close the years before.
fn closes_until(year: u64) -> String {
    let years = 2014..year;
    years
        .map(|year| format!("(close (year {year}))\n"))
        .collect()
}

#[test]
fn makers_alike_but_for_their_edition_have_balances_of_their_own() {
    let years = 2024..=2026;
    for ((set, usage, fcl, each), year) in years.flat_map(|year| ALIKE.map(|column| (column, year)))
    {
        let (mut input, mut expected) =
            (closes_until(year), "(ok 0)\n".repeat(year as usize - 2014));
        let mut listing = String::new();
        for (edition, mg) in each.into_iter().enumerate() {
            input += &format!(
                "(file (maker {edition}) (set {set}) (year {year}) (use {usage}) (edition {edition}) \
                 (family 9) (fcl {fcl}) (cf 1000000) (volume 100) (life 1))\n"
            );
            expected += &format!("(ok {} 1)\n", mg * 100_000_000);
            listing += &match mg {
                1.. => format!("(lot {edition} {set} {year} live {mg})\n"),
                _ => format!("(short {edition} {set} {year} open {})\n", -mg),
            };
        }
        input += &format!("(close (year {year}))\n");
        let short = each.iter().filter(|&&mg| mg < 0).count();
        expected += &format!("(ok {short})\n{listing}");
        assert_eq!(output(&input), expected);
    }
}

/// A family of a column under an edition, with 1 Mg a g/hp-hr.
fn family(edition: u64, (set, usage, fcl): (u64, u64, u64)) -> Filing {
    Filing {
        family: edition,
        figures: Figures {
            fcl,
            cf: 1_000_000,
            volume: 100,
            life: 1,
        },
        ..filing(edition, set, usage, 2025)
    }
}

#[test]
fn families_of_one_cell_are_netted_each_under_its_own_standard() {
    for (set, usage, fcl, each) in ALIKE {
        let mut book = book(2025, &[], &[]);
        for (edition, mg) in (0..).zip(each) {
            let answer = post(&mut book, &Call::File(family(edition, (set, usage, fcl))));
            assert_eq!(answer, filed(mg * 100_000_000, edition + 1));
        }
        let net: i64 = each.iter().sum();
        assert_eq!(close(&mut book), closed(u64::from(net < 0)));
        let found = (
            lot(&book, 0, set as usize, 2025),
            shortage(&book, 0, set as usize, 2025),
        );
        assert_eq!(found, (net.max(0) as u64, (-net).max(0) as u64));
    }
}

/// The audit is told of one edition while the book is posted another.
#[test]
fn a_balance_under_another_standard_is_noticed() {
    for (set, usage, fcl, each) in ALIKE {
        for (told, booked) in (0..3).flat_map(|told| (0..3).map(move |booked| (told, booked))) {
            let named = Call::File(family(told, (set, usage, fcl)));
            let other = Call::File(family(booked, (set, usage, fcl)));
            let mut book = book(2025, &[], &[]);
            let mut audit = Audit::opened(&book);
            let before = book.clone();
            post(&mut book, &other).expect("accepted");
            audit
                .judge(&BUILT_IN, &named, true, &before, &book)
                .expect("holds");
            let before = book.clone();
            close(&mut book).expect("accepted");
            let judged = audit.judge(&BUILT_IN, &Call::Close { year: 2025 }, true, &before, &book);
            let same = each[told as usize] == each[booked as usize];
            assert_eq!(judged.is_ok(), same, "{told} {booked}");
        }
    }
}

#[test]
fn a_family_is_filed_once_whatever_its_edition() {
    for (first, second) in (0..3).flat_map(|first| (0..3).map(move |second| (first, second))) {
        let mut book = book(2024, &[], &[]);
        assert!(post(&mut book, &Call::File(filing(first, 3, 0, 2024))).is_ok());
        let again = Call::File(filing(second, 3, 0, 2024)).to_string();
        assert_eq!(refusal_of(&book, &again), 9, "{first} {second}");
        // The other use is of the same cell.
        let tractor = Call::File(filing(second, 3, 1, 2024)).to_string();
        assert_eq!(refusal_of(&book, &tractor), 9, "{first} {second}");
        assert!(put(&book, &filing(second, 2, 0, 2024)).is_ok());
    }
}

/// A filing of 2024 with this between its use and its family.
fn line(between: &str) -> String {
    format!(
        "(file (maker 0) (set 3) (year 2024) (use 0){between} (family 0) (fcl 500) (cf 1) \
         (volume 1) (life 1))"
    )
}

#[test]
fn the_form_has_the_edition_after_the_use() {
    let line = line(" (edition 2)");
    let call = parse(line.as_bytes()).expect("a form");
    assert_eq!(call.to_string(), line);
    assert!(matches!(
        call,
        Call::File(Filing {
            edition: 2,
            usage: 0,
            family: 0,
            ..
        })
    ));
    let last = parse(line.replace("edition 2", "edition 999999999999").as_bytes());
    assert!(matches!(
        last,
        Some(Call::File(Filing {
            edition: 999_999_999_999,
            ..
        }))
    ));
}

#[test]
fn near_forms_of_the_edition_are_no_forms() {
    let right = line(" (edition 0)");
    let near = [
        line(""),
        line(" (edition 0) (edition 0)"),
        line(" (edition)"),
        line(" (edition )"),
        line(" (edition 00)"),
        line(" (edition 01)"),
        line(" (edition -1)"),
        line(" (edition 1000000000000)"),
        line(" (Edition 0)"),
        line(" (editions 0)"),
        line(" (edition  0)"),
        line("  (edition 0)"),
        line("(edition 0)"),
        line(" edition 0"),
        line("").replace(" (use 0)", " (edition 0) (use 0)"),
        line("").replace(" (family 0)", " (family 0) (edition 0)"),
        line("").replace(" (life 1)", " (life 1) (edition 0)"),
        line("").replace(" (maker 0)", " (edition 0) (maker 0)"),
        right.replace(" (use 0)", ""),
        right.replace("family", "edition"),
        right.replace("use", "edition"),
    ];
    for line in &near {
        assert!(parse(line.as_bytes()).is_none(), "{line}");
    }
    assert!(parse(right.as_bytes()).is_some());
}

#[test]
fn an_edition_that_is_none_is_read_and_refused() {
    let mut input = closes_until(2024);
    for between in [
        "",
        " (edition 3)",
        " (edition 999999999999)",
        " (edition 2)",
    ] {
        input += &format!("{}\n", line(between));
    }
    let closed = "(ok 0)\n".repeat(10);
    let expected = format!("{closed}(no 1)\n(no 17)\n(no 17)\n(ok 10 1)\n");
    assert_eq!(output(&input), expected);
}
