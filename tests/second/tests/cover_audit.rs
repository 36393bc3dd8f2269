//! Card 9: what the audit notices of a cover, of its answer, of the book after
//! it and of the year that is open.

mod common;

use common::payable::{opened, COVER};
use common::*;
use second::audit::{Audit, Violation};
use second::book::{cell, Book};
use second::figuring::Mg;
use second::postings::{Answer, Call};

/// Takes a call under the audit's eye, with an answer and a book after it that
/// may be wrong.
fn judged(
    audit: &mut Audit,
    call: &Call,
    answer: Answer,
    before: &Book,
    after: &Book,
) -> Result<(), Violation> {
    if let Ok(results) = &answer {
        audit.hold_results(call, results, before)?;
    }
    audit.judge(&BUILT_IN, call, answer.is_ok(), before, after)
}

/// The book that a cover of this one should leave, and its answer.
fn covered() -> (Book, Book, Answer) {
    let before = opened();
    let mut after = before.clone();
    let answer = cover(&mut after, 1, 3);
    (before, after, answer)
}

#[test]
fn a_right_cover_holds() {
    let (before, after, answer) = covered();
    assert_eq!(answer, moved(11));
    let mut audit = Audit::opened(&before);
    let held = judged(&mut audit, &Call::Cover(COVER), answer, &before, &after);
    assert_eq!(held, Ok(()));
    assert_eq!(audit.hold_all(&after), Ok(()));
}

#[test]
fn another_answer_is_noticed() {
    let (before, after, _) = covered();
    // Nothing, what is left, either total, one beside it, all there is.
    for mg in [0, 9, 20, 10, 12, 56, 70] {
        let mut audit = Audit::opened(&before);
        let held = judged(&mut audit, &Call::Cover(COVER), moved(mg), &before, &after);
        assert!(held.is_err(), "{mg}");
    }
    let mut audit = Audit::opened(&before);
    let held = judged(&mut audit, &Call::Cover(COVER), left(11), &before, &after);
    assert!(held.is_err());
}

type Change<'a> = &'a dyn Fn(&mut Book);

/// Each of them moves 11 Mg, but for the first and the last two.
#[test]
fn another_book_after_a_cover_is_noticed() {
    let (before, right, answer) = covered();
    let lots = |book: &mut Book, figures: [(usize, u64); 4]| {
        for (year, mg) in figures {
            book.lots[cell(1, 3)][year - 2014] = Mg(mg);
        }
    };
    let shortages = |book: &mut Book, figures: [(usize, u64); 3]| {
        for (year, mg) in figures {
            book.shortages[cell(1, 3)][year - 2014] = Mg(mg);
        }
    };
    let wrong: [(&str, Change); 8] = [
        ("nothing moved", &|book| book.clone_from(&before)),
        ("youngest lot first", &|book| {
            lots(book, [(2014, 50), (2015, 4), (2018, 5), (2020, 0)])
        }),
        ("an expired lot used", &|book| {
            lots(book, [(2014, 39), (2015, 4), (2018, 9), (2020, 7)])
        }),
        ("an overdue shortage paid", &|book| {
            shortages(book, [(2016, 39), (2017, 6), (2019, 5)])
        }),
        ("another maker's lot used", &|book| {
            lots(book, [(2014, 50), (2015, 4), (2018, 3), (2020, 7)]);
            book.lots[cell(2, 3)][1] = Mg(0);
        }),
        ("a mark set", &|book| book.marks[0] = 1),
        ("one shortage paid", &|book| {
            lots(book, [(2014, 50), (2015, 0), (2018, 7), (2020, 7)]);
            shortages(book, [(2016, 50), (2017, 0), (2019, 5)]);
        }),
        ("the open year moved on", &|book| book.open_year += 1),
    ];
    for (what, change) in wrong {
        let mut after = right.clone();
        change(&mut after);
        assert!(after.is_sound(), "{what}");
        let mut audit = Audit::opened(&before);
        let held = judged(&mut audit, &Call::Cover(COVER), answer, &before, &after);
        assert!(held.is_err(), "{what}");
    }
}

/// A youngest shortage paid first shows where the lots are used up.
#[test]
fn another_order_of_shortages_is_noticed() {
    let before = book(
        2019,
        &[(1, 3, 2018, 4)],
        &[(1, 3, 2016, 4), (1, 3, 2017, 4)],
    );
    for (year, right) in [(2016, true), (2017, false)] {
        let mut after = before.clone();
        after.lots[cell(1, 3)][4] = Mg(0);
        after.shortages[cell(1, 3)][year - 2014] = Mg(0);
        let mut audit = Audit::opened(&before);
        let held = judged(&mut audit, &Call::Cover(COVER), moved(4), &before, &after);
        assert_eq!(held.is_ok(), right, "{year}");
    }
}

/// The accounts read nothing from the book: one that went astray before is not
/// taken for right.
#[test]
fn a_cover_of_a_book_that_went_astray_is_noticed() {
    let begun = opened();
    let mut astray = begun.clone();
    astray.lots[cell(1, 3)][1] = Mg(1);
    let mut after = astray.clone();
    let answer = cover(&mut after, 1, 3);
    let mut audit = Audit::opened(&begun);
    assert!(judged(&mut audit, &Call::Cover(COVER), answer, &astray, &after).is_err());
    // So too where its year did: then a lot has expired, or a shortage.
    let mut astray = begun.clone();
    astray.open_year = 2022;
    let mut after = astray.clone();
    let answer = cover(&mut after, 1, 3);
    let mut audit = Audit::opened(&begun);
    assert!(judged(&mut audit, &Call::Cover(COVER), answer, &astray, &after).is_err());
    assert!(Audit::opened(&begun).hold_all(&astray).is_err());
}

/// Where the book went astray and the accounts did not, each claim is what fails
/// first in some case.
#[test]
fn each_claim_is_held_by_itself() {
    let begun = opened();
    for (lots, mg, claim) in [
        // By the accounts it is 11, by the totals 3 or 11.
        (
            &[(2015, 1), (2018, 2), (2020, 0)][..],
            11,
            "of 3 live and 11 open",
        ),
        (
            &[(2015, 1), (2018, 2), (2020, 0)],
            3,
            "the accounts give 11",
        ),
        // As much in all, but not in the oldest lot.
        (
            &[(2015, 3), (2018, 10)],
            11,
            "by itself gets Err(AboveTheLot)",
        ),
        // Something moves that the accounts do not know.
        (
            &[(2015, 5)],
            11,
            "leaves another book than its applications",
        ),
        // What stays is not as they have it.
        (&[(2020, 8)], 11, "lot 1 3 2020 is 8, the accounts give 7"),
    ] {
        let mut before = begun.clone();
        for &(year, mg) in lots {
            before.lots[cell(1, 3)][year - 2014] = Mg(mg);
        }
        let mut after = before.clone();
        cover(&mut after, 1, 3).expect("accepted");
        let mut audit = Audit::opened(&begun);
        let held = judged(&mut audit, &Call::Cover(COVER), moved(mg), &before, &after);
        let Err(Violation(said)) = held else {
            panic!("{claim}: not noticed");
        };
        assert!(said.contains(claim), "{said}");
    }
}

#[test]
fn a_close_that_leaves_the_year_open_is_noticed() {
    let begun = opened();
    let mut after = begun.clone();
    close(&mut after).expect("accepted");
    let right = after.clone();
    after.open_year = 2021;
    for (after, holds) in [(right, true), (after, false)] {
        let mut audit = Audit::opened(&begun);
        let held = judged(
            &mut audit,
            &Call::Close { year: 2021 },
            closed(0),
            &begun,
            &after,
        );
        assert_eq!(held.is_ok(), holds);
    }
}
