//! Card 8: a list of calls that begins with a book read in. Its balances count
//! from that book's lots, shortages and filed parts.

mod common;

use common::written::{written_book, TEXT};
use common::*;
use second::accounts::{Account, Accounts};
use second::audit::{Audit, Violation};
use second::book::{cell, Book};
use second::figuring::Part;
use second::generate::book_texts::some_book;
use second::generate::rng::Rng;
use second::generate::{session_on, Kind};
use second::postings::Call;
use second::text::parse;
use second::written::read;

/// Family 5 of maker 0 in set 3 is filed with 7 Mg in 2014, and nothing is
/// known of how.
fn opened() -> Book {
    read(b"(open 2014)\n(family 0 3 5 700000000)\n").expect("a book")
}

/// Posts calls under the audit's eye, from this book on.
fn judged(mut book: Book, calls: &[Call]) -> Result<Book, Violation> {
    let mut audit = Audit::opened(&book);
    for call in calls {
        let before = book.clone();
        let accepted = post(&mut book, call).is_ok();
        audit.judge(&BUILT_IN, call, accepted, &before, &book)?;
    }
    audit.hold_all(&book)?;
    Ok(book)
}

fn call(line: &str) -> Call {
    parse(line.as_bytes()).expect("a form")
}

const CLOSE: Call = Call::Close { year: 2014 };

#[test]
fn the_accounts_begin_with_the_books_figures() {
    let book = written_book();
    let accounts = Accounts::opened(&book);
    for maker in 0..8 {
        for set in 0..4 {
            for year in 2014..=2037 {
                let (m, s, y) = (maker as usize, set as usize, year as usize);
                let account = accounts.account(maker, set, year).expect("in place");
                assert_eq!(account.lot(), lot(&book, m, s, y).into());
                assert_eq!(account.shortage(), shortage(&book, m, s, y).into());
                let parts = book.parts[cell(m, s)].iter();
                let sum: i128 = parts.map(|part| i128::from(part.0)).sum();
                let open = year == book.open_year;
                assert_eq!(account.sum(), if open { sum } else { 0 });
            }
        }
    }
    // A family with part 0 is counted among them.
    let account = accounts.account(1, 0, 2017).expect("in place");
    assert_eq!(account.parts.get(&0), Some(&Part(0)));
}

#[test]
fn a_fresh_book_opens_nothing() {
    assert_eq!(Accounts::opened(&Book::fresh()), Accounts::default());
    let account = Accounts::default();
    assert_eq!(account.account(0, 0, 2014), Ok(&Account::default()));
}

#[test]
fn an_opening_part_is_closed_with_its_year() {
    let book = judged(opened(), &[CLOSE]).expect("holds");
    assert_eq!(lot(&book, 0, 3, 2014), 7);
    // Beside a family that is filed.
    let more = [Call::File(plain(9, 565)), CLOSE];
    let book = judged(opened(), &more).expect("holds");
    assert_eq!(lot(&book, 0, 3, 2014), 7 + 2);
}

#[test]
fn an_amendment_replaces_an_opening_part() {
    for (fcl, lot_after, short_after) in [(570, 0, 3), (567, 0, 0), (560, 7, 0), (500, 67, 0)] {
        let amended = [Call::Amend(plain(5, fcl)), CLOSE];
        let book = judged(opened(), &amended).expect("holds");
        assert_eq!(lot(&book, 0, 3, 2014), lot_after);
        assert_eq!(shortage(&book, 0, 3, 2014), short_after);
    }
    // And again, and one that is refused.
    let calls = [
        Call::Amend(plain(5, 570)),
        Call::Amend(plain(5, 0)),
        Call::Amend(plain(5, 566)),
        CLOSE,
    ];
    let book = judged(opened(), &calls).expect("holds");
    assert_eq!(lot(&book, 0, 3, 2014), 1);
}

#[test]
fn an_opening_family_is_filed() {
    let mut book = opened();
    assert_eq!(refused(post(&mut book, &Call::File(plain(5, 560)))), 9);
    assert_eq!(refused(amend(&mut book, plain(6, 560))), 18);
    let filed_beside = post(&mut book, &Call::File(plain(9, 565)));
    assert_eq!(filed_beside, filed(2 * MG, 2));
    assert_eq!(amend(&mut book, plain(5, 566)), filed(MG, 2));
    // With part 0 too.
    let mut book = read(b"(open 2014)\n(family 0 3 5 0)\n").expect("a book");
    assert_eq!(refused(post(&mut book, &Call::File(plain(5, 560)))), 9);
    assert_eq!(amend(&mut book, plain(5, 560)), filed(7 * MG, 1));
}

/// Of a book that closes otherwise the audit says so.
#[test]
fn a_balance_of_other_parts_is_noticed() {
    for (mg, right) in [
        (-3, true),
        (7, false),
        (7 - 3, false),
        (-3 - 7, false),
        (0, false),
    ] {
        let mut audit = Audit::opened(&opened());
        let mut amended = opened();
        amended.parts[3][5] = Part(mg * MG);
        let judged = audit.judge(
            &BUILT_IN,
            &Call::Amend(plain(5, 570)),
            true,
            &opened(),
            &amended,
        );
        assert_eq!(judged, Ok(()));
        let mut after = amended.clone();
        close(&mut after).expect("accepted");
        let judged = audit.judge(&BUILT_IN, &CLOSE, true, &amended, &after);
        assert_eq!(judged.is_ok(), right, "{mg}");
    }
}

const PAY: &str = "(apply (maker 1) (set 3) (vintage 2016) (year 2014) (mg 61))";
const PAY_MORE: &str = "(apply (maker 1) (set 3) (vintage 2016) (year 2014) (mg 62))";

/// Maker 1 may pay its opening shortage of 61 Mg from a lot that it buys, and
/// no more.
#[test]
fn opening_lots_pay_opening_shortages() {
    let text = TEXT.replace("(lot 0 3 2016 1)", "(lot 0 3 2016 100)");
    let book = read(text.as_bytes()).expect("a book");
    let buy = call("(trade (from 0) (to 1) (set 3) (vintage 2016) (mg 70))");
    let after = judged(book.clone(), &[buy, call(PAY_MORE), call(PAY)]).expect("holds");
    assert_eq!(lot(&after, 0, 3, 2016), 30);
    assert_eq!(lot(&after, 1, 3, 2016), 9);
    assert_eq!(shortage(&after, 1, 3, 2014), 0);
    // A book that took one Mg more is noticed.
    let mut audit = Audit::opened(&book);
    let mut bought = book.clone();
    post(&mut bought, &buy).expect("accepted");
    audit
        .judge(&BUILT_IN, &buy, true, &book, &bought)
        .expect("holds");
    let mut paid = bought.clone();
    paid.lots[cell(1, 3)][2].0 -= 62;
    paid.shortages[cell(1, 3)][0].0 = 0;
    assert!(audit
        .judge(&BUILT_IN, &call(PAY_MORE), true, &bought, &paid)
        .is_err());
}

#[test]
fn opening_figures_that_are_forgotten_are_noticed() {
    let (book, bare) = (written_book(), book(2017, &[], &[]));
    assert!(Audit::opened(&bare).hold_all(&book).is_err());
    assert!(Audit::opened(&book).hold_all(&bare).is_err());
    assert_eq!(Audit::opened(&book).hold_all(&book), Ok(()));
}

/// Nothing closes or amends them.
#[test]
fn families_of_2038_stay() {
    let text = TEXT.replace("2017", "2038");
    let book = read(text.as_bytes()).expect("a book");
    let amended = "(amend (maker 0) (set 3) (year 2038) (use 0) (edition 0) (family 5) \
                   (fcl 1) (cf 1) (volume 1) (life 1))";
    let calls = [call("(close (year 2038))"), call(amended)];
    let after = judged(book.clone(), &calls).expect("holds");
    assert!(after == book);
    assert_eq!(refusal_of(&book, "(close (year 2038))"), 5);
    assert_eq!(refusal_of(&book, amended), 5);
}

#[test]
fn every_kind_keeps_every_claim_from_any_book() {
    let mut rng = Rng::new(12);
    let mut met = [0; 3];
    for seed in 0..40 {
        let book = some_book(&mut rng);
        for kind in [Kind::Years, Kind::Hostile, Kind::Mixed] {
            let input = session_on(&book, &BUILT_IN, kind, seed, 300);
            let (output, after) = output_begun(book.clone(), &BUILT_IN, &input, 997);
            let amended = any::calls(&input).iter().any(|call| match call {
                Call::Amend(c) if c.maker < 8 && c.set < 4 && c.family < 64 => {
                    let mark = book.marks[cell(c.maker as usize, c.set as usize)];
                    c.year == book.open_year && mark >> c.family & 1 == 1
                }
                _ => false,
            });
            met[0] += u32::from(amended && book.open_year < 2038);
            met[1] += u32::from(after.open_year > book.open_year);
            met[2] += u32::from(output.contains("(ok"));
        }
    }
    assert!(met.iter().all(|&n| n >= 50), "{met:?}");
}
