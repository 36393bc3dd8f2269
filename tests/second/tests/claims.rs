//! The audit notices books that do not keep the accounts, and the generated
//! sessions reach what they are for.

mod common;

use common::*;
use second::accounts::{Account, Accounts};
use second::audit::{Audit, Violation};
use second::book::Book;
use second::figuring::{Figures, Mg, Part};
use second::generate::{session, Kind};
use second::postings::{Answer, Call, Filing, Refusal};
use second::text::{parse, Lines};
use std::convert::Infallible;

fn call(line: &str) -> Call {
    parse(line.as_bytes()).expect("a form")
}

const FILE: &str =
    "(file (maker 0) (set 3) (year 2014) (use 0) (edition 0) (family 0) (fcl 466) (cf 1000000) (volume 100) (life 1))";
const CLOSE: &str = "(close (year 2014))";

/// An audit and a book in which maker 0 holds 101 Mg of set 3.
fn begun() -> (Audit, Book) {
    let (mut audit, mut book) = (Audit::default(), Book::fresh());
    for line in [FILE, CLOSE] {
        let before = book.clone();
        post(&mut book, &call(line)).expect("accepted");
        audit
            .judge(&BUILT_IN, &call(line), true, &before, &book)
            .expect("holds");
    }
    audit.hold_all(&book).expect("holds");
    assert_eq!(lot(&book, 0, 3, 2014), 101);
    (audit, book)
}

#[test]
fn a_close_that_moves_nothing_is_noticed() {
    let (mut audit, mut book) = (Audit::default(), Book::fresh());
    let before = book.clone();
    post(&mut book, &call(FILE)).expect("accepted");
    audit
        .judge(&BUILT_IN, &call(FILE), true, &before, &book)
        .expect("holds");
    let before = book.clone();
    let mut after = Book::fresh();
    after.open_year = 2015;
    assert!(audit
        .judge(&BUILT_IN, &call(CLOSE), true, &before, &after)
        .is_err());
}

#[test]
fn a_trade_that_moves_nothing_is_noticed() {
    let (mut audit, book) = begun();
    let trade = call("(trade (from 0) (to 1) (set 3) (vintage 2014) (mg 1))");
    assert!(audit.judge(&BUILT_IN, &trade, true, &book, &book).is_err());
}

#[test]
fn an_application_to_no_shortage_is_noticed() {
    let (mut audit, book) = begun();
    let mut after = book.clone();
    after.lots[3][0] = Mg(100);
    let apply = call("(apply (maker 0) (set 3) (vintage 2014) (year 2014) (mg 1))");
    assert!(audit.judge(&BUILT_IN, &apply, true, &book, &after).is_err());
}

#[test]
fn a_refusal_that_changes_the_book_is_noticed() {
    let (mut audit, book) = begun();
    let mut after = book.clone();
    after.marks[31] = 1;
    let close = call("(close (year 2014))");
    assert!(audit
        .judge(&BUILT_IN, &close, false, &book, &after)
        .is_err());
    assert!(audit.judge(&BUILT_IN, &close, false, &book, &book).is_ok());
}

#[test]
fn an_unsound_book_after_a_posting_is_noticed() {
    let (mut audit, book) = begun();
    let mut after = book.clone();
    after.parts[31][0] = Part(1);
    let file = call("(file (maker 7) (set 3) (year 2015) (use 0) (edition 0) (family 0) (fcl 566) (cf 1) (volume 1) (life 1))");
    assert!(audit.judge(&BUILT_IN, &file, true, &book, &after).is_err());
}

#[test]
fn a_lot_moved_elsewhere_is_noticed_at_the_end() {
    let (audit, mut book) = begun();
    book.lots[0][0] = Mg(1);
    assert!(audit.hold_all(&book).is_err());
}

#[test]
fn an_accepted_call_outside_the_accounts_is_noticed() {
    let (mut audit, book) = begun();
    for line in [
        "(close (year 2038))",
        "(trade (from 0) (to 8) (set 3) (vintage 2014) (mg 1))",
        "(retire (maker 0) (set 3) (vintage 2038) (mg 1))",
        "(file (maker 0) (set 3) (year 2015) (use 0) (edition 0) (family 0) (fcl 0) (cf 1) (volume 1) (life 1))",
        "(file (maker 0) (set 3) (year 2015) (use 0) (edition 1) (family 0) (fcl 1) (cf 1) (volume 1) (life 1))",
        "(file (maker 0) (set 3) (year 2015) (use 0) (edition 3) (family 0) (fcl 1) (cf 1) (volume 1) (life 1))",
        "(file (maker 0) (set 3) (year 2015) (use 0) (edition 0) (family 64) (fcl 1) (cf 1) (volume 1) (life 1))",
        "(small (maker 0) (set 3) (year 2015) (use 0) (edition 0) (family 16) (fcl 1) (cf 1) (volume 1) (life 1))",
        "(small (maker 0) (set 3) (year 2015) (use 0) (edition 0) (family 0) (fcl 1) (cf 1) (volume 5001) (life 1))",
        "(small (maker 8) (set 3) (year 2015) (use 0) (edition 0) (family 0) (fcl 1) (cf 1) (volume 1) (life 1))",
        "(amend (maker 8) (set 3) (year 2015) (use 0) (edition 0) (family 0) (fcl 1) (cf 1) (volume 1) (life 1))",
        "(amend (maker 0) (set 3) (year 2015) (use 0) (edition 0) (family 64) (fcl 1) (cf 1) (volume 1) (life 1))",
        "(amend (maker 0) (set 3) (year 2015) (use 0) (edition 0) (family 0) (fcl 0) (cf 1) (volume 1) (life 1))",
        "(amend (maker 0) (set 3) (year 2015) (use 0) (edition 1) (family 0) (fcl 1) (cf 1) (volume 1) (life 1))",
    ] {
        assert!(audit.judge(&BUILT_IN, &call(line), true, &book, &book).is_err(), "{line}");
    }
}

/// Family 5 is filed with 7 Mg and amended to -3, which leaves `amended`.
fn judged_after(amended: &Book) -> Result<(), Violation> {
    let (mut audit, mut book) = (Audit::default(), Book::fresh());
    let file = Call::File(plain(5, 560));
    let before = book.clone();
    post(&mut book, &file).expect("accepted");
    audit.judge(&BUILT_IN, &file, true, &before, &book)?;
    audit.judge(&BUILT_IN, &Call::Amend(plain(5, 570)), true, &book, amended)?;
    let mut after = amended.clone();
    close(&mut after).expect("accepted");
    audit.judge(&BUILT_IN, &call(CLOSE), true, amended, &after)?;
    audit.hold_all(&after)
}

/// That an amendment was wrong shows at the close.
#[test]
fn a_balance_of_other_figures_than_the_last_is_noticed() {
    let leaves = |mg: i64| {
        let mut book = Book::fresh();
        book.marks[3] = 1 << 5;
        book.parts[3][5] = Part(mg * MG);
        book
    };
    assert_eq!(judged_after(&leaves(-3)), Ok(()));
    // The first figures, both, their difference, none, and each family twice.
    for mg in [7, 7 - 3, -3 - 7, 0, -3 - 3] {
        assert!(judged_after(&leaves(mg)).is_err(), "{mg}");
    }
    // The new figures in another family of the cell beside the first, and in
    // another cell.
    let mut beside = leaves(7);
    beside.marks[3] |= 1 << 6;
    beside.parts[3][6] = Part(-3 * MG);
    assert!(judged_after(&beside).is_err());
    let mut elsewhere = leaves(7);
    (elsewhere.marks[7], elsewhere.parts[7]) = (elsewhere.marks[3], leaves(-3).parts[3]);
    assert!(judged_after(&elsewhere).is_err());
}

#[test]
fn the_accounts_count_a_family_with_its_last_accepted_figures() {
    let mut accounts = Accounts::default();
    let sum = |accounts: &Accounts| accounts.account(0, 3, 2014).map(Account::sum);
    let mg = |mg: i64| Ok(i128::from(mg * MG));
    for (form, filing, accepted, total) in [
        (Call::File as fn(Filing) -> Call, plain(5, 560), true, 7),
        (Call::File, plain(9, 565), true, 7 + 2),
        (Call::Amend, plain(5, 570), true, -3 + 2),
        (Call::Amend, plain(5, 1), false, -3 + 2),
        (Call::File, plain(5, 1), false, -3 + 2),
        (Call::Amend, plain(9, 567), true, -3),
        (Call::Amend, plain(5, 570), true, -3),
        (Call::Amend, plain(9, 500), true, -3 + 67),
        (Call::Amend, plain(5, 566), true, 1 + 67),
        (Call::Small, plain(15, 560), true, 1 + 67 + 7),
        (Call::Small, plain(14, 560), false, 1 + 67 + 7),
        (
            Call::Amend,
            of_volume(15, 566, 100_000),
            true,
            1 + 67 + 1_000,
        ),
        (Call::Amend, plain(15, 567), true, 1 + 67),
    ] {
        let fed = accounts.feed(&BUILT_IN, &form(filing), accepted);
        assert_eq!((fed, sum(&accounts)), (Ok(()), mg(total)), "{filing:?}");
    }
    // Nothing of it is another year's, set's or maker's.
    for (maker, set, year) in [(0, 3, 2015), (0, 2, 2014), (1, 3, 2014)] {
        let other = accounts.account(maker, set, year);
        assert_eq!(other, Ok(&Account::default()));
    }
    accounts
        .feed(&BUILT_IN, &call(CLOSE), true)
        .expect("in place");
    assert_eq!(accounts.account(0, 3, 2014).map(Account::lot), Ok(68));
}

/// A filing counts alike by either entry: nothing keeps which it was.
#[test]
fn the_accounts_keep_no_entry() {
    let fed = |forms: [fn(Filing) -> Call; 2]| {
        let mut accounts = Accounts::default();
        for (form, filing) in forms.into_iter().zip([plain(15, 560), plain(0, 570)]) {
            accounts
                .feed(&BUILT_IN, &form(filing), true)
                .expect("in place");
        }
        let beyond = Call::Amend(of_volume(15, 566, 5_001));
        accounts.feed(&BUILT_IN, &beyond, true).expect("in place");
        accounts
    };
    let large = fed([Call::File, Call::File]);
    assert_eq!(
        large.account(0, 3, 2014).map(Account::sum),
        Ok(4_701_000_000)
    );
    for forms in [
        [Call::Small as fn(Filing) -> Call, Call::File],
        [Call::File, Call::Small],
        [Call::Small, Call::Small],
    ] {
        assert_eq!(fed(forms), large);
    }
}

/// The sums of the cells at each close.
fn sums_at_closes(input: &[u8]) -> Vec<i64> {
    let mut book = Book::fresh();
    let mut seen = Vec::new();
    let done: Result<(), Infallible> = Lines::default().feed(input, |line| {
        let Some(call) = parse(line) else {
            return Ok(());
        };
        let parts = book.parts;
        if post(&mut book, &call).is_ok() && matches!(call, Call::Close { .. }) {
            seen.extend(parts.map(|cell| cell.iter().map(|part| part.0).sum::<i64>()));
        }
        Ok(())
    });
    let Ok(()) = done;
    seen
}

#[test]
fn sessions_close_on_halves_and_beside_them() {
    for kind in [Kind::Years, Kind::Hostile] {
        let sums: Vec<i64> = (0..8)
            .flat_map(|seed| sums_at_closes(&session(kind, seed, kind.usual_lines())))
            .collect();
        // After an even Mg and after an odd one, above zero and below.
        for half in [50_000_000, 150_000_000, -50_000_000, -150_000_000] {
            let near = |beside| {
                sums.iter()
                    .filter(|&sum| sum % 200_000_000 == half + beside)
                    .count()
            };
            let whole = sums.iter().filter(|&&sum| sum == half).count();
            let found = [near(-1), near(0), near(1), whole];
            let common = found
                .iter()
                .zip([8, 30, 8, 10])
                .all(|(&n, least)| n >= least);
            assert!(common, "{kind:?} {half}: {found:?}");
        }
    }
}

#[test]
fn most_families_need_the_fifth_decimal_of_cf() {
    for kind in [Kind::Years, Kind::Hostile, Kind::Mixed, Kind::Single] {
        let filings = filings(kind, 0..4);
        let accepted = filings.iter().filter(|(_, answer)| answer.is_ok());
        let cfs: Vec<u64> = accepted.map(|(filing, _)| filing.figures.cf).collect();
        let needed = cfs.iter().filter(|&cf| cf % 10 != 0).count();
        let all = cfs.len();
        assert!(4 * needed > 3 * all, "{kind:?}: {needed} of {all}");
    }
}

#[test]
fn hostile_sessions_reach_the_ends_of_cf() {
    let filings = filings(Kind::Hostile, 0..8);
    let count = |wanted: u64, answered: fn(&Answer) -> bool| {
        let like = filings.iter().filter(|(filing, answer)| {
            let others = Figures {
                cf: 1,
                ..filing.figures
            };
            filing.figures.cf == wanted && others.within_limits() && answered(answer)
        });
        like.count()
    };
    for cf in [1, 100_000, 100_001, 999_999, 1_000_000] {
        let taken = count(cf, |answer| answer.is_ok());
        assert!(taken >= 10, "{cf} taken {taken} times");
    }
    for cf in [0, 1_000_001] {
        let refused = count(cf, |answer| *answer == Err(Refusal::Limits));
        assert!(refused >= 10, "{cf} refused {refused} times");
    }
}

#[test]
fn hostile_sessions_meet_every_refusal_a_terminal_can_give() {
    let mut answers = String::new();
    for seed in 0..4 {
        let input = session(Kind::Hostile, seed, Kind::Hostile.usual_lines());
        answers += &output_in_pieces(&input, 4_096);
    }
    for number in (1..=18).filter(|&number| number != UNSOUND) {
        assert!(answers.contains(&format!("(no {number})\n")), "{number}");
    }
    for state in ["live", "expired", "open", "overdue"] {
        assert!(answers.contains(&format!(" {state} ")), "{state}");
    }
}

#[test]
fn every_kind_keeps_every_claim() {
    for kind in [Kind::Years, Kind::Hostile, Kind::Mixed, Kind::Bench] {
        for seed in 10..13 {
            output_in_pieces(&session(kind, seed, 1_500), 997);
        }
    }
}

#[test]
fn realistic_years_are_mostly_accepted() {
    let output = output_in_pieces(&session(Kind::Years, 3, 6_000), 4_096);
    let accepted = output
        .lines()
        .filter(|line| line.starts_with("(ok"))
        .count();
    assert!(accepted > 5_000, "{accepted}");
}

#[test]
fn sessions_are_the_same_for_the_same_seed() {
    for kind in [Kind::Years, Kind::Hostile, Kind::Mixed] {
        assert_eq!(session(kind, 5, 500), session(kind, 5, 500));
        assert_ne!(session(kind, 5, 500), session(kind, 6, 500));
    }
}
