//! Card 9: a cover counts as the applications it made, which the accounts
//! figure from their own balances and open year.

mod common;

use common::payable::{cell_of, many, opened, COVER};
use common::*;
use second::accounts::Accounts;
use second::figuring::Mg;
use second::generate::rng::Rng;
use second::generate::{session_on, Kind};
use second::postings::{Application, Call, Cover, Results};
use second::text::parse;

fn call(line: &str) -> Call {
    parse(line.as_bytes()).expect("a form")
}

fn applications(made: &[(u64, u64, u64)]) -> Vec<Application> {
    let Cover { maker, set } = COVER;
    let made = made.iter();
    made.map(|&(vintage, year, mg)| Application {
        maker,
        set,
        vintage,
        year,
        mg,
    })
    .collect()
}

#[test]
fn the_accounts_figure_a_covers_applications() {
    let mut accounts = Accounts::opened(&opened());
    let made = [(2015, 2017, 4), (2018, 2017, 2), (2018, 2019, 5)];
    assert_eq!(accounts.made_by(&COVER), Ok(applications(&made)));
    let mut one_by_one = accounts.clone();
    for application in applications(&made) {
        let apply = Call::Apply(application);
        one_by_one.feed(&BUILT_IN, &apply, true).expect("in place");
    }
    let fed = accounts.feed(&BUILT_IN, &Call::Cover(COVER), true);
    assert_eq!((fed, &accounts), (Ok(()), &one_by_one));
    let account = |year| accounts.account(1, 3, year).expect("in place");
    let applied = [2014, 2015, 2018, 2020].map(|year| account(year).applied);
    let covered = [2016, 2017, 2019].map(|year| account(year).covered);
    assert_eq!((applied, covered), ([0, 4, 7, 0], [0, 6, 5]));
    assert_eq!(accounts.made_by(&COVER), Ok(Vec::new()));
}

#[test]
fn a_refused_cover_counts_for_nothing() {
    let mut accounts = Accounts::opened(&opened());
    let before = accounts.clone();
    for (maker, set) in [(1, 3), (8, 3), (1, 4)] {
        let refused = Call::Cover(Cover { maker, set });
        accounts.feed(&BUILT_IN, &refused, false).expect("in place");
    }
    assert_eq!(accounts, before);
    // An accepted one names a cell that there is.
    for (maker, set) in [(8, 3), (1, 4), (u64::MAX, u64::MAX)] {
        let outside = Call::Cover(Cover { maker, set });
        assert!(accounts.feed(&BUILT_IN, &outside, true).is_err());
    }
}

/// 2014 or the one read in, plus one for each accepted close.
#[test]
fn the_accounts_have_their_own_open_year() {
    let mut accounts = Accounts::default();
    assert_eq!(accounts.open_year(), 2014);
    for (line, accepted, open_year) in [
        ("(close (year 2015))", false, 2014),
        ("(close (year 2014))", true, 2015),
        ("(close (year 2014))", false, 2015),
        ("(cover (maker 1) (set 3))", true, 2015),
        ("(close (year 2015))", true, 2016),
    ] {
        let fed = accounts.feed(&BUILT_IN, &call(line), accepted);
        assert_eq!((fed, accounts.open_year()), (Ok(()), open_year), "{line}");
    }
    for open_year in [2014, 2030, 2038] {
        let begun = Accounts::opened(&book(open_year, &[], &[]));
        assert_eq!(begun.open_year(), open_year);
    }
}

/// By that year a lot expires, and a shortage is overdue.
#[test]
fn the_accounts_open_year_decides_what_can_be_moved() {
    let mut accounts = Accounts::opened(&opened());
    for (year, made) in [
        (
            2020,
            &[(2015, 2017, 4), (2018, 2017, 2), (2018, 2019, 5)][..],
        ),
        (2021, &[(2018, 2019, 5)]),
        (2022, &[(2018, 2019, 5)]),
        (2023, &[]),
    ] {
        if year > 2020 {
            let close = Call::Close { year };
            accounts.feed(&BUILT_IN, &close, true).expect("in place");
        }
        assert_eq!(accounts.open_year(), year + 1);
        assert_eq!(accounts.made_by(&COVER), Ok(applications(made)));
    }
}

/// From a fresh book: what was earned, bought, sold, retired and applied is
/// counted before it.
#[test]
fn a_list_with_covers_begun_fresh() {
    let file = |maker, family, year, standard: i64, mg: i64| {
        let fcl = standard - mg;
        format!(
            "(file (maker {maker}) (set 3) (year {year}) (use 0) (edition 0) (family {family}) \
             (fcl {fcl}) (cf 1000000) (volume 100) (life 1))"
        )
    };
    let lines = [
        (file(0, 0, 2014, 567, 60), "(ok 6000000000 1)"),
        (file(1, 0, 2014, 567, -30), "(ok -3000000000 1)"),
        ("(close (year 2014))".into(), "(ok 1)"),
        ("(cover (maker 1) (set 3))".into(), "(ok 0)"),
        (
            "(trade (from 0) (to 1) (set 3) (vintage 2014) (mg 12))".into(),
            "(ok 48)",
        ),
        (
            "(apply (maker 1) (set 3) (vintage 2014) (year 2014) (mg 5))".into(),
            "(ok 7)",
        ),
        (file(1, 0, 2015, 567, -20), "(ok -2000000000 1)"),
        (file(0, 0, 2015, 567, 20), "(ok 2000000000 1)"),
        ("(cover (maker 1) (set 3))".into(), "(ok 7)"),
        ("(close (year 2015))".into(), "(ok 1)"),
        (
            "(trade (from 0) (to 1) (set 3) (vintage 2015) (mg 19))".into(),
            "(ok 1)",
        ),
        (
            "(trade (from 0) (to 1) (set 3) (vintage 2014) (mg 9))".into(),
            "(ok 39)",
        ),
        ("(cover (maker 1) (set 3))".into(), "(ok 28)"),
        ("(cover (maker 1) (set 3))".into(), "(ok 0)"),
        (
            "(retire (maker 1) (set 3) (vintage 2015) (mg 1))".into(),
            "(no 13)",
        ),
    ];
    let input: String = lines.iter().map(|(line, _)| format!("{line}\n")).collect();
    let answers: String = lines
        .iter()
        .map(|(_, answer)| format!("{answer}\n"))
        .collect();
    let listing = "(lot 0 3 2014 live 39)\n(lot 0 3 2015 live 1)\n(short 1 3 2015 open 10)\n";
    assert_eq!(output(&input), answers + listing);
}

#[test]
fn every_kind_keeps_every_claim_from_books_with_much_to_cover() {
    let mut rng = Rng::new(99);
    let (mut covers, mut moved) = (0, 0);
    for seed in 0..20 {
        let book = many(&mut rng);
        for kind in [Kind::Years, Kind::Hostile, Kind::Mixed] {
            let input = session_on(&book, &BUILT_IN, kind, seed, 200);
            output_begun(book.clone(), &BUILT_IN, &input, 997);
            let mut book = book.clone();
            for call in any::calls(&input) {
                if let (Call::Cover(_), Ok(results)) = (call, post(&mut book, &call)) {
                    covers += 1;
                    moved += u32::from(results != Results::Moved(Mg(0)));
                }
            }
        }
    }
    assert!(covers >= 500 && moved >= 400, "{covers} {moved}");
}

/// Every application of every cover keeps demand 3's sentence on accepted ones;
/// here in its words, by the book.
#[test]
fn the_applications_of_covers_keep_demand_3() {
    let mut rng = Rng::new(3);
    let mut seen = 0;
    for _ in 0..200 {
        let mut book = many(&mut rng);
        let covered = Cover {
            maker: rng.below(8),
            set: rng.below(4),
        };
        let made = Accounts::opened(&book).made_by(&covered).expect("in place");
        for c in made {
            let shortages = &book.shortages[cell_of(&covered)];
            assert!(shortages[c.year as usize - 2014].0 >= c.mg);
            assert!(c.year <= c.vintage + 5 && c.vintage <= c.year + 3);
            post(&mut book, &Call::Apply(c)).expect("accepted");
            seen += 1;
        }
    }
    assert!(seen >= 300, "{seen}");
}
