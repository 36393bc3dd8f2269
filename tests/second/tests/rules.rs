//! Rounding, soundness, lives, and the refusals in their order.

mod common;

use common::*;
use second::book::{cell, Book, CELLS};
use second::figuring::{
    is_expired, is_live, is_open, is_overdue, part, rounded, Figures, Mg, Part,
};

#[test]
fn halves_of_any_size_round_to_the_even_mg() {
    for (whole, even) in [
        (0, 0),
        (1, 2),
        (2, 2),
        (3, 4),
        (9_999_999_999, 10_000_000_000),
        (1 << 80, 1 << 80),
    ] {
        let sum = whole * 100_000_000;
        assert_eq!(rounded(sum + 49_999_999), whole);
        assert_eq!(rounded(sum + 50_000_000), even);
        assert_eq!(rounded(sum + 50_000_001), whole + 1);
        assert_eq!(rounded(-sum - 49_999_999), -whole);
        assert_eq!(rounded(-sum - 50_000_000), -even);
        assert_eq!(rounded(-sum - 50_000_001), -whole - 1);
    }
    assert_eq!(
        rounded(i128::MIN),
        -1_701_411_834_604_692_317_316_873_037_159
    );
}

#[test]
fn halves_at_a_close() {
    // A volume of 100 is half a Mg. Halves and one part unit beside them, on
    // both sides of the standard 567, with the Mg they give.
    for (volume, beside, mg) in [
        (100, 0, 0),
        (100, -1, 0),
        (100, 1, 1),
        (300, 0, 2),
        (300, -1, 1),
        (300, 1, 2),
        (500, 0, 2),
        (500, -1, 2),
        (500, 1, 3),
    ] {
        for sign in [1, -1] {
            let mut book = Book::fresh();
            file(&mut book, 0, (567 - sign) as u64, 500_000, volume).expect("accepted");
            let level = (567 - sign * beside) as u64;
            file(&mut book, 1, level, 1, 1).expect("accepted");
            let short = sign < 0 && mg > 0;
            assert_eq!(close(&mut book), closed(u64::from(short)));
            let found = (lot(&book, 0, 3, 2014), shortage(&book, 0, 3, 2014));
            assert_eq!(found, if short { (0, mg) } else { (mg, 0) });
        }
    }
}

#[test]
fn figures_outside_their_limits_have_no_part() {
    let within = at_the_limits(1);
    assert_eq!(part(627, &within), Some(Part(31_300_000_000_000_000)));
    // Under the greatest standard, the largest part that is sound.
    assert_eq!(part(769, &within), Some(Part(38_400_000_000_000_000)));
    let edges = [
        Figures { fcl: 0, ..within },
        Figures {
            fcl: 1_201,
            ..within
        },
        Figures { cf: 0, ..within },
        Figures {
            cf: 1_000_001,
            ..within
        },
        Figures {
            volume: 0,
            ..within
        },
        Figures {
            volume: 100_001,
            ..within
        },
        Figures { life: 0, ..within },
        Figures {
            life: 501,
            ..within
        },
        Figures {
            life: u64::MAX,
            ..within
        },
    ];
    assert!(edges.iter().all(|figures| part(627, figures).is_none()));
}

#[test]
fn lives_are_told_for_any_year() {
    for year in [0, 2013, 2038, 2039, u64::MAX - 1, u64::MAX] {
        for open_year in [0, 2013, 2014, 2038] {
            assert!(!is_live(open_year, year) && !is_expired(open_year, year));
            assert!(!is_open(open_year, year) && !is_overdue(open_year, year));
        }
    }
    for open_year in 2014..=2038 {
        for year in 2014..=2037 {
            let past = year < open_year;
            assert_eq!(is_live(open_year, year), past && open_year <= year + 6);
            assert_eq!(is_expired(open_year, year), past && open_year > year + 6);
            assert_eq!(is_open(open_year, year), past && open_year <= year + 4);
            assert_eq!(is_overdue(open_year, year), past && open_year > year + 4);
        }
    }
}

fn sound_after(change: impl Fn(&mut Book)) -> bool {
    let mut book = book(2020, &[(0, 0, 2016, 5)], &[(1, 1, 2015, 5)]);
    change(&mut book);
    book.is_sound()
}

#[test]
fn the_open_year_is_in_range() {
    for (year, sound) in [(2013, false), (2014, true), (2038, true), (2039, false)] {
        let mut book = Book::fresh();
        book.open_year = year;
        assert_eq!(book.is_sound(), sound, "{year}");
    }
    assert!(!sound_after(|book| book.open_year = u64::MAX));
    assert!(!sound_after(|book| book.open_year = 0));
}

#[test]
fn parts_are_within_their_limit_and_zero_where_unmarked() {
    let marked = |part| {
        sound_after(|book| {
            book.marks[31] = 1 << 63;
            book.parts[31][63] = Part(part);
        })
    };
    let limit = 38_400_000_000_000_000;
    assert!([0, 1, limit, -limit].into_iter().all(marked));
    let outside = [limit + 1, -limit - 1, i64::MAX, i64::MIN];
    assert!(!outside.into_iter().any(marked));
    assert!(!sound_after(|book| {
        book.marks[31] = !(1 << 63);
        book.parts[31][63] = Part(1);
    }));
    assert!(sound_after(|book| book.marks = [u64::MAX; CELLS]));
}

#[test]
fn shortages_are_within_their_limit() {
    let shortage = |mg| sound_after(|book| book.shortages[31][5] = Mg(mg));
    assert!(shortage(25_000_000_000));
    assert!(!shortage(25_000_000_001));
    assert!(!shortage(u64::MAX));
}

#[test]
fn lots_are_within_their_limit_for_all_makers_together() {
    let lots = |each: [u64; 8]| {
        sound_after(|book| {
            for (maker, mg) in each.into_iter().enumerate() {
                book.lots[cell(maker, 2)][3] = Mg(mg);
            }
        })
    };
    assert!(lots([25_000_000_000; 8]));
    assert!(lots([0, 0, 0, 0, 0, 0, 0, 200_000_000_000]));
    assert!(!lots([1, 0, 0, 0, 0, 0, 0, 200_000_000_000]));
    // Sums that come back to a small number if cut to 64 bits.
    assert!(!lots([1 << 63, 1 << 63, 0, 0, 0, 0, 0, 0]));
    assert!(!lots([u64::MAX, 1, 0, 0, 0, 0, 0, 0]));
    assert!(!lots([u64::MAX; 8]));
    // Other sets and vintages have limits of their own.
    assert!(sound_after(|book| {
        book.lots[cell(0, 1)][3] = Mg(200_000_000_000);
        book.lots[cell(0, 2)][3] = Mg(200_000_000_000);
        book.lots[cell(1, 2)][4] = Mg(200_000_000_000);
    }));
}

#[test]
fn nothing_lies_in_the_open_year_or_later() {
    assert!(sound_after(|book| book.lots[7][5] = Mg(1)));
    for year in 6..24 {
        assert!(!sound_after(|book| book.lots[7][year] = Mg(1)));
        assert!(!sound_after(|book| book.shortages[31][year] = Mg(1)));
    }
    assert!(sound_after(|book| {
        book.open_year = 2038;
        book.lots[7][23] = Mg(1);
    }));
}

#[test]
fn an_unsound_book_refuses_every_call_first() {
    let calls = [
        "(file (maker 8) (set 4) (year 1) (use 2) (edition 3) (family 64) (fcl 0) (cf 0) (volume 0) (life 0))",
        "(amend (maker 8) (set 4) (year 1) (use 2) (edition 3) (family 64) (fcl 0) (cf 0) (volume 0) (life 0))",
        "(close (year 1))",
        "(trade (from 8) (to 8) (set 4) (vintage 1) (mg 0))",
        "(apply (maker 8) (set 4) (vintage 1) (year 1) (mg 0))",
        "(retire (maker 8) (set 4) (vintage 1) (mg 0))",
        "(cover (maker 8) (set 4))",
        "(cover (maker 0) (set 0))",
    ];
    let mut unsound = Book::fresh();
    unsound.lots[31][23] = Mg(u64::MAX);
    for call in calls {
        assert_eq!(refusal_of(&unsound, call), UNSOUND);
    }
}

/// Puts right one argument after the other; the refusals come in order.
#[test]
fn the_order_of_a_filings_refusals() {
    let mut book = book(2015, &[], &[]);
    file(&mut book, 0, 567, 1, 1).expect("accepted");
    let steps = [
        (
            "8) (set 4) (year 2014) (use 2) (edition 3) (family 64",
            0,
            3,
        ),
        (
            "0) (set 4) (year 2014) (use 2) (edition 3) (family 64",
            0,
            4,
        ),
        (
            "0) (set 3) (year 2014) (use 2) (edition 3) (family 64",
            0,
            5,
        ),
        (
            "0) (set 3) (year 2016) (use 2) (edition 3) (family 64",
            0,
            5,
        ),
        (
            "0) (set 3) (year 2015) (use 2) (edition 3) (family 64",
            0,
            6,
        ),
        (
            "0) (set 0) (year 2015) (use 0) (edition 3) (family 64",
            0,
            6,
        ),
        (
            "0) (set 1) (year 2015) (use 1) (edition 3) (family 64",
            0,
            6,
        ),
        (
            "0) (set 3) (year 2015) (use 0) (edition 3) (family 64",
            0,
            17,
        ),
        (
            "0) (set 3) (year 2015) (use 0) (edition 2) (family 64",
            0,
            17,
        ),
        (
            "0) (set 3) (year 2015) (use 0) (edition 1) (family 64",
            0,
            17,
        ),
        (
            "0) (set 3) (year 2015) (use 0) (edition 0) (family 64",
            0,
            7,
        ),
        ("0) (set 3) (year 2015) (use 0) (edition 0) (family 0", 0, 8),
        ("0) (set 3) (year 2015) (use 0) (edition 0) (family 0", 1, 9),
    ];
    for (text, fcl, number) in steps {
        let call = format!("(file (maker {text}) (fcl {fcl}) (cf 1) (volume 1) (life 1))");
        assert_eq!(refusal_of(&book, &call), number, "{call}");
    }
}

#[test]
fn the_order_of_a_trades_refusals() {
    let lots = [(0, 3, 2016, 10), (1, 3, 2016, 10), (0, 3, 2013 + 1, 10)];
    let book = book(2021, &lots, &[(0, 3, 2020, 7)]);
    let steps = [
        ("(from 0) (to 8) (set 4) (vintage 2021) (mg 0)", 3),
        ("(from 8) (to 0) (set 4) (vintage 2021) (mg 0)", 3),
        ("(from 0) (to 0) (set 4) (vintage 2021) (mg 0)", 4),
        ("(from 0) (to 0) (set 3) (vintage 2021) (mg 0)", 10),
        ("(from 0) (to 0) (set 3) (vintage 2014) (mg 0)", 10),
        ("(from 0) (to 0) (set 3) (vintage 2016) (mg 0)", 11),
        ("(from 0) (to 0) (set 3) (vintage 2016) (mg 99)", 12),
        ("(from 0) (to 1) (set 3) (vintage 2016) (mg 99)", 13),
        ("(from 1) (to 0) (set 3) (vintage 2016) (mg 11)", 15),
    ];
    for (text, number) in steps {
        assert_eq!(
            refusal_of(&book, &format!("(trade {text})")),
            number,
            "{text}"
        );
    }
    let mut after = book.clone();
    let trade = "(trade (from 1) (to 0) (set 3) (vintage 2016) (mg 10))";
    assert_eq!(say(&mut after, trade), left(0));
    assert_eq!((lot(&after, 0, 3, 2016), lot(&after, 1, 3, 2016)), (20, 0));
}

#[test]
fn the_order_of_an_applications_refusals() {
    let lots = [(0, 3, 2016, 10), (0, 3, 2014, 10)];
    let book = book(2021, &lots, &[(0, 3, 2020, 7), (0, 3, 2016, 7)]);
    let steps = [
        ("(maker 8) (set 4) (vintage 2014) (year 2021) (mg 0)", 3),
        ("(maker 0) (set 4) (vintage 2014) (year 2021) (mg 0)", 4),
        ("(maker 0) (set 3) (vintage 2014) (year 2021) (mg 0)", 10),
        ("(maker 0) (set 3) (vintage 2016) (year 2021) (mg 0)", 11),
        ("(maker 0) (set 3) (vintage 2016) (year 2021) (mg 99)", 14),
        ("(maker 0) (set 3) (vintage 2016) (year 2019) (mg 99)", 14),
        // Overdue: 2021 is more than 2016 + 4.
        ("(maker 0) (set 3) (vintage 2016) (year 2016) (mg 1)", 14),
        ("(maker 0) (set 3) (vintage 2016) (year 2020) (mg 11)", 15),
        ("(maker 0) (set 3) (vintage 2016) (year 2020) (mg 8)", 16),
    ];
    for (text, number) in steps {
        assert_eq!(
            refusal_of(&book, &format!("(apply {text})")),
            number,
            "{text}"
        );
    }
    let mut after = book.clone();
    let apply = "(apply (maker 0) (set 3) (vintage 2016) (year 2020) (mg 7))";
    assert_eq!(say(&mut after, apply), left(3));
    assert_eq!(shortage(&after, 0, 3, 2020), 0);
}

#[test]
fn the_order_of_a_retirements_refusals() {
    let lots = [(0, 3, 2016, 10), (1, 3, 2016, 10)];
    let book = book(2021, &lots, &[(0, 3, 2020, 7)]);
    let steps = [
        ("(maker 8) (set 4) (vintage 2014) (mg 0)", 3),
        ("(maker 0) (set 4) (vintage 2014) (mg 0)", 4),
        ("(maker 0) (set 3) (vintage 2014) (mg 0)", 10),
        ("(maker 0) (set 3) (vintage 2016) (mg 0)", 11),
        ("(maker 0) (set 3) (vintage 2016) (mg 99)", 13),
        ("(maker 1) (set 3) (vintage 2016) (mg 11)", 15),
    ];
    for (text, number) in steps {
        assert_eq!(
            refusal_of(&book, &format!("(retire {text})")),
            number,
            "{text}"
        );
    }
    let mut after = book.clone();
    let retire = "(retire (maker 1) (set 3) (vintage 2016) (mg 4))";
    assert_eq!(say(&mut after, retire), left(6));
}

#[test]
fn the_largest_year_keeps_the_book_sound() {
    let mut book = Book::fresh();
    close_until(&mut book, 2027);
    for maker in 0..8 {
        for family in 0..64 {
            let tail = "(cf 1000000) (volume 100000) (life 500))";
            let head = format!("(file (maker {maker})");
            let named = format!("(edition 0) (family {family})");
            let lowest = format!("{head} (set 0) (year 2027) (use 0) {named} (fcl 1) {tail}");
            let highest = format!("{head} (set 3) (year 2027) (use 1) {named} (fcl 1200) {tail}");
            say_all(&mut book, &[&lowest, &highest]);
        }
    }
    assert!(book.is_sound());
    assert_eq!(close(&mut book), closed(8));
    assert!(book.is_sound());
    assert_eq!(lot(&book, 7, 0, 2027), 20_032_000_000);
    assert_eq!(shortage(&book, 7, 3, 2027), 24_576_000_000);
}
