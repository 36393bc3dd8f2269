//! Card 8: what the text of a book is refused for.

mod common;

use common::written::{verdict, TEXT};

/// The text with one of its lines replaced.
fn with(line: &str, other: &str) -> String {
    let (before, after) = (format!("{line}\n"), format!("{other}\n"));
    assert!(TEXT.contains(&before), "{line}");
    TEXT.replacen(&before, &after, 1)
}

/// The text with lines put in before one of its own.
fn with_before(line: &str, more: &str) -> String {
    with(line, &format!("{more}\n{line}"))
}

#[test]
fn the_open_year_stands_first_and_once() {
    for text in [
        "",
        "\n",
        "(lot 0 3 2014 1)\n",
        "(family 0 3 0 1)\n",
        "(family 0 3 0 1)\n(open 2014)\n",
        "(open 2014)\n(open 2014)\n",
        "(open 2014)\n(open 2015)\n",
        "(open 2014)\n(family 0 3 0 1)\n(open 2015)\n",
        "(open 2014)\n\n",
        "\n(open 2014)\n",
    ] {
        assert_eq!(verdict(text), 22, "{text:?}");
    }
    for line in TEXT.lines().skip(1) {
        assert_eq!(verdict(with_before(line, "(open 2017)")), 22, "{line}");
    }
    assert_eq!(verdict(TEXT.replacen("(open 2017)\n", "", 1)), 22);
    assert_eq!(verdict(format!("{TEXT}(open 2017)\n")), 22);
}

/// An open year that is none of the book's is no fault of the text.
#[test]
fn an_open_year_out_of_range_is_unsound() {
    for year in ["2014", "2038"] {
        assert_eq!(verdict(format!("(open {year})\n")), 0, "{year}");
    }
    for year in ["0", "1", "2013", "2039", "4294969310", "999999999999999999"] {
        assert_eq!(verdict(format!("(open {year})\n")), 2, "{year}");
    }
    for year in [
        "1000000000000000000",
        "18446744073709553630",
        "02014",
        "-2014",
        "-0",
        "+2014",
        "",
        "2014 ",
        "2014 1",
        "two",
    ] {
        assert_eq!(verdict(format!("(open {year})\n")), 22, "{year}");
    }
}

#[test]
fn every_line_ends_in_a_line_feed() {
    assert_eq!(verdict(TEXT.trim_end()), 22);
    assert_eq!(verdict("(open 2014)"), 22);
    assert_eq!(verdict(TEXT.replace('\n', "\r\n")), 22);
    for line in TEXT.lines() {
        assert_eq!(verdict(with_before(line, "")), 22, "{line}");
        assert_eq!(verdict(with(line, &format!("{line} "))), 22, "{line}");
        assert_eq!(verdict(with(line, &format!("{line}\r"))), 22, "{line}");
        assert_eq!(verdict(with(line, &format!(" {line}"))), 22, "{line}");
        let joined = TEXT.replacen(&format!("{line}\n"), line, 1);
        assert_eq!(verdict(joined), 22, "{line}");
    }
    assert_eq!(verdict(format!("{TEXT}\n")), 22);
    assert_eq!(verdict(format!("{TEXT}x")), 22);
    assert_eq!(verdict(format!("{TEXT}\0")), 22);
}

#[test]
fn lines_rise_within_their_group_and_groups_follow_their_order() {
    let lines: Vec<&str> = TEXT.lines().collect();
    for one in 0..lines.len() {
        for other in one + 1..lines.len() {
            let mut swapped = lines.clone();
            swapped.swap(one, other);
            assert_eq!(verdict(swapped.join("\n") + "\n"), 22, "{one} {other}");
        }
        // Twice with the same figure, and with another.
        assert_eq!(verdict(with_before(lines[one], lines[one])), 22);
        let place = lines[one].rsplit_once(' ').expect("a figure").0;
        for again in [format!("{place} 3)"), lines[one].into()] {
            let text = with(lines[one], &format!("{place} 3)\n{again}"));
            assert_eq!(verdict(text), 22, "{again}");
        }
    }
    // The maker counts before the set, the set before the number or year; each
    // as a number.
    for (first, second) in [
        ("(family 1 1 5 1)", "(family 1 1 10 1)"),
        ("(family 1 1 1 1)", "(family 1 1 2 1)"),
        ("(family 1 1 2 1)", "(family 1 2 1 1)"),
        ("(family 1 2 2 1)", "(family 2 1 1 1)"),
        ("(lot 1 3 2015 1)", "(lot 2 0 2014 1)"),
        ("(short 2 1 2016 1)", "(short 2 2 2014 1)"),
        ("(family 1 2 2 1)", "(lot 0 0 2014 1)"),
        ("(lot 1 2 2014 1)", "(short 0 0 2014 1)"),
        ("(family 1 2 2 1)", "(short 0 0 2014 1)"),
    ] {
        assert_eq!(verdict(format!("(open 2020)\n{first}\n{second}\n")), 0);
        assert_eq!(verdict(format!("(open 2020)\n{second}\n{first}\n")), 22);
    }
}

#[test]
fn makers_sets_numbers_and_years_are_the_books() {
    for (line, number) in [
        ("(family 7 3 63 1)", 0),
        ("(family 8 0 0 1)", 22),
        ("(family 7 4 0 1)", 22),
        ("(family 7 3 64 1)", 22),
        ("(family 256 0 0 1)", 22),
        ("(family 4294967296 0 0 1)", 22),
        ("(family 0 4294967296 0 1)", 22),
        ("(family 0 0 4294967296 1)", 22),
        ("(family 999999999999999999 0 0 1)", 22),
        ("(lot 7 3 2014 1)", 0),
        ("(lot 8 0 2014 1)", 22),
        ("(lot 7 4 2014 1)", 22),
        ("(lot 0 0 2013 1)", 22),
        ("(lot 0 0 2037 1)", 0),
        ("(lot 0 0 2038 1)", 22),
        ("(lot 0 0 0 1)", 22),
        ("(lot 0 0 4294969310 1)", 22),
        ("(short 7 3 2014 1)", 0),
        ("(short 8 0 2014 1)", 22),
        ("(short 7 4 2014 1)", 22),
        ("(short 0 0 2013 1)", 22),
        ("(short 0 0 2037 1)", 0),
        ("(short 0 0 2038 1)", 22),
    ] {
        assert_eq!(verdict(format!("(open 2038)\n{line}\n")), number, "{line}");
    }
}

#[test]
fn figures_of_parts_and_of_mg() {
    for (figure, part, mg) in [
        ("0", 0, 22),
        ("1", 0, 0),
        ("-1", 0, 22),
        ("-0", 22, 22),
        ("00", 22, 22),
        ("01", 22, 22),
        ("-01", 22, 22),
        ("--1", 22, 22),
        ("+1", 22, 22),
        ("-", 22, 22),
        ("", 22, 22),
        ("- 1", 22, 22),
        ("1.0", 22, 22),
        ("1e3", 22, 22),
        ("0x1", 22, 22),
        ("٣", 22, 22),
        ("(1)", 22, 22),
        ("1 1", 22, 22),
        ("live 1", 22, 22),
        ("999999999999999999", 2, 2),
        ("-999999999999999999", 2, 22),
        ("1000000000000000000", 22, 22),
        ("-1000000000000000000", 22, 22),
        ("000000000000000001", 22, 22),
        ("18446744073709551617", 22, 22),
        ("-18446744073709551617", 22, 22),
    ] {
        for (head, number) in [
            ("family 1 2 3", part),
            ("lot 1 2 2014", mg),
            ("short 1 2 2014", mg),
        ] {
            let text = format!("(open 2020)\n({head} {figure})\n");
            assert_eq!(verdict(&text), number, "{text}");
        }
    }
}

#[test]
fn a_book_that_is_not_sound_is_2() {
    for (lines, number) in [
        ("(family 1 2 3 38400000000000000)", 0),
        ("(family 1 2 3 38400000000000001)", 2),
        ("(family 1 2 3 -38400000000000000)", 0),
        ("(family 1 2 3 -38400000000000001)", 2),
        ("(lot 1 2 2019 200000000000)", 0),
        ("(lot 1 2 2019 200000000001)", 2),
        (
            "(lot 1 2 2019 100000000000)\n(lot 7 2 2019 100000000000)",
            0,
        ),
        (
            "(lot 1 2 2019 100000000000)\n(lot 7 2 2019 100000000001)",
            2,
        ),
        (
            "(lot 1 2 2018 100000000000)\n(lot 7 2 2019 100000000001)",
            0,
        ),
        (
            "(lot 1 1 2019 100000000000)\n(lot 7 2 2019 100000000001)",
            0,
        ),
        ("(short 1 2 2019 25000000000)", 0),
        ("(short 1 2 2019 25000000001)", 2),
        ("(lot 1 2 2020 1)", 2),
        ("(short 1 2 2020 1)", 2),
        ("(lot 1 2 2037 1)", 2),
        ("(short 1 2 2037 1)", 2),
    ] {
        assert_eq!(
            verdict(format!("(open 2020)\n{lines}\n")),
            number,
            "{lines}"
        );
    }
}

/// Wherever the fault that makes the text none stands.
#[test]
fn all_of_22_comes_before_2() {
    for fault in [
        "(lot 0 0 2014 0)",
        "(lot 0 0 2038 1)",
        "(lot 0 0 2014 1))",
        "",
        "x",
    ] {
        for text in [
            format!("(open 2013)\n{fault}\n"),
            format!("(open 2039)\n(family 0 0 0 1)\n{fault}\n"),
            format!("(open 2020)\n(family 0 0 0 999999999999999999)\n{fault}\n"),
            format!("(open 2020)\n{fault}\n(lot 1 0 2020 1)\n"),
            format!("(open 2020)\n{fault}\n(short 1 0 2014 999999999999999999)\n"),
        ] {
            assert_eq!(verdict(&text), 22, "{text}");
        }
    }
    assert_eq!(verdict("(open 2013)"), 22);
    assert_eq!(verdict("(open 2013)\n\n"), 22);
}
