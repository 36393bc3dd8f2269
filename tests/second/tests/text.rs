//! Terminal text: forms, numbers, line lengths, ends, and the listing.

mod common;

use common::*;
use second::figuring::{Figures, MAX_CF, MAX_FCL, MAX_LIFE, MAX_VOLUME};
use second::postings::{Call, Filing};
use second::text::{parse, LINE_LIMIT};

fn is_form(line: &str) -> bool {
    parse(line.as_bytes()).is_some()
}

#[test]
fn numbers_have_1_to_12_digits_and_no_leading_zero() {
    let close = |number: &str| is_form(&format!("(close (year {number}))"));
    assert!(["0", "1", "10", "2014", "999999999999"]
        .into_iter()
        .all(close));
    let wrong = [
        "",
        "00",
        "01",
        "000000000000",
        "1000000000000",
        "0999999999999",
        "-1",
        "+1",
        "1.0",
        "1e3",
        "0x1",
        " 1",
        "1 ",
        "a",
        "١",
    ];
    assert!(!wrong.into_iter().any(close));
}

#[test]
fn near_forms_are_no_forms() {
    let near = [
        "",
        " ",
        "()",
        "close",
        "(close)",
        "(close )",
        "(close (year))",
        "(close (year 1)",
        "(close (year 1)))",
        "((close (year 1)))",
        " (close (year 1))",
        "(close (year 1)) ",
        "(close (year 1))\r",
        "(close (year 1))\0",
        "(close  (year 1))",
        "(close (year  1))",
        "(close\t(year 1))",
        "(close (year 1) )",
        "( close (year 1))",
        "(close(year 1))",
        "(close (year 1) (year 1))",
        "(Close (year 1))",
        "(CLOSE (YEAR 1))",
        "(closed (year 1))",
        "(close (years 1))",
        "(close (vintage 1))",
        "(fresh)",
        "(std 2014 0 600 600 567 502 475)",
        "(retire (set 0) (maker 0) (vintage 0) (mg 0))",
        "(retire (maker 0) (set 0) (vintage 0))",
        "(retire (maker 0)(set 0) (vintage 0) (mg 0))",
        "(trade (from 0) (to 0) (set 0) (vintage 0) (mg 0)",
        "(apply (maker 0) (set 0) (year 0) (vintage 0) (mg 0))",
        "(file (maker 0) (set 0) (year 0) (use 0) (family 0) (fcl 0) (cf 0) (volume 0) (life 0))",
    ];
    for line in near {
        assert!(!is_form(line), "{line}");
        assert_eq!(output(&format!("{line}\n")), "(no 1)\n", "{line}");
    }
    assert!(is_form("(close (year 1))"));
    assert!(is_form("(retire (maker 0) (set 0) (vintage 0) (mg 0))"));
    for name in ["file", "small", "amend"] {
        let shortest = SHORTEST + name.len();
        assert!(is_form(&line_of(name, shortest)), "{name}");
    }
}

/// A form with a filing's ten numbers of one digit each, its name aside.
const SHORTEST: usize = 95;

/// A right filing, by either entry, or amendment but for its length; its maker is
/// above 7.
fn line_of(name: &str, length: usize) -> String {
    let mut digits = [1; 10];
    let mut missing = length - SHORTEST - name.len();
    for count in &mut digits {
        let more = missing.min(11);
        *count += more;
        missing -= more;
    }
    let [a, b, c, d, e, f, g, h, i, j] = digits.map(|count| "9".repeat(count));
    format!(
        "({name} (maker {a}) (set {b}) (year {c}) (use {d}) (edition {e}) (family {f}) (fcl {g}) \
         (cf {h}) (volume {i}) (life {j}))"
    )
}

/// Every number at its greatest, and no smaller one is longer.
#[test]
fn what_is_taken_fits_on_a_line() {
    let longest = Filing {
        maker: 7,
        set: 3,
        year: 2026,
        usage: 1,
        edition: 2,
        family: 63,
        figures: Figures {
            fcl: MAX_FCL,
            cf: MAX_CF,
            volume: MAX_VOLUME,
            life: MAX_LIFE,
        },
    };
    let mut book = book(2026, &[], &[]);
    let mut small = longest;
    (small.maker, small.family, small.figures.volume) = (0, 15, 5_000);
    for (call, length) in [
        (Call::File(longest), 119),
        (Call::Small(small), 118),
        (Call::Amend(longest), 120),
    ] {
        assert!(post(&mut book, &call).is_ok());
        let line = call.to_string();
        assert_eq!(line.len(), length);
        assert!(line.len() <= LINE_LIMIT);
    }
}

#[test]
fn a_line_has_at_most_160_bytes() {
    for (length, answer) in [
        (159, "(no 3)\n"),
        (160, "(no 3)\n"),
        (161, "(no 1)\n"),
        (209, "(no 1)\n"),
    ] {
        for line in ["file", "small", "amend"].map(|name| line_of(name, length)) {
            assert_eq!(line.len(), length);
            for piece in [1, 100, 160, 161, 1_000] {
                let fed = output_in_pieces(format!("{line}\n").as_bytes(), piece);
                assert_eq!(fed, answer, "{line}");
                assert_eq!(output_in_pieces(line.as_bytes(), piece), answer, "{line}");
            }
        }
    }
}

#[test]
fn an_overlong_line_is_one_line() {
    let close = "(close (year 2014))";
    let long = format!("{}{close}\n{close}\n", " ".repeat(100_000));
    for piece in [1, 37, 4_096, 1 << 20] {
        assert_eq!(output_in_pieces(long.as_bytes(), piece), "(no 1)\n(ok 0)\n");
    }
}

#[test]
fn the_end_of_the_input() {
    assert_eq!(output(""), "");
    assert_eq!(output("\n"), "(no 1)\n");
    assert_eq!(output("\n\n"), "(no 1)\n(no 1)\n");
    assert_eq!(output("(close (year 2014))"), "(ok 0)\n");
    assert_eq!(output("(close (year 2014))\n"), "(ok 0)\n");
    assert_eq!(output("(close (year 2014))\n\n"), "(ok 0)\n(no 1)\n");
    assert_eq!(output("(close (year 2014))\n "), "(ok 0)\n(no 1)\n");
}

#[test]
fn any_bytes_are_answered() {
    let bytes: Vec<u8> = (0..=255).filter(|&byte| byte != b'\n').collect();
    assert_eq!(output_in_pieces(&bytes, 10), "(no 1)\n");
    let each: Vec<u8> = bytes.iter().flat_map(|&byte| [byte, b'\n']).collect();
    assert_eq!(output_in_pieces(&each, 10), "(no 1)\n".repeat(255));
}

#[test]
fn cells_are_listed_maker_before_set_lots_before_shortages() {
    let mut book = book(
        2021,
        &[
            (1, 0, 2016, 1),
            (0, 3, 2015, 2),
            (0, 3, 2014, 3),
            (0, 1, 2020, 4),
        ],
        &[(0, 3, 2016, 5), (0, 3, 2017, 6), (0, 1, 2014, 7)],
    );
    book.marks[0] = 1;
    let mut out = Vec::new();
    second::listing::list(&book, &mut out).expect("written");
    let expected = "\
(lot 0 1 2020 live 4)
(short 0 1 2014 overdue 7)
(lot 0 3 2014 expired 3)
(lot 0 3 2015 live 2)
(short 0 3 2016 overdue 5)
(short 0 3 2017 open 6)
(lot 1 0 2016 live 1)
";
    assert_eq!(String::from_utf8(out).expect("plain text"), expected);
}

#[test]
fn the_forms_have_a_filings_fields() {
    let filing = Call::File(plain(5, 560)).to_string();
    for (name, call) in [
        ("small", Call::Small(plain(5, 560))),
        ("amend", Call::Amend(plain(5, 560))),
    ] {
        let line = filing.replacen("file", name, 1);
        assert_eq!(parse(line.as_bytes()), Some(call));
        assert_eq!(call.to_string(), line);
    }
}

/// The form holds whatever the numbers: beyond the limits a line is a form still.
#[test]
fn a_small_line_beyond_its_limits_is_a_form() {
    for filing in [of_volume(16, 560, 1), of_volume(63, 560, 999_999_999_999)] {
        let line = Call::Small(filing).to_string();
        assert_eq!(parse(line.as_bytes()), Some(Call::Small(filing)));
        assert_eq!(output(&line), "(no 7)\n");
    }
    let line = Call::Small(of_volume(15, 560, 5_001)).to_string();
    assert_eq!(output(&line), "(no 8)\n");
}

/// A right line of a form with its name, its fields, its blanks or its ends bent.
fn near_forms(right: &str, name: &str, heads: &str) -> Vec<String> {
    let fields: Vec<&str> = right[name.len() + 2..right.len() - 1]
        .split_inclusive(") ")
        .collect();
    assert_eq!(fields.len(), 10);
    let mut near: Vec<String> = heads
        .split(' ')
        .map(|head| right.replacen(name, head, 1))
        .collect();
    for (place, field) in fields.iter().enumerate() {
        near.push(right.replacen(&format!(" {}", field.trim_end()), "", 1));
        near.push(right.replacen(field, &format!("{field} {field}"), 1));
        near.push(right.replacen(field, &format!(" {field}"), 1));
        near.push(right.replacen(field, &field.replacen(' ', "  ", 1), 1));
        if let Some(next) = fields.get(place + 1) {
            let (one, other) = (field.trim_end(), next.trim_end());
            near.push(right.replacen(&format!("{one} {other}"), &format!("{other} {one}"), 1));
        }
    }
    near.extend([
        format!("{right} "),
        format!(" {right}"),
        format!("{right})"),
    ]);
    near.extend([
        format!("({right})"),
        format!("{right}\r"),
        right.replacen(' ', "", 1),
    ]);
    // A byte lost.
    near.extend((0..right.len()).map(|at| format!("{}{}", &right[..at], &right[at + 1..])));
    near
}

#[test]
fn near_forms_of_the_small_filing_and_the_amendment_are_no_forms() {
    let small = "smal smalls Small SMALL smalL smaller mall small0 0small smallfile filesmall \
                 file(small small(file (small small( small_file small-file large amall";
    let amend = "amends Amend AMEND amended ammend amen amenD mend fileamend file(amend refile";
    for (call, name, heads) in [
        (Call::Small(plain(5, 560)), "small", small),
        (Call::Amend(plain(5, 560)), "amend", amend),
    ] {
        let right = call.to_string();
        let mut near = near_forms(&right, name, heads);
        let doubled = [
            format!("{name} {name}"),
            format!("{name} "),
            format!(" {name}"),
        ];
        near.extend(doubled.map(|head| right.replacen(name, &head, 1)));
        for line in &near {
            assert_ne!(*line, right);
            // A digit less may leave a form, with another number.
            let is_form = parse(line.as_bytes()).is_some();
            let names = |line: &str| line.replace(|byte: char| byte.is_ascii_digit(), "");
            let digit_lost = line.len() + 1 == right.len() && names(line) == names(&right);
            assert!(!is_form || digit_lost, "{line}");
        }
        assert!(parse(right.as_bytes()).is_some());
    }
}
