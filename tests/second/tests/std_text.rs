//! Card 7: the text of a table, and what it is refused for.

mod common;

use common::*;
use second::generate::rng::Rng;
use second::generate::std_texts::std_text;
use second::generate::tables::accepted;
use second::standards::Table;
use second::std_text::read_table;
use std::collections::BTreeMap;
use std::io::{self, Read};

/// The table, or the number.
fn read(text: &[u8]) -> Result<Table, u8> {
    let read = read_table(text).expect("bytes can be read");
    read.map_err(|refusal| refusal.number())
}

fn verdict(text: &str) -> Result<(), u8> {
    read(text.as_bytes()).map(drop)
}

/// The lines of the built-in table.
fn lines() -> Vec<String> {
    BUILT_IN.to_string().lines().map(String::from).collect()
}

fn text_of(lines: &[String]) -> String {
    lines.iter().map(|line| format!("{line}\n")).collect()
}

/// The built-in text with one line replaced, from 0 on.
fn with_line(at: usize, line: &str) -> String {
    let mut lines = lines();
    lines[at] = line.into();
    text_of(&lines)
}

#[test]
fn the_built_in_text() {
    let text = BUILT_IN.to_string();
    assert_eq!(read(text.as_bytes()).as_ref(), Ok(&*BUILT_IN));
    let lines = lines();
    assert_eq!(lines.len(), 24);
    assert_eq!(lines[0], "(std 2014 0 600 600 567 502 475)");
    assert_eq!(lines[2], "(std 2016 627 600 600 567 502 475)");
    assert_eq!(lines[23], "(std 2037 627 552 535 503 457 432)");
}

#[test]
fn the_text_of_an_accepted_table_is_read_as_it() {
    let mut rng = Rng::new(2);
    for _ in 0..500 {
        let table = accepted(&mut rng);
        let text = table.to_string();
        assert_eq!(read(text.as_bytes()).as_ref(), Ok(&table));
        // The last line may lack its line feed.
        assert_eq!(read(text.trim_end().as_bytes()).as_ref(), Ok(&table));
    }
}

#[test]
fn a_missing_line_is_at_fault_at_its_place() {
    assert_eq!(verdict(""), Err(19));
    assert_eq!(verdict("\n"), Err(19));
    for at in 0..24 {
        let mut lines = lines();
        lines.truncate(at);
        assert_eq!(verdict(&text_of(&lines)), Err(19), "{at}");
        assert_eq!(verdict(text_of(&lines).trim_end()), Err(19), "{at}");
        lines = self::lines();
        lines.remove(at);
        assert_eq!(verdict(&text_of(&lines)), Err(19), "{at}");
    }
    // A fault of figures before it decides.
    let mut short = lines()[..10].to_vec();
    short[8] = "(std 2022 627 563 545 513 473 448)".into();
    assert_eq!(verdict(&text_of(&short)), Err(20));
}

#[test]
fn a_25th_line_is_at_fault_whatever_it_says() {
    let right = BUILT_IN.to_string();
    let last = &lines()[23];
    let long = "x".repeat(1_000);
    for more in [
        "\n",
        "(std 2038 627 552 535 503 457 432)\n",
        "(std 2038 627 552 535 503 457 432)",
        "(std 2038 0 0 0 0 0 0)\n",
        "(std 2038 999 999 999 999 999 999)\n",
        "(std 2014 0 600 600 567 502 475)\n",
        last,
        " ",
        "\0",
        "\r",
        "(close (year 2014))\n",
        &long,
    ] {
        assert_eq!(verdict(&format!("{right}{more}")), Err(19), "{more:?}");
        // But not before a fault of an earlier line.
        let faulty = with_line(23, "(std 2037 627 552 535 503 457 431)");
        assert_eq!(verdict(&format!("{faulty}{more}")), Err(20), "{more:?}");
    }
    assert_eq!(verdict(&right.repeat(2)), Err(19));
}

#[test]
fn years_rise_by_one_from_2014() {
    for at in 0..24 {
        let year = 2014 + at as u64;
        for wrong in [
            year - 1,
            year + 1,
            at as u64,
            0,
            year + (1 << 32),
            999_999_999_999,
        ] {
            let line = lines()[at].replacen(&year.to_string(), &wrong.to_string(), 1);
            assert_eq!(verdict(&with_line(at, &line)), Err(19), "{line}");
        }
        let mut lines = lines();
        lines.swap(at, (at + 1) % 24);
        assert_eq!(verdict(&text_of(&lines)), Err(19), "{at}");
    }
    let shifted: String = lines().join("\n").replace("(std 20", "(std 19");
    assert_eq!(verdict(&shifted), Err(19));
}

#[test]
fn near_forms_of_a_line_are_no_forms() {
    let near = [
        "",
        " ",
        "()",
        "(std)",
        "(std 2025)",
        "(std 2025 0 0 0 0 0)",
        "(std 2025 0 0 0 0 0 0 0)",
        "(std 2025 0 0 0 0 0 0",
        "(std 2025 0 0 0 0 0 0))",
        "((std 2025 0 0 0 0 0 0))",
        "std 2025 0 0 0 0 0 0",
        "[std 2025 0 0 0 0 0 0]",
        " (std 2025 0 0 0 0 0 0)",
        "(std 2025 0 0 0 0 0 0) ",
        "(std 2025 0 0 0 0 0 0 )",
        "( std 2025 0 0 0 0 0 0)",
        "(std  2025 0 0 0 0 0 0)",
        "(std 2025 0 0 0  0 0 0)",
        "(std 2025  0 0 0 0 0 0)",
        "(std2025 0 0 0 0 0 0)",
        "(std\t2025 0 0 0 0 0 0)",
        "(std 2025 0\t0 0 0 0 0)",
        "(std 2025 0 0 0 0 0 0)\r",
        "(std 2025 0 0 0 0 0 0)\0",
        "\0(std 2025 0 0 0 0 0 0)",
        "\u{feff}(std 2025 0 0 0 0 0 0)",
        "(Std 2025 0 0 0 0 0 0)",
        "(STD 2025 0 0 0 0 0 0)",
        "(stds 2025 0 0 0 0 0 0)",
        "(st 2025 0 0 0 0 0 0)",
        "(file 2025 0 0 0 0 0 0)",
        "(std (year 2025) 0 0 0 0 0 0)",
        "(std 2025 (0) 0 0 0 0 0)",
        "(std 2025 0, 0, 0, 0, 0, 0)",
        "(std 2025 0 0 0 0 0 0); none",
        "(std 02025 0 0 0 0 0 0)",
        "(std 2025 00 0 0 0 0 0)",
        "(std 2025 0 0 0 0 0 00)",
        "(std 2025 0 0432 0 0 0 0)",
        "(std 2025 0 0 000000000432 0 0 0)",
        "(std 2025 0 0 0000000000432 0 0 0)",
        "(std 2025 0 0 1000000000000 0 0 0)",
        "(std 0000000002025 0 0 0 0 0 0)",
        "(std 2025 -0 0 0 0 0 0)",
        "(std 2025 0 0 0 0 0 -432)",
        "(std 2025 0 0 0 0 0 +432)",
        "(std 2025 0 0 0 0 0 432.0)",
        "(std 2025 0 0 0 0 0 )",
        "(std 2025 0 0 0 0 0 x)",
        "(std 2025 0 0 0 0 0 ٤٣٢)",
        "(std 2025 0 0 0 0 0 18446744073709551616)",
    ];
    for line in near {
        assert_eq!(verdict(&with_line(11, line)), Err(19), "{line}");
    }
    // Of the form: figures out of the limits are 20, whatever their digits.
    assert_eq!(verdict(&with_line(11, "(std 2025 0 0 0 0 0 0)")), Ok(()));
    for entry in ["1", "431", "770", "999999999999", "100000000432"] {
        let line = format!("(std 2025 0 0 {entry} 0 0 0)");
        assert_eq!(verdict(&with_line(11, &line)), Err(20), "{line}");
    }
}

/// By the terminal's rule of lines; a right one is never that long.
#[test]
fn an_overlong_line_is_one_line_at_fault() {
    for length in [160, 161, 162, 4_096, 5_000_000] {
        let line = &lines()[11];
        let more = " ".repeat(length - line.len());
        assert_eq!(verdict(&with_line(11, &format!("{more}{line}"))), Err(19));
        assert_eq!(verdict(&with_line(11, &format!("{line}{more}"))), Err(19));
    }
    let longest = "(std 999999999999".to_string() + &" 999999999999".repeat(6) + ")";
    assert!(longest.len() < 160);
}

/// Lines of a year that are at fault after the built-in ones, each with its
/// number: beyond the limits, a rise, another year, an entry too few, nothing.
fn faults(year: u64) -> [(String, u8); 6] {
    [
        (format!("(std {year} 0 0 0 0 0 431)"), 20),
        (format!("(std {year} 770 0 0 0 0 0)"), 20),
        (format!("(std {year} 0 0 0 769 0 0)"), 20),
        (format!("(std {} 0 0 0 0 0 0)", year + 1), 19),
        (format!("(std {year} 0 0 0 0 0)"), 19),
        (String::new(), 19),
    ]
}

#[test]
fn the_first_line_at_fault_decides() {
    for at in 1..24 {
        for (fault, number) in faults(2014 + at as u64) {
            let mut lines = lines();
            lines[at] = fault;
            assert_eq!(verdict(&text_of(&lines)), Err(number), "{at}");
            for later in at + 1..24 {
                let right = lines[later].clone();
                for (fault, _) in faults(2014 + later as u64) {
                    lines[later] = fault;
                    assert_eq!(verdict(&text_of(&lines)), Err(number), "{at} {later}");
                }
                lines[later] = right;
            }
        }
    }
}

#[test]
fn in_one_line_form_and_year_come_before_figures() {
    for both in [
        "(std 2026 770 555 538 506 461 436)",
        "(std 2024 627 556 538 506 461 436)",
        "(std 2025 770 555 538 506 461)",
        "(std 2025 770 555 538 506 461 436) ",
        "(std 2025 627 556 538 506 461 0436)",
        "(std 2025 1 1 1 1 1 1000000000000)",
    ] {
        assert_eq!(verdict(&with_line(11, both)), Err(19), "{both}");
    }
}

/// A rise over the line before it, and not over a later one.
#[test]
fn a_rise_is_a_fault_of_the_later_line() {
    // Line 10 falls too low for line 11: line 11 rises, and if that is no form
    // either, 19.
    let mut low = lines();
    low[10] = "(std 2024 627 555 538 506 461 435)".into();
    assert_eq!(verdict(&text_of(&low)), Err(20));
    low[11] = "(std 2025 627 555 538 506 461 436".into();
    assert_eq!(verdict(&text_of(&low)), Err(19));
    low[11] = "(std 2025 627 555 538 506 461 435)".into();
    low[12] = "x".into();
    assert_eq!(verdict(&text_of(&low)), Err(19));
    // Line 11 rises, and line 12 is no form: 20.
    let mut high = lines();
    high[11] = "(std 2025 627 555 538 506 461 437)".into();
    high[12] = "x".into();
    assert_eq!(verdict(&text_of(&high)), Err(20));
}

#[test]
fn a_column_may_come_back_from_0() {
    let mut lines = lines();
    lines[11] = "(std 2025 0 0 0 0 0 0)".into();
    lines[12] = "(std 2026 769 769 769 769 769 769)".into();
    assert_eq!(verdict(&text_of(&lines)), Ok(()));
    lines[13] = "(std 2027 769 769 769 769 769 770)".into();
    assert_eq!(verdict(&text_of(&lines)), Err(20));
}

#[test]
fn windows_line_ends_are_refused() {
    let text = BUILT_IN.to_string().replace('\n', "\r\n");
    assert_eq!(verdict(&text), Err(19));
}

/// A reader that gives one byte at a time, and fails after some.
struct Slow<'a>(&'a [u8], io::ErrorKind);

impl Read for Slow<'_> {
    fn read(&mut self, into: &mut [u8]) -> io::Result<usize> {
        match self.0.split_first() {
            Some((byte, rest)) => {
                into[0] = *byte;
                self.0 = rest;
                Ok(1)
            }
            None => Err(self.1.into()),
        }
    }
}

#[test]
fn a_text_is_read_in_pieces_to_its_first_fault() {
    let text = BUILT_IN.to_string();
    // What fails after the first line at fault is never reached.
    let failing = io::ErrorKind::Other;
    assert!(read_table(Slow(text.as_bytes(), failing)).is_err());
    let faulty = with_line(3, "(std 2017 627 601 576 555 487 460)");
    let found = read_table(Slow(faulty.as_bytes(), failing)).expect("not reached");
    assert_eq!(found.map_err(|refusal| refusal.number()), Err(20));
    // Nor is the end of a text that has none.
    let endless = read_table(io::repeat(b'\n')).expect("no error");
    assert_eq!(endless.map_err(|refusal| refusal.number()), Err(19));
    let whole = Slow(text.as_bytes(), failing).take(text.len() as u64);
    assert!(read_table(whole).is_ok_and(|table| table.is_ok()));
}

/// The card's words, by other means: what a line must be is written out.
fn by_words(text: &[u8]) -> Result<(), u8> {
    let mut lines: Vec<&[u8]> = text.split(|&byte| byte == b'\n').collect();
    if lines.last().is_some_and(|line| line.is_empty()) {
        lines.pop();
    }
    let mut before = [0; 6];
    for year in 2014..=2038u64 {
        let line = lines.get(year as usize - 2014);
        let Some(line) = line.filter(|_| year < 2038) else {
            let all = year == 2038 && lines.len() == 24;
            return if all { Ok(()) } else { Err(19) };
        };
        let words = String::from_utf8_lossy(line);
        let numbers: Vec<u64> = words
            .split(|c: char| !c.is_ascii_digit())
            .filter_map(|word| word.parse().ok())
            .collect();
        let Ok([y, row @ ..]) = <[u64; 7]>::try_from(numbers) else {
            return Err(19);
        };
        let [a, b, c, d, e, f] = row;
        let small = row.iter().all(|&entry| entry < 1_000_000_000_000);
        let same = words == format!("(std {year} {a} {b} {c} {d} {e} {f})");
        if y != year || !small || !same {
            return Err(19);
        }
        let limits = row.iter().all(|&e| e == 0 || (432..770).contains(&e));
        let rises = (0..6).any(|at| before[at] > 0 && row[at] > before[at]);
        if !limits || rises {
            return Err(20);
        }
        before = row;
    }
    Ok(())
}

#[test]
fn any_text_gets_what_the_cards_words_give() {
    let mut met: BTreeMap<Result<(), u8>, u32> = BTreeMap::new();
    for seed in 0..6_000 {
        let text = std_text(seed);
        if text.len() > 1_000_000 {
            assert!(read(&text).is_err(), "seed {seed}");
            continue;
        }
        let found = read(&text);
        assert_eq!(found.clone().map(drop), by_words(&text), "seed {seed}");
        if let Ok(table) = &found {
            // A text that is accepted is the text of its table.
            let ended = [text.strip_suffix(b"\n").unwrap_or(&text), b"\n"].concat();
            assert_eq!(table.to_string().as_bytes(), ended, "seed {seed}");
            assert!(table.is_accepted());
        }
        *met.entry(found.map(drop)).or_default() += 1;
    }
    let least = [(Ok(()), 3_000), (Err(19), 1_000), (Err(20), 500)];
    for (what, least) in least {
        assert!(met[&what] >= least, "{met:?}");
    }
    assert_eq!(met.len(), 3);
}
