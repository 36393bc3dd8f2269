//! Card 7: what the generated sessions reach under tables of their own, and
//! the generated texts.

mod common;

use common::*;
use second::book::Book;
use second::generate::rng::Rng;
use second::generate::std_texts::std_text;
use second::generate::tables::accepted;
use second::generate::{session, session_under, Kind};
use second::postings::{post as post_under, Answer, Call, Filing, Results};
use second::standards::{Table, COLUMN_USES};
use std::collections::BTreeMap;
use std::ops::Range;

/// Every filing and amendment of sessions under tables by chance, each with
/// its table and its answer.
fn each_figured(kind: Kind, seeds: Range<u64>, mut see: impl FnMut(&Table, &Filing, Answer)) {
    for seed in seeds {
        let table = accepted(&mut Rng::new(seed));
        let mut book = Book::fresh();
        let input = session_under(&table, kind, seed, kind.usual_lines());
        for call in any::calls(&input) {
            let answer = post_under(&mut book, &table, &call);
            if let Call::File(filing) | Call::Small(filing) | Call::Amend(filing) = call {
                see(&table, &filing, answer);
            }
        }
    }
}

fn number(answer: Answer) -> u8 {
    answer.err().map_or(0, |refusal| refusal.number())
}

#[test]
fn sessions_file_by_every_column_of_a_table() {
    for (kind, seeds, least) in [
        (Kind::Years, 0..8, 200),
        (Kind::Hostile, 0..8, 60),
        (Kind::Mixed, 0..8, 60),
        (Kind::Full, 0..2, 300),
    ] {
        let mut taken = [0; 6];
        each_figured(kind, seeds, |table, c, answer| {
            let column = COLUMN_USES
                .iter()
                .position(|&column| column == (c.set, c.usage));
            // Under a standard that the built-in table hasn't.
            let own = table.standard(c.set, c.usage, c.year);
            let other = own != BUILT_IN.standard(c.set, c.usage, c.year);
            if let (Some(column), true, 0, 0) = (column, other, c.edition, number(answer)) {
                taken[column] += 1;
            }
        });
        assert!(taken.iter().all(|&n| n >= least), "{kind:?}: {taken:?}");
    }
}

/// 6 where the built-in table has a standard, under each edition; the other way
/// round; and 6 with what comes later.
#[test]
fn sessions_meet_refusal_6_by_the_table() {
    for (kind, least) in [(Kind::Years, 10), (Kind::Hostile, 10), (Kind::Mixed, 10)] {
        let mut met: BTreeMap<&str, u32> = BTreeMap::new();
        each_figured(kind, 0..12, |table, c, answer| {
            let built_in = BUILT_IN.standard(c.set, c.usage, c.year).is_some();
            let own = table.standard(c.set, c.usage, c.year).is_some();
            let alternative = (2024..=2026).contains(&c.year) && c.set >= 2;
            let number = number(answer);
            let mut meet = |what, is_so| *met.entry(what).or_default() += u32::from(is_so);
            meet("6, built-in has one", number == 6 && built_in);
            for (edition, what) in [(1, "6, edition 1"), (2, "6, edition 2")] {
                let named = alternative && c.edition == edition && built_in;
                meet(what, number == 6 && named);
            }
            meet("6 before 17", number == 6 && built_in && c.edition > 2);
            meet("6 before 7", number == 6 && built_in && c.family > 63);
            let limits = !c.figures.within_limits();
            meet("6 before 8", number == 6 && built_in && limits);
            meet("17, own standard", number == 17 && own);
            meet("taken, built-in has none", number == 0 && !built_in);
            meet("edition 1 taken", number == 0 && c.edition == 1);
            meet("edition 2 taken", number == 0 && c.edition == 2);
        });
        assert_eq!(met.len(), 10);
        assert!(met.values().all(|&n| n >= least), "{kind:?}: {met:?}");
    }
}

#[test]
fn sessions_reach_the_largest_parts() {
    for (kind, seeds) in [(Kind::Full, 0..4), (Kind::Hostile, 0..16)] {
        let mut met = [0; 3];
        each_figured(kind, seeds, |_, _, answer| {
            if let Ok(Results::Filed { part, .. }) = answer {
                met[0] += u32::from(part.0 == 38_400_000_000_000_000);
                met[1] += u32::from(part.0 == -38_400_000_000_000_000);
                met[2] += u32::from(part.0 == 0);
            }
        });
        assert!(met.iter().all(|&n| n >= 20), "{kind:?}: {met:?}");
    }
}

#[test]
fn every_kind_keeps_every_claim_under_any_table() {
    for kind in [Kind::Years, Kind::Hostile, Kind::Mixed, Kind::Standards] {
        for seed in 10..14 {
            let table = accepted(&mut Rng::new(seed));
            output_under(&table, &session_under(&table, kind, seed, 1_500), 997);
        }
    }
    let table = Table([[769, 769, 432, 432, 769, 432]; 24]);
    output_under(&table, &session_under(&table, Kind::Full, 1, 0), 4_096);
}

/// Each answer to a filing is the standard less 1, or a refusal; no cell has a
/// balance to list.
#[test]
fn standards_shows_the_whole_table() {
    for table in [BUILT_IN.clone(), accepted(&mut Rng::new(3))] {
        let input = session_under(&table, Kind::Standards, 0, 0);
        let calls = any::calls(&input);
        let output = output_under(&table, &input, 100);
        assert_eq!(output.lines().count(), calls.len());
        let mut shown = Table([[0; 6]; 24]);
        for (call, line) in calls.iter().zip(output.lines()) {
            let Call::File(c) = call else {
                assert_eq!(line, "(ok 0)");
                continue;
            };
            let column = COLUMN_USES
                .iter()
                .position(|&column| column == (c.set, c.usage));
            let part = line
                .strip_prefix("(ok ")
                .and_then(|rest| rest.split(' ').next());
            if let (Some(column), Some(part), 0) = (column, part, c.edition) {
                let part: u64 = part.parse().expect("a part");
                shown.0[c.year as usize - 2014][column] = part + 1;
            }
        }
        assert_eq!(shown, table);
    }
}

/// Only under a table of its own has a session lines for that.
#[test]
fn the_built_in_table_has_the_sessions_that_it_had() {
    for kind in [Kind::Years, Kind::Hostile] {
        let under = session_under(&BUILT_IN, kind, 5, 500);
        assert_eq!(under, session(kind, 5, 500));
        let other = session_under(&accepted(&mut Rng::new(5)), kind, 5, 500);
        assert_ne!(other, under);
    }
}

/// What a text shows at a glance.
fn looks(text: &[u8]) -> Vec<&'static str> {
    let words = String::from_utf8_lossy(text);
    let lines: Vec<&str> = words.split('\n').collect();
    let whole = lines.len() - usize::from(text.ends_with(b"\n"));
    let looks = [
        ("empty", text.is_empty()),
        ("megabytes", text.len() > 1_000_000),
        ("no last line feed", whole == 24 && !text.ends_with(b"\n")),
        ("23 lines", whole == 23),
        ("25 lines", whole == 25),
        ("an empty line at the end", text.ends_with(b"\n\n")),
        ("carriage returns", words.matches("\r\n").count() >= 24),
        ("a carriage return", words.contains('\r')),
        ("a tab", words.contains('\t')),
        ("a zero byte", text.contains(&0)),
        ("two spaces", words.contains("  ")),
        (
            "a leading zero",
            words.contains(" 06") || words.contains(" 05"),
        ),
        ("13 digits", words.contains(" 1000000000000")),
        ("12 digits", words.contains(" 999999999999")),
        ("2038", words.contains("(std 2038 ")),
        ("431", words.contains(" 431")),
        ("770", words.contains(" 770")),
        (
            "an overlong line",
            lines.iter().any(|line| line.len() > 160),
        ),
        ("a byte-order mark", words.starts_with('\u{feff}')),
    ];
    let shown = looks.iter().filter(|(_, is_so)| *is_so);
    shown.map(|&(what, _)| what).collect()
}

#[test]
fn texts_are_bent_in_every_way() {
    let mut met: BTreeMap<&str, u32> = BTreeMap::new();
    for what in (0..4_000).flat_map(|seed| looks(&std_text(seed))) {
        *met.entry(what).or_default() += 1;
    }
    assert_eq!(met.len(), 19, "{met:?}");
    assert!(met.values().all(|&n| n >= 5), "{met:?}");
}
