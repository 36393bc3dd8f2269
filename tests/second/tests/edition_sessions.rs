//! Card 5: which editions the generated sessions file under, and that they
//! reach refusal 17 by each of its causes.

mod common;

use common::*;
use second::generate::{session, Kind};
use second::postings::{Answer, Filing};

/// Refusal 17 in the words of the card.
fn wrong(filing: &Filing) -> bool {
    let outside = ![2, 3].contains(&filing.set) || !(2024..=2026).contains(&filing.year);
    filing.edition > 2 || (1..=2).contains(&filing.edition) && outside
}

fn count(filings: &[(Filing, Answer)], like: impl Fn(&Filing, Result<(), u8>) -> bool) -> usize {
    let answers = filings.iter().map(|(filing, answer)| {
        let answer = answer.map(|_| ()).map_err(|refusal| refusal.number());
        (filing, answer)
    });
    answers
        .filter(|(filing, answer)| like(filing, *answer))
        .count()
}

#[test]
fn sessions_file_under_every_edition_in_every_column_and_year() {
    for (kind, seeds, least) in [
        (Kind::Years, 0..10, 20),
        (Kind::Hostile, 0..8, 6),
        (Kind::Mixed, 0..12, 15),
        (Kind::Full, 0..2, 80),
    ] {
        let filings = filings(kind, seeds);
        for (set, usage) in [(2, 0), (3, 0), (2, 1), (3, 1)] {
            for (edition, year) in (0..3).flat_map(|e| (2024..=2026).map(move |y| (e, y))) {
                let taken = count(&filings, |f, answer| {
                    (f.set, f.usage, f.edition, f.year) == (set, usage, edition, year)
                        && answer.is_ok()
                });
                assert!(
                    taken >= least,
                    "{kind:?}, set {set}, use {usage}, edition {edition}, {year}: {taken}"
                );
            }
        }
    }
}

/// The one cause of a refusal 17; none where there are two.
fn cause(filing: &Filing) -> &'static str {
    match (filing.edition, filing.set, filing.year) {
        (3.., 2 | 3, 2024..=2026) => "above 2",
        (1 | 2, 0, 2024..=2026) => "set 0",
        (1 | 2, 1, 2024..=2026) => "set 1",
        (1 | 2, 2 | 3, ..=2022) => "before 2023",
        (1 | 2, 2 | 3, 2023) => "2023",
        (1 | 2, 2 | 3, 2027) => "2027",
        (1 | 2, 2 | 3, 2028..) => "after 2027",
        _ => "",
    }
}

#[test]
fn sessions_meet_refusal_17_for_each_of_its_causes() {
    let causes = [
        "above 2",
        "set 0",
        "set 1",
        "before 2023",
        "2023",
        "2027",
        "after 2027",
    ];
    for (kind, seeds, least) in [
        (Kind::Years, 0..24, 8),
        (Kind::Hostile, 0..12, 20),
        (Kind::Mixed, 0..8, 8),
    ] {
        let filings = filings(kind, seeds);
        for wanted in causes {
            let found = count(&filings, |f, answer| {
                answer == Err(17) && cause(f) == wanted
            });
            assert!(found >= least, "{kind:?}, {wanted}: {found}");
        }
    }
}

/// Filings that another refusal concerns too, so that the order shows.
#[test]
fn hostile_sessions_show_the_place_of_refusal_17() {
    let filings = filings(Kind::Hostile, 0..8);
    let found = [
        count(&filings, |f, answer| answer == Err(5) && wrong(f)),
        count(&filings, |f, answer| answer == Err(6) && wrong(f)),
        count(&filings, |f, answer| answer == Err(17) && f.family > 63),
        count(&filings, |f, answer| {
            answer == Err(17) && !f.figures.within_limits()
        }),
    ];
    assert!(found.iter().all(|&n| n >= 20), "{found:?}");
    // Nothing else gets 17, and nothing that 17 concerns gets what comes later.
    let amiss = count(&filings, |f, answer| match answer {
        Err(17) => !wrong(f),
        Ok(()) | Err(7..=9) => wrong(f),
        Err(_) => false,
    });
    assert_eq!(amiss, 0);
}

/// The names of a filing's fields as they stand on a line.
fn names(line: &[u8]) -> Option<Vec<&str>> {
    let line = std::str::from_utf8(line).ok()?;
    let fields = line.strip_prefix("(file (")?.split(" (");
    fields.map(|field| field.split(' ').next()).collect()
}

#[test]
fn hostile_sessions_bend_the_edition() {
    let sessions = (0..8).map(|seed| session(Kind::Hostile, seed, Kind::Hostile.usual_lines()));
    let sessions: Vec<u8> = sessions.flatten().collect();
    let lines = sessions.split(|&byte| byte == b'\n').filter_map(names);
    let lines: Vec<Vec<&str>> = lines.collect();
    for first in [
        "use family fcl cf volume life",
        "edition use family fcl cf volume life",
        "use family edition fcl cf volume life",
        "use edition edition family fcl cf volume life",
    ] {
        let wanted: Vec<&str> = "maker set year"
            .split(' ')
            .chain(first.split(' '))
            .collect();
        let found = lines.iter().filter(|names| **names == wanted).count();
        assert!(found >= 10, "{first}: {found}");
    }
}
