//! Card 10: what the generated sessions file by the small makers' entry, and what
//! is refused of it.

mod common;

use common::times::*;
use common::*;
use second::book::{cell, Book};
use second::figuring::Figures;
use second::generate::small::NEAR_NAMES;
use second::generate::{session, Kind};
use second::postings::{Answer, Call, Filing, Results};
use second::text::parse;
use std::collections::{BTreeMap, BTreeSet};
use std::ops::Range;

type Name = (u64, u64, u64);

fn name(c: &Filing) -> Name {
    (c.maker, c.set, c.family)
}

/// Whether the figures but for the volume are within their limits.
fn others_within(c: &Filing) -> bool {
    let others = Figures {
        volume: 1,
        ..c.figures
    };
    others.within_limits()
}

/// How often each thing was met.
#[derive(Default)]
struct Met {
    calls: u32,
    times: Times,
    /// The families filed this year, and whether by the small entry.
    filed: BTreeMap<Name, bool>,
    /// The small ones that were amended beyond their entry.
    beyond: BTreeSet<Name>,
}

impl Met {
    fn of(kind: Kind, seeds: Range<u64>) -> Self {
        let mut met = Met::default();
        for seed in seeds {
            met.filed.clear();
            met.beyond.clear();
            each_call(kind, seed..seed + 1, |book, call, answer| {
                met.calls += 1;
                met.see(book, call, answer);
            });
        }
        met
    }

    fn see(&mut self, book: &Book, call: &Call, answer: Answer) {
        self.times.meet("small", matches!(call, Call::Small(_)));
        match (call, answer) {
            (Call::Small(c), Ok(results)) => {
                self.accept(book, c, results);
                self.filed.insert(name(c), true);
            }
            (Call::Small(c), Err(refusal)) => self.refuse(c, refusal.number()),
            (Call::File(c), Ok(_)) => {
                self.times
                    .meet("large beside small", self.has(c, |small| small));
                self.filed.insert(name(c), false);
            }
            (Call::File(c), Err(refusal)) => {
                let small = self.filed.get(&name(c)) == Some(&true);
                self.times
                    .meet("large, 9 by small", refusal.number() == 9 && small);
            }
            (Call::Amend(c), Ok(_)) => self.amend(c),
            (Call::Close { .. }, Ok(_)) => {
                let beyond = !self.beyond.is_empty();
                self.times.meet("closed with one beyond", beyond);
                self.filed.clear();
                self.beyond.clear();
            }
            _ => {}
        }
    }

    /// Whether the cell has a family that was filed so.
    fn has(&self, c: &Filing, so: fn(bool) -> bool) -> bool {
        let mut cell = self.filed.range((c.maker, c.set, 0)..=(c.maker, c.set, 63));
        cell.any(|(_, &small)| so(small))
    }

    fn accept(&mut self, book: &Book, c: &Filing, results: Results) {
        let Results::Filed { part, .. } = results else {
            panic!("{results:?}");
        };
        self.times.meet("accepted", true);
        self.meet_above("accepted", c);
        self.times.meet("number 15", c.family == 15);
        self.times.meet("volume 5,000", c.figures.volume == 5_000);
        self.times
            .meet("small beside large", self.has(c, |small| !small));
        self.times.meet("part below 0", part.0 < 0);
        self.times.meet("part of 0", part.0 == 0);
        self.times.meet("part above 0", part.0 > 0);
        self.times.meet(format!("edition {}", c.edition), true);
        let mark = book.marks[cell(c.maker as usize, c.set as usize)];
        self.times.meet("first of its cell", mark == 0);
    }

    fn refuse(&mut self, c: &Filing, number: u8) {
        let (filed, volume) = (self.filed.get(&name(c)), c.figures.volume);
        let others = others_within(c);
        let met = [
            ("7, 16", number == 7 && c.family == 16),
            ("7, 16 to 63", number == 7 && c.family <= 63),
            ("7, above 63", number == 7 && c.family > 63),
            ("7, filed", number == 7 && filed.is_some()),
            ("8, 5,001", number == 8 && volume == 5_001),
            (
                "8, 5,001 to 100,000",
                number == 8 && volume <= 100_000 && others,
            ),
            ("8, above 100,000", number == 8 && volume > 100_000),
            ("8, filed", number == 8 && filed.is_some()),
            ("8, another figure", number == 8 && !others),
            ("9, by small", number == 9 && filed == Some(&true)),
            ("9, by large", number == 9 && filed == Some(&false)),
            (
                "9, amended beyond",
                number == 9 && self.beyond.contains(&name(c)),
            ),
        ];
        for (what, is_so) in met {
            self.times.meet(what, is_so);
        }
        self.times.meet(format!("{number}"), true);
        self.meet_above(&number.to_string(), c);
    }

    /// What 7 and 8 concern by the small limits.
    fn meet_above(&mut self, what: &str, c: &Filing) {
        let outside = !(1..=5_000).contains(&c.figures.volume) || !others_within(c);
        self.times
            .meet(format!("{what}, number above"), c.family > 15);
        self.times.meet(format!("{what}, outside"), outside);
    }

    fn amend(&mut self, c: &Filing) {
        if self.filed.get(&name(c)) != Some(&true) {
            return;
        }
        let volume = c.figures.volume;
        self.times.meet("small amended", true);
        self.times.meet("small amended beyond", volume > 5_000);
        self.times.meet("small amended to 5,001", volume == 5_001);
        self.times
            .meet("small amended to 100,000", volume == 100_000);
        if volume > 5_000 {
            self.beyond.insert(name(c));
        } else {
            let back = self.beyond.remove(&name(c));
            self.times.meet("amended back", back);
        }
    }
}

/// One line in eight to thirteen, and most of them accepted.
#[test]
fn sessions_have_their_share_of_small_filings() {
    for (kind, seeds) in KINDS {
        let met = Met::of(kind, seeds);
        let (accepted, small) = (met.times.of("accepted"), met.times.of("small"));
        let share = met.calls / small;
        assert!((7..=13).contains(&share), "{kind}: one in {share}");
        let least = if kind == Kind::Hostile { 3 } else { 6 };
        assert!(10 * accepted > least * small, "{kind}: {accepted}");
    }
    for (kind, seeds) in OTHER_KINDS {
        assert_eq!(Met::of(kind, seeds).times.of("small"), 0, "{kind}");
    }
}

#[test]
fn sessions_file_small_on_both_sides_of_both_limits() {
    let edges = [
        "number 15",
        "7, 16",
        "volume 5,000",
        "8, 5,001",
        "edition 0",
        "edition 1",
        "edition 2",
        "part below 0",
        "part above 0",
    ];
    for (kind, seeds) in KINDS {
        let times = Met::of(kind, seeds).times;
        times.hold(20, &edges);
        times.hold(8, &["part of 0", "7, outside"]);
        // The large entry takes these.
        times.hold(150, &["7, 16 to 63"]);
        times.hold(100, &["8, 5,001 to 100,000"]);
    }
}

/// One cell has families of both, each is refused what the other has filed, and
/// an amendment goes beyond the small limits.
#[test]
fn sessions_mix_both_entries() {
    let ways = [
        "small beside large",
        "large beside small",
        "first of its cell",
        "9, by small",
        "9, by large",
        "large, 9 by small",
        "small amended beyond",
        "closed with one beyond",
    ];
    for (kind, seeds) in KINDS {
        let times = Met::of(kind, seeds).times;
        times.hold(20, &ways);
        times.hold(3, &["9, amended beyond", "amended back"]);
    }
    let edges = ["small amended to 5,001", "small amended to 100,000"];
    for (kind, least) in [(Kind::Mixed, 5), (Kind::Hostile, 20)] {
        Met::of(kind, 0..8).times.hold(least, &edges);
    }
}

/// Alone, and with another refusal that comes later and must not answer.
#[test]
fn sessions_meet_every_refusal_of_a_small_filing() {
    for (kind, least) in [(Kind::Hostile, 20), (Kind::Mixed, 5)] {
        let times = Met::of(kind, 0..8).times;
        times.hold(least, &["3", "4", "5", "6", "17", "7", "8", "9"]);
        times.hold(least, &["7, above 63", "8, above 100,000"]);
        times.hold(least, &["7, filed", "8, filed", "8, another figure"]);
        times.hold(least, &["7, outside"]);
    }
    let times = Met::of(Kind::Hostile, 0..16).times;
    for number in ["4", "5", "6", "17"] {
        times.hold(10, &[&format!("{number}, number above")]);
        times.hold(10, &[&format!("{number}, outside")]);
    }
    times.hold(3, &["3, number above", "3, outside"]);
}

/// Nothing above the limits is accepted or gets what comes later, and nothing
/// within them gets 7.
#[test]
fn what_the_small_limits_concern_gets_7_or_8() {
    for (kind, seeds) in KINDS {
        let times = Met::of(kind, seeds).times;
        for number in ["accepted", "8", "9"] {
            assert_eq!(times.of(&format!("{number}, number above")), 0, "{kind}");
        }
        for number in ["accepted", "9"] {
            assert_eq!(times.of(&format!("{number}, outside")), 0, "{kind}");
        }
        assert_eq!(times.of("7"), times.of("7, number above"), "{kind}");
        assert_eq!(times.of("8"), times.of("8, outside"), "{kind}");
    }
}

#[test]
fn hostile_sessions_bend_the_small_filing() {
    let sessions = (0..16).map(|seed| session(Kind::Hostile, seed, Kind::Hostile.usual_lines()));
    let sessions: Vec<u8> = sessions.flatten().collect();
    let lines = sessions.split(|&byte| byte == b'\n');
    let lines: Vec<&[u8]> = lines.filter(|line| !line.is_empty()).collect();
    let count = |like: &dyn Fn(&[u8]) -> bool| lines.iter().filter(|line| like(line)).count();
    for head in NEAR_NAMES {
        let found = count(&|line| line.starts_with(format!("({head} (").as_bytes()));
        assert!(found >= 3, "{head}: {found}");
    }
    let small = |line: &[u8]| line.starts_with(b"(small (maker ");
    let is_form = |line: &[u8]| parse(line).is_some();
    for length in 157..=164 {
        let found = count(&|line| small(line) && line.len() == length);
        let forms = count(&|line| small(line) && line.len() == length && is_form(line));
        assert!(found >= 3, "{length}: {found}");
        assert_eq!(forms > 0, length <= 160, "{length}: {forms} forms");
    }
    for field in [
        "maker", "set", "year", "use", "edition", "family", "fcl", "cf", "volume", "life",
    ] {
        let times = |line: &[u8], text: &str| String::from_utf8_lossy(line).matches(text).count();
        let name = format!("({field} ");
        let found = [
            count(&|line| line.starts_with(b"(small (") && times(line, &name) == 0),
            count(&|line| line.starts_with(b"(small (") && times(line, &name) == 2),
            count(&|line| line.starts_with(b"(small (") && times(line, &format!("{name} ")) == 1),
        ];
        assert!(found.iter().all(|&n| n >= 2), "{field}: {found:?}");
    }
}
