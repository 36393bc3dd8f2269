//! Card 6: what the generated sessions amend, and what of it is refused.

mod common;

use common::times::Times;
use common::*;
use second::book::{cell, Book, CELLS};
use second::figuring::Part;
use second::generate::{session, Kind};
use second::postings::{Answer, Call, Filing, Results};
use second::text::parse;
use std::collections::{BTreeMap, BTreeSet};
use std::ops::Range;

type Name = (u64, u64, u64);

fn name(c: &Filing) -> Name {
    (c.maker, c.set, c.family)
}

/// The part that a family is filed with; none where it isn't filed.
fn filed_part(book: &Book, c: &Filing) -> Option<Part> {
    if c.maker > 7 || c.set > 3 || c.family > 63 {
        return None;
    }
    let cell = cell(c.maker as usize, c.set as usize);
    let filed = book.marks[cell] >> c.family & 1 == 1;
    filed.then(|| book.parts[cell][c.family as usize])
}

/// How often each thing was met.
#[derive(Default)]
struct Met {
    times: Times,
    /// The families filed last year.
    last_year: BTreeSet<Name>,
    this_year: BTreeSet<Name>,
    /// How often each was amended this year.
    amended: BTreeMap<Name, u32>,
    /// The last accepted call was an amendment that changed its part.
    just_amended: bool,
}

impl Met {
    fn of(kind: Kind, seeds: Range<u64>) -> Self {
        let mut met = Met::default();
        each_call(kind, seeds, |book, call, answer| {
            met.see(book, call, answer)
        });
        met
    }

    fn see(&mut self, book: &Book, call: &Call, answer: Answer) {
        match (call, answer) {
            (Call::File(c), Ok(_)) => {
                self.this_year.insert(name(c));
                self.just_amended = false;
            }
            (Call::File(c), Err(refusal)) => {
                let again = refusal.number() == 9 && self.amended.contains_key(&name(c));
                self.times.meet("filed again once amended", again);
            }
            (Call::Amend(c), Ok(Results::Filed { part, .. })) => self.accept(book, c, part),
            (Call::Amend(c), Err(refusal)) => self.refuse(book, c, refusal.number()),
            (Call::Close { .. }, Ok(_)) => {
                self.times.meet("just before a close", self.just_amended);
                self.last_year = std::mem::take(&mut self.this_year);
                self.amended.clear();
                self.just_amended = false;
            }
            _ => {}
        }
    }

    fn accept(&mut self, book: &Book, c: &Filing, part: Part) {
        let before = filed_part(book, c).expect("a family that is filed");
        self.just_amended = part != before;
        self.times.meet("accepted", true);
        self.times.meet("part to 0", part.0 == 0 && before.0 != 0);
        self.times.meet("part from 0", part.0 != 0 && before.0 == 0);
        self.times
            .meet("part to below 0", part.0 < 0 && before.0 > 0);
        self.times
            .meet("part to above 0", part.0 > 0 && before.0 < 0);
        self.times.meet("part the same", part == before);
        self.times.meet("part larger", part > before);
        self.times.meet("part smaller", part < before);
        self.times.meet(format!("edition {}", c.edition), true);
        let times = self.amended.entry(name(c)).or_default();
        *times += 1;
        let times = *times;
        self.times.meet("second time", times == 2);
        self.times.meet("fifth time", times == 5);
    }

    fn refuse(&mut self, book: &Book, c: &Filing, number: u8) {
        let filed = filed_part(book, c).is_some();
        self.times.meet(format!("{number}"), true);
        self.times.meet(format!("{number}, not filed"), !filed);
        self.times.meet(format!("{number}, filed"), filed);
        let (family, figures) = (c.family > 63, !c.figures.within_limits());
        self.times
            .meet(format!("{number}, number above 63"), family);
        self.times
            .meet(format!("{number}, outside limits"), figures);
        if number == 18 {
            let elsewhere = (0..CELLS).any(|cell| book.marks[cell] >> c.family & 1 == 1);
            let own = book.marks[cell(c.maker as usize, c.set as usize)] != 0;
            self.times
                .meet("18, filed last year", self.last_year.contains(&name(c)));
            self.times.meet("18, number of another cell", elsewhere);
            self.times.meet("18, cell has others", own);
        }
        let late = number == 5 && self.last_year.contains(&name(c)) && c.year + 1 == book.open_year;
        self.times.meet("5, filed last year", late);
        self.times
            .meet("5, all closed", number == 5 && book.open_year == 2038);
    }
}

#[test]
fn sessions_amend_families_in_every_way() {
    for (kind, seeds, least) in [
        (Kind::Years, 0..8, 40),
        (Kind::Hostile, 0..8, 40),
        (Kind::Mixed, 0..8, 40),
        (Kind::Bench, 0..1, 100),
    ] {
        let met = Met::of(kind, seeds);
        met.times.hold(25 * least, &["accepted"]);
        let ways = [
            "part to 0",
            "part from 0",
            "part to below 0",
            "part to above 0",
            "part the same",
            "part smaller",
            "part larger",
            "edition 0",
            "edition 1",
            "edition 2",
            "second time",
            "filed again once amended",
        ];
        met.times.hold(least, &ways);
        let closes = if kind == Kind::Bench { 5 } else { 40 };
        met.times.hold(closes, &["just before a close"]);
        met.times.hold(10, &["fifth time"]);
    }
}

#[test]
fn sessions_amend_what_isnt_filed() {
    let by_neglect = [
        "18",
        "18, filed last year",
        "18, number of another cell",
        "18, cell has others",
    ];
    for kind in [Kind::Years, Kind::Hostile, Kind::Mixed] {
        Met::of(kind, 0..8).times.hold(30, &by_neglect);
    }
    Met::of(Kind::Years, 0..8).times.hold(5, &["5, all closed"]);
}

/// Alone, and with another refusal that comes later and must not answer.
#[test]
fn sessions_meet_every_refusal_of_an_amendment() {
    for (kind, least) in [(Kind::Hostile, 20), (Kind::Mixed, 6)] {
        let met = Met::of(kind, 0..8);
        met.times.hold(
            3 * least,
            &["5, filed", "6, filed", "17, filed", "8, filed"],
        );
        met.times.hold(3 * least, &["3", "4", "5, filed last year"]);
        for number in ["5", "6", "17", "8"] {
            met.times.hold(least, &[&format!("{number}, not filed")]);
        }
        for number in ["3", "4", "5", "6", "17", "7"] {
            met.times
                .hold(least / 2, &[&format!("{number}, outside limits")]);
        }
        for number in ["4", "5", "6", "17", "7"] {
            met.times
                .hold(least / 2, &[&format!("{number}, number above 63")]);
        }
    }
}

#[test]
fn hostile_sessions_bend_the_amendment() {
    let sessions = (0..8).map(|seed| session(Kind::Hostile, seed, Kind::Hostile.usual_lines()));
    let sessions: Vec<u8> = sessions.flatten().collect();
    let lines = sessions.split(|&byte| byte == b'\n');
    let lines: Vec<&[u8]> = lines.filter(|line| !line.is_empty()).collect();
    let count = |like: &dyn Fn(&[u8]) -> bool| lines.iter().filter(|line| like(line)).count();
    for head in [
        "(amends (",
        "(Amend (",
        "(AMEND (",
        "(amended (",
        "(amend  (",
        "((amend (",
    ] {
        let found = count(&|line| line.starts_with(head.as_bytes()));
        assert!(found >= 4, "{head}: {found}");
    }
    let amend = |line: &[u8]| line.starts_with(b"(amend (maker ");
    let is_form = |line: &[u8]| parse(line).is_some();
    for length in 157..=164 {
        let found = count(&|line| amend(line) && line.len() == length);
        let forms = count(&|line| amend(line) && line.len() == length && is_form(line));
        assert!(found >= 5, "{length}: {found}");
        assert_eq!(forms > 0, length <= 160, "{length}: {forms} forms");
    }
    for field in [
        "maker", "set", "year", "use", "edition", "family", "fcl", "cf", "volume", "life",
    ] {
        let without = |line: &[u8]| !String::from_utf8_lossy(line).contains(&format!("({field} "));
        let spaced = |line: &[u8]| String::from_utf8_lossy(line).contains(&format!("({field}  "));
        let found = (
            count(&|line| line.starts_with(b"(amend (") && without(line)),
            count(&|line| line.starts_with(b"(amend (") && spaced(line)),
        );
        assert!(found.0 >= 4 && found.1 >= 2, "{field}: {found:?}");
    }
}
