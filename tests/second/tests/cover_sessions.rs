//! Card 9: what the generated sessions cover, and what of it is refused.

mod common;

use common::payable::*;
use common::times::*;
use common::*;
use second::book::Book;
use second::covering::oldest_first;
use second::figuring::Mg;
use second::generate::{session, Kind};
use second::postings::{Answer, Application, Call, Cover, Results};
use std::collections::BTreeSet;
use std::ops::Range;

/// How often each thing was met.
#[derive(Default)]
struct Met {
    calls: u32,
    times: Times,
    /// The cover before it was accepted, of this cell.
    last: Option<Cover>,
}

impl Met {
    fn of(kind: Kind, seeds: Range<u64>) -> Self {
        let mut met = Met::default();
        each_call(kind, seeds, |book, call, answer| {
            met.calls += 1;
            match call {
                Call::Cover(cover) => met.see(book, cover, answer),
                _ => met.last = None,
            }
        });
        met
    }

    fn see(&mut self, book: &Book, cover: &Cover, answer: Answer) {
        match answer {
            Ok(Results::Moved(mg)) => {
                self.accept(book, cover, mg);
                self.last = Some(*cover);
            }
            Ok(other) => panic!("{other:?}"),
            Err(refusal) => {
                let number = refusal.number();
                let (maker, set) = (cover.maker > 7, cover.set > 3);
                self.times.meet("3", number == 3);
                self.times.meet("3, the set above too", number == 3 && set);
                self.times
                    .meet("3, far above", number == 3 && cover.maker > 8);
                self.times.meet("4", number == 4);
                self.times
                    .meet("4, far above", number == 4 && cover.set > 4);
                let taken = !maker && cover.maker * 4 + cover.set < 32;
                self.times
                    .meet("4, the number of a cell", number == 4 && taken);
            }
        }
    }

    fn accept(&mut self, book: &Book, cover: &Cover, mg: Mg) {
        let cell = cell_of(cover);
        let (lots, shortages) = (live_lots(book, cell), open_shortages(book, cell));
        let (live, open) = (total(&lots), total(&shortages));
        self.times.meet("accepted", true);
        self.times.meet("moved", mg > Mg(0));
        self.times.meet(
            "again, nothing left",
            self.last == Some(*cover) && mg == Mg(0),
        );
        if mg == Mg(0) {
            self.accept_nothing(book, cell);
            return;
        }
        let first = |figures: &Figures, life| figures[0].0 + life == book.open_year;
        let stays = |years: &[Mg], first: usize| years[..first].iter().any(|&mg| mg > Mg(0));
        let (oldest_lot, oldest) = (lots[0].0 as usize, shortages[0].0 as usize);
        self.times.meet("a lot in its last year", first(&lots, 6));
        self.times
            .meet("a shortage in its last year", first(&shortages, 4));
        self.times
            .meet("an older lot", stays(&book.lots[cell], oldest_lot - 2014));
        let overdue = stays(&book.shortages[cell], oldest - 2014);
        self.times.meet("an older shortage", overdue);
        self.times.meet("lots used up", live < open);
        self.times.meet("shortages used up", live > open);
        self.times.meet("both used up", live == open);
        self.times.meet("in 2038", book.open_year == 2038);
        let (lots, shortages) = (book.lots[cell], book.shortages[cell]);
        let made = oldest_first(cover, book.open_year, lots, shortages);
        let several = |name: fn(&Application) -> u64| {
            let names: BTreeSet<u64> = made.iter().map(name).collect();
            names.len() > 1
        };
        self.times.meet("several lots", several(|c| c.vintage));
        self.times.meet("several shortages", several(|c| c.year));
        self.times
            .meet("a lot older", made.iter().any(|c| c.vintage < c.year));
        self.times
            .meet("a lot younger", made.iter().any(|c| c.vintage > c.year));
    }

    fn accept_nothing(&mut self, book: &Book, cell: usize) {
        let any = |years: &[Mg]| years.iter().any(|&mg| mg > Mg(0));
        let (lots, shortages) = (any(&book.lots[cell]), any(&book.shortages[cell]));
        self.times.meet("nothing, lots alone", lots && !shortages);
        self.times
            .meet("nothing, shortages alone", shortages && !lots);
        self.times
            .meet("nothing, some that stay", lots && shortages);
    }
}

/// One line in twelve to sixteen of an ordinary day, and most of them move
/// something.
#[test]
fn sessions_have_their_share_of_covers() {
    for (kind, seeds) in KINDS {
        let met = Met::of(kind, seeds);
        let (accepted, moved) = (met.times.of("accepted"), met.times.of("moved"));
        let share = met.calls / accepted;
        let usual = match kind {
            Kind::Years | Kind::Bench => 12..=16,
            _ => 8..=20,
        };
        assert!(usual.contains(&share), "{kind}: one in {share}");
        assert!(3 * moved > 2 * accepted, "{kind}: {moved} of {accepted}");
        assert!(moved < accepted);
    }
    for (kind, seeds) in OTHER_KINDS {
        assert_eq!(Met::of(kind, seeds).times.of("accepted"), 0, "{kind}");
    }
}

#[test]
fn sessions_cover_in_every_way() {
    let ways = [
        "several lots",
        "several shortages",
        "a lot older",
        "a lot younger",
        "a lot in its last year",
        "a shortage in its last year",
        "an older lot",
        "an older shortage",
        "lots used up",
        "shortages used up",
        "nothing, lots alone",
        "nothing, shortages alone",
    ];
    for (kind, seeds) in KINDS {
        let met = Met::of(kind, seeds);
        met.times.hold(8, &ways);
        met.times.hold(4, &["nothing, some that stay"]);
        if [Kind::Hostile, Kind::Mixed].contains(&kind) {
            met.times.hold(4, &["again, nothing left", "both used up"]);
        }
    }
    for (kind, seeds) in [(Kind::Years, 0..6), (Kind::Bench, 0..1)] {
        Met::of(kind, seeds).times.hold(40, &["in 2038"]);
    }
}

#[test]
fn sessions_meet_the_refusals_of_a_cover() {
    for (kind, least) in [(Kind::Hostile, 30), (Kind::Mixed, 8)] {
        let met = Met::of(kind, 0..8);
        met.times.hold(2 * least, &["3", "4"]);
        let edges = [
            "3, the set above too",
            "3, far above",
            "4, far above",
            "4, the number of a cell",
        ];
        met.times.hold(least, &edges);
    }
}

#[test]
fn hostile_sessions_bend_the_cover() {
    let sessions = (0..40).map(|seed| session(Kind::Hostile, seed, Kind::Hostile.usual_lines()));
    let sessions: Vec<u8> = sessions.flatten().collect();
    let lines = sessions.split(|&byte| byte == b'\n');
    let lines: Vec<String> = lines
        .map(|line| String::from_utf8_lossy(line).into_owned())
        .collect();
    let hold = |what: &str, like: &dyn Fn(&str) -> bool| {
        let found = lines.iter().filter(|line| like(line)).count();
        assert!(found >= 4, "{what}: {found}");
    };
    for head in [
        "covers", "Cover", "COVER", "covered", "recover", "cover ", "(cover",
    ] {
        hold(head, &|line| line.starts_with(&format!("({head} (maker ")));
    }
    let cover = |line: &str| line.starts_with("(cover (maker ");
    hold("fields in another order", &|line| {
        line.starts_with("(cover (set ")
    });
    for field in ["mg", "vintage", "year"] {
        hold(field, &|line| {
            cover(line) && line.contains(&format!(" ({field} "))
        });
    }
    hold("no field", &|line| line == "(cover)");
    hold("no set", &|line| {
        cover(line) && line.matches('(').count() == 2
    });
    hold("no end", &|line| {
        cover(line) && line.matches(')').count() == 2
    });
    for near in [
        "(cover(maker N) (set N))",
        "(cover (makerN) (set N))",
        "(cover (maker N)(set N))",
        "(cover (maker N) (setN))",
        "(cover  (maker N) (set N))",
        "(cover (maker  N) (set N))",
        "(cover (maker N)  (set N))",
        "(cover (maker N) (set  N))",
    ] {
        hold(near, &|line| {
            line.replace(|byte: char| byte.is_ascii_digit(), "N") == near
        });
    }
    hold("a leading zero", &|line| {
        cover(line) && line.contains("(maker 0") && !line.contains("(maker 0)")
    });
    for number in ["0000000000001", "1000000000000", "9999999999999", ""] {
        hold(number, &|line| {
            cover(line) && line.contains(&format!(" {number})"))
        });
    }
}
