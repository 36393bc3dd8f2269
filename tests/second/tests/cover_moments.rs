//! Card 9: when covers come in the generated sessions: after which call of the
//! same cell, how near to the ends of lives, and in books of which open year.

mod common;

use common::payable::*;
use common::times::Times;
use common::*;
use second::book::{Book, CELLS, SETS};
use second::covering::oldest_first;
use second::figuring::Mg;
use second::generate::rng::Rng;
use second::generate::{session_on, Kind};
use second::postings::{Answer, Application, Call, Cover, Results};

/// The cells that a call names, and what it is to them.
fn roles(call: &Call) -> Vec<(usize, &'static str)> {
    let one = |maker: u64, set: u64, role| vec![(maker as usize * SETS + set as usize, role)];
    match call {
        Call::File(c) | Call::Small(c) => one(c.maker, c.set, "a filing"),
        Call::Amend(c) => one(c.maker, c.set, "an amendment"),
        Call::Close { .. } => (0..CELLS).map(|cell| (cell, "a close")).collect(),
        Call::Trade(c) => [one(c.from, c.set, "a sale"), one(c.to, c.set, "a purchase")].concat(),
        Call::Apply(c) => one(c.maker, c.set, "an application"),
        Call::Retire(c) => one(c.maker, c.set, "a retirement"),
        Call::Cover(c) => one(c.maker, c.set, "a cover"),
    }
}

#[derive(Default)]
struct Met {
    times: Times,
    /// Of each cell the accepted call before.
    last: [&'static str; CELLS],
}

impl Met {
    fn of(kind: Kind, seeds: u64) -> Times {
        let mut times = Times::default();
        for seed in 0..seeds {
            let mut met = Met {
                times,
                ..Met::default()
            };
            each_call(kind, seed..seed + 1, |book, call, answer| {
                met.see(book, call, answer)
            });
            times = met.times;
        }
        times
    }

    fn see(&mut self, book: &Book, call: &Call, answer: Answer) {
        match (call, answer) {
            (Call::Cover(cover), Ok(results)) => {
                let moves = results != Results::Moved(Mg(0));
                let way = if moves { "moves" } else { "nothing" };
                let after = self.last[cell_of(cover)];
                self.times.meet(format!("{way} after {after}"), true);
                self.times.meet("in 2014", book.open_year == 2014);
                if moves {
                    self.see_lives(book, cover);
                }
            }
            (Call::Trade(_) | Call::Retire(_), answer) => {
                let covered = roles(call)
                    .first()
                    .is_some_and(|&(cell, _)| self.last.get(cell) == Some(&"a cover"));
                let short = answer.is_err_and(|refusal| refusal.number() == 13);
                self.times.meet("freed", covered && answer.is_ok());
                self.times.meet("not freed", covered && short);
            }
            _ => {}
        }
        if answer.is_ok() {
            for (cell, role) in roles(call) {
                self.last[cell] = role;
            }
        }
    }

    /// What ended with the last close, and what the payments join.
    fn see_lives(&mut self, book: &Book, cover: &Cover) {
        let cell = cell_of(cover);
        let year_ago = |figures: &[Mg; 24], life: u64| {
            let index = book.open_year.checked_sub(2014 + life + 1);
            index.is_some_and(|index| figures[index as usize] > Mg(0))
        };
        let (lots, shortages) = (book.lots[cell], book.shortages[cell]);
        let ended = [year_ago(&lots, 6), year_ago(&shortages, 4)];
        self.times.meet("a lot has just expired", ended[0]);
        self.times.meet("a shortage is just overdue", ended[1]);
        let made = oldest_first(cover, book.open_year, lots, shortages);
        let any = |way: fn(&Application) -> bool| made.iter().any(way);
        let oldest = any(|c| c.year == c.vintage + 5);
        let youngest = any(|c| c.vintage == c.year + 3);
        self.times.meet("a lot five years older", oldest);
        self.times.meet("a lot three years younger", youngest);
        let next = |way: fn(&Application, &Application) -> bool| {
            made.windows(2).any(|two| way(&two[0], &two[1]))
        };
        let in_a_shortage = next(|one, other| one.year == other.year);
        let in_a_lot = next(|one, other| one.vintage == other.vintage);
        self.times.meet("a lot ends in a shortage", in_a_shortage);
        self.times.meet("a shortage ends in a lot", in_a_lot);
        self.times.meet("both", in_a_shortage && in_a_lot);
    }
}

#[test]
fn covers_come_after_every_call_and_at_the_ends_of_lives() {
    for (kind, seeds) in [(Kind::Years, 6), (Kind::Mixed, 8), (Kind::Hostile, 8)] {
        let times = Met::of(kind, seeds);
        let often = [
            "moves after a purchase",
            "moves after an application",
            "moves after a filing",
            "moves after an amendment",
            "moves after a close",
            "nothing after a sale",
            "nothing after a close",
            "nothing after a cover",
            "a lot has just expired",
            "a shortage is just overdue",
            "a lot five years older",
            "a lot three years younger",
            "a lot ends in a shortage",
            "a shortage ends in a lot",
            "both",
            "freed",
            "not freed",
        ];
        times.hold(5, &often);
        times.hold(1, &["nothing after a retirement", "in 2014"]);
        // After another cover, or a sale or a retirement, which a shortage
        // stops, nothing is left to move.
        for call in ["a cover", "a sale", "a retirement"] {
            assert_eq!(times.of(&format!("moves after {call}")), 0, "{kind}");
        }
    }
}

/// Begun with books of each open year that has years before it, with every claim
/// held.
#[test]
fn covers_come_in_books_of_every_open_year() {
    let mut rng = Rng::new(2014);
    let mut times = Times::default();
    for seed in 0..3_000 {
        let book = many(&mut rng);
        let kind = [Kind::Years, Kind::Hostile, Kind::Mixed][rng.index(3)];
        let input = session_on(&book, &BUILT_IN, kind, seed, 60);
        output_begun(book.clone(), &BUILT_IN, &input, 997);
        let mut book = book;
        for call in any::calls(&input) {
            let year = book.open_year;
            if let (Call::Cover(_), Ok(results)) = (call, post(&mut book, &call)) {
                times.meet(year.to_string(), results != Results::Moved(Mg(0)));
            }
        }
    }
    for year in 2015..=2038 {
        times.hold(3, &[&year.to_string()]);
    }
}
