//! Card 9: for every vintage, what remains in lots of that vintage or younger
//! is at least what any other list of that maker's applications in that set,
//! begun on the same book, leaves, if it covers as many Mg.

mod common;

use common::payable::{applied, cell_of, live_lots, many, open_shortages};
use common::rivals::{or_younger, Rival};
use common::*;
use second::book::{Book, MAKERS, SETS};
use second::generate::book_texts::some_book;
use second::generate::rng::Rng;
use second::postings::{Cover, Results};

/// How the rivals fared.
#[derive(Debug, Default)]
struct Met {
    rivals: u32,
    /// Covering fewer Mg: nothing is said of them.
    fewer: u32,
    as_many: u32,
    /// Of these: with less left of some vintage or younger, with refused
    /// applications, on a book of 2038, with lots used up.
    less_left: u32,
    refused: u32,
    all_closed: u32,
    lots_used_up: u32,
}

impl Met {
    fn hold(&mut self, before: &Book, cover: Cover, rivals: usize, rng: &mut Rng) {
        let cell = cell_of(&cover);
        let mut after = before.clone();
        let answer = common::cover(&mut after, cover.maker, cover.set);
        let Ok(Results::Moved(moved)) = answer else {
            panic!("{answer:?}");
        };
        let ours = or_younger(&after, cell);
        for _ in 0..rivals {
            let rival = Rival::drawn(before, cover, cell, rng);
            let theirs = or_younger(&rival.book, cell);
            let covered = rival.covered;
            assert!(covered <= moved.0, "{covered} of {moved}: {:?}", rival.list);
            self.rivals += 1;
            if covered < moved.0 {
                self.fewer += 1;
                continue;
            }
            for (year, (our, their)) in (2014..).zip(ours.iter().zip(&theirs)) {
                assert!(our >= their, "{year} or younger: {:?}", rival.list);
            }
            self.as_many += 1;
            self.less_left += u32::from(theirs != ours);
            self.refused += u32::from(rival.refused > 0);
            self.all_closed += u32::from(before.open_year == 2038);
            self.lots_used_up += u32::from(moved.0 > 0 && live_lots(&after, cell).is_empty());
        }
    }
}

/// A cell in which a cover has a choice: several lots, and something to pay.
fn with_a_choice(book: &Book, rng: &mut Rng) -> Option<Cover> {
    (0..200).find_map(|_| {
        let cover = Cover {
            maker: rng.below(MAKERS as u64),
            set: rng.below(SETS as u64),
        };
        let cell = cell_of(&cover);
        let lots = live_lots(book, cell);
        (lots.len() > 1 && !open_shortages(book, cell).is_empty()).then_some(cover)
    })
}

#[test]
fn no_rival_leaves_more_of_a_vintage_or_younger() {
    let mut rng = Rng::new(1036);
    let mut met = Met::default();
    for _ in 0..1_500 {
        let book = many(&mut rng);
        if let Some(cover) = with_a_choice(&book, &mut rng) {
            met.hold(&book, cover, 12, &mut rng);
        }
    }
    let Met {
        rivals,
        fewer,
        as_many,
        less_left,
        refused,
        all_closed,
        lots_used_up,
    } = met;
    let found = [rivals, fewer, as_many, less_left];
    let enough = found.iter().zip([15_000, 1_000, 12_000, 5_000]);
    assert!(enough.into_iter().all(|(&n, least)| n >= least), "{met:?}");
    let others = [refused, all_closed, lots_used_up];
    assert!(others.iter().all(|&n| n >= 2_000), "{met:?}");
}

/// Any cell of any sound book, those with nothing to move among them.
#[test]
fn nor_in_any_cell_of_any_book() {
    let mut rng = Rng::new(740);
    let mut met = Met::default();
    for _ in 0..200 {
        let book = some_book(&mut rng);
        for _ in 0..4 {
            let (maker, set) = (rng.below(8), rng.below(4));
            met.hold(&book, Cover { maker, set }, 2, &mut rng);
        }
    }
    assert!(met.as_many >= 1_000 && met.refused >= 50, "{met:?}");
}

/// Every list of accepted applications there is, in cells with up to 2 Mg a lot
/// and a shortage: refused ones would change nothing.
#[test]
fn nor_any_list_at_all_in_a_small_cell() {
    let cover = Cover { maker: 5, set: 2 };
    let cell = cell_of(&cover);
    let (mut as_many, mut other) = (0, 0);
    for (lots, shortages) in small_cells() {
        let placed = |mgs: &[u64]| -> Vec<_> {
            let years = YEARS.into_iter().zip(mgs);
            years.map(|(year, &mg)| (5, 2, year as usize, mg)).collect()
        };
        let before = book(2019, &placed(&lots), &placed(&shortages));
        let moved = lots.iter().sum::<u64>().min(shortages.iter().sum());
        let mut after = before.clone();
        assert_eq!(common::cover(&mut after, 5, 2), common::moved(moved));
        let ours = or_younger(&after, cell);
        each_list(&before, cover, 0, &mut |rival, covered| {
            assert!(covered <= moved);
            if covered == moved {
                let theirs = or_younger(rival, cell);
                assert!(ours.iter().zip(&theirs).all(|(our, their)| our >= their));
                as_many += 1;
                other += u32::from(rival.lots != after.lots);
            }
        });
    }
    assert!(as_many >= 3_000 && other >= 1_500, "{as_many} {other}");
}

/// The years of the lots; the shortages have the first two.
const YEARS: [u64; 3] = [2015, 2016, 2018];

/// 27 times 9.
fn small_cells() -> impl Iterator<Item = ([u64; 3], [u64; 2])> {
    let numbers = (0..27).flat_map(|lots| (0..9).map(move |shortages| (lots, shortages)));
    numbers.map(|(lots, shortages)| {
        let lots = [lots / 9, lots / 3 % 3, lots % 3];
        (lots, [shortages / 3, shortages % 3])
    })
}

/// Hands over the book after each list, and the Mg that it covers.
fn each_list(book: &Book, cover: Cover, covered: u64, see: &mut impl FnMut(&Book, u64)) {
    see(book, covered);
    for (vintage, year) in YEARS.into_iter().flat_map(|v| [(v, 2015), (v, 2016)]) {
        for mg in 1..=2 {
            let mut after = book.clone();
            if post(&mut after, &applied(&cover, vintage, year, mg)).is_ok() {
                each_list(&after, cover, covered + mg, see);
            }
        }
    }
}
