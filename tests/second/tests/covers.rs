//! Card 9: the oldest open shortage is paid from the oldest live lot until
//! either kind is used up.

mod common;

use common::payable::*;
use common::*;
use second::book::{cell, Book, SHORTAGE_LIMIT};
use second::covering::oldest_first;
use second::figuring::{Mg, Part};
use second::generate::rng::Rng;
use second::postings::{Call, Cover};

/// Years and Mg of maker 2 in set 1.
type Years<'a> = &'a [(usize, u64)];

fn of_one_cell(open_year: u64, lots: Years, shortages: Years) -> Book {
    let placed = |years: Years| -> Vec<_> {
        let years = years.iter();
        years.map(|&(year, mg)| (2, 1, year, mg)).collect()
    };
    book(open_year, &placed(lots), &placed(shortages))
}

/// Covers maker 2 in set 1, which must leave this.
fn leaves(open_year: u64, before: [Years; 2], mg: u64, after: [Years; 2]) {
    let mut book = of_one_cell(open_year, before[0], before[1]);
    assert_eq!(cover(&mut book, 2, 1), moved(mg), "{before:?}");
    let expected = of_one_cell(open_year, after[0], after[1]);
    assert!(book == expected, "{before:?}: not {after:?}");
}

#[test]
fn the_oldest_lot_pays_first() {
    let lots: Years = &[(2015, 10), (2017, 10), (2019, 10)];
    leaves(
        2020,
        [lots, &[(2018, 4)]],
        4,
        [&[(2015, 6), (2017, 10), (2019, 10)], &[]],
    );
    leaves(
        2020,
        [lots, &[(2018, 12)]],
        12,
        [&[(2017, 8), (2019, 10)], &[]],
    );
    leaves(2020, [lots, &[(2018, 29)]], 29, [&[(2019, 1)], &[]]);
}

#[test]
fn the_oldest_shortage_is_paid_first() {
    let shortages: Years = &[(2016, 10), (2018, 10), (2019, 10)];
    leaves(
        2020,
        [&[(2017, 4)], shortages],
        4,
        [&[], &[(2016, 6), (2018, 10), (2019, 10)]],
    );
    leaves(
        2020,
        [&[(2017, 12)], shortages],
        12,
        [&[], &[(2018, 8), (2019, 10)]],
    );
    leaves(2020, [&[(2017, 29)], shortages], 29, [&[], &[(2019, 1)]]);
}

#[test]
fn several_lots_pay_one_shortage() {
    let lots: Years = &[(2014, 1), (2015, 2), (2016, 3), (2017, 4), (2018, 5)];
    leaves(2019, [lots, &[(2018, 13)]], 13, [&[(2018, 2)], &[]]);
    leaves(2019, [lots, &[(2015, 15)]], 15, [&[], &[]]);
    leaves(2019, [lots, &[(2015, 16)]], 15, [&[], &[(2015, 1)]]);
}

#[test]
fn one_lot_pays_several_shortages() {
    let shortages: Years = &[(2015, 1), (2016, 2), (2017, 3), (2018, 4)];
    leaves(2019, [&[(2018, 8)], shortages], 8, [&[], &[(2018, 2)]]);
    leaves(2019, [&[(2014, 10)], shortages], 10, [&[], &[]]);
    leaves(2019, [&[(2014, 11)], shortages], 10, [&[(2014, 1)], &[]]);
}

/// Where a lot and a shortage end together, the next of both go on.
#[test]
fn lots_and_shortages_that_end_together() {
    let (lots, shortages): (Years, Years) = (
        &[(2015, 3), (2016, 5), (2017, 7)],
        &[(2016, 3), (2017, 5), (2018, 7)],
    );
    leaves(2019, [lots, shortages], 15, [&[], &[]]);
    leaves(
        2019,
        [lots, &[(2016, 8), (2018, 1)]],
        9,
        [&[(2017, 6)], &[]],
    );
    leaves(
        2019,
        [&[(2015, 3), (2016, 6)], shortages],
        9,
        [&[], &[(2018, 6)]],
    );
}

#[test]
fn a_shortage_is_paid_by_its_own_year_and_by_younger_lots() {
    leaves(2019, [&[(2018, 9)], &[(2015, 9)]], 9, [&[], &[]]);
    leaves(2019, [&[(2018, 9)], &[(2018, 8)]], 8, [&[(2018, 1)], &[]]);
}

#[test]
fn nothing_to_move_is_no_refusal() {
    let lots: Years = &[(2015, 3), (2018, 4)];
    leaves(2019, [&[], &[]], 0, [&[], &[]]);
    leaves(2019, [lots, &[]], 0, [lots, &[]]);
    leaves(2019, [&[], lots], 0, [&[], lots]);
    let mut fresh = Book::fresh();
    assert_eq!(cover(&mut fresh, 7, 3), moved(0));
    assert!(fresh == Book::fresh());
}

/// For every lot and shortage of any open year, alone: something is moved where
/// both can be.
#[test]
fn expired_lots_and_overdue_shortages_stay() {
    for open_year in 2015..=2038 {
        for vintage in 2014..open_year as usize {
            for year in 2014..open_year as usize {
                let live = open_year <= vintage as u64 + 6;
                let open = open_year <= year as u64 + 4;
                let both: [Years; 2] = [&[(vintage, 5)], &[(year, 3)]];
                if live && open {
                    leaves(open_year, both, 3, [&[(vintage, 2)], &[]]);
                } else {
                    leaves(open_year, both, 0, both);
                }
            }
        }
    }
}

#[test]
fn what_is_older_and_stays_is_passed_over() {
    // In 2022 vintages from 2016 on are live, and shortages from 2018 on open.
    let lots: Years = &[(2014, 100), (2015, 100), (2016, 2), (2021, 5)];
    let shortages: Years = &[(2015, 100), (2017, 100), (2018, 3), (2021, 9)];
    leaves(
        2022,
        [lots, shortages],
        7,
        [
            &[(2014, 100), (2015, 100)],
            &[(2015, 100), (2017, 100), (2021, 5)],
        ],
    );
}

#[test]
fn all_years_closed_does_not_stop_it() {
    let mut book = of_one_cell(
        2038,
        &[(2031, 50), (2032, 5), (2037, 5)],
        &[(2033, 50), (2034, 7), (2037, 2)],
    );
    // Families of 2038 stay too.
    book.marks[cell(2, 1)] = 1 << 5;
    book.parts[cell(2, 1)][5] = Part(-7);
    let families = (book.marks, book.parts);
    assert_eq!(cover(&mut book, 2, 1), moved(9));
    assert_eq!(live_lots(&book, cell(2, 1)), [(2037, 1)]);
    assert_eq!(open_shortages(&book, cell(2, 1)), []);
    assert_eq!(lot(&book, 2, 1, 2031), 50);
    assert_eq!(shortage(&book, 2, 1, 2033), 50);
    assert!(families == (book.marks, book.parts));
    assert_eq!(book.open_year, 2038);
}

#[test]
fn the_largest_figures() {
    let lots: Vec<_> = (2032..2038).map(|year| (year, 200_000_000_000)).collect();
    let shortages: Vec<_> = (2034..2038).map(|year| (year, SHORTAGE_LIMIT.0)).collect();
    let left: Vec<_> = [(2032, 100_000_000_000)]
        .into_iter()
        .chain(lots[1..].iter().copied())
        .collect();
    leaves(2038, [&lots, &shortages], 100_000_000_000, [&left, &[]]);
}

#[test]
fn another_cell_is_not_touched() {
    let figures = [(0, 1), (2, 0), (2, 1), (2, 2), (3, 1), (7, 3)];
    let placed = |year, mg| figures.map(|(maker, set)| (maker, set, year, mg));
    let before = book(2018, &placed(2015, 10), &placed(2016, 4));
    for (maker, set) in figures {
        let mut after = before.clone();
        assert_eq!(cover(&mut after, maker as u64, set as u64), moved(4));
        let mut expected = before.clone();
        expected.lots[cell(maker, set)][1] = Mg(6);
        expected.shortages[cell(maker, set)][2] = Mg(0);
        assert!(after == expected, "{maker} {set}");
    }
}

#[test]
fn a_second_cover_has_nothing_to_move() {
    let mut rng = Rng::new(91);
    for _ in 0..40 {
        let mut book = many(&mut rng);
        for (maker, set) in (0..8).flat_map(|maker| (0..4).map(move |set| (maker, set))) {
            cover(&mut book, maker, set).expect("accepted");
            let once = book.clone();
            assert_eq!(cover(&mut book, maker, set), moved(0));
            assert!(book == once);
        }
    }
}

/// Refusal 13 looks at what a cover left.
#[test]
fn a_cover_frees_the_seller_unless_a_shortage_is_left() {
    let trade = "(trade (from 2) (to 0) (set 1) (vintage 2018) (mg 1))";
    for (shortages, sells) in [
        (&[(2018, 7)][..], true),
        (&[(2018, 10)], false),
        (&[(2014, 1), (2018, 7)], false),
    ] {
        let mut book = of_one_cell(2019, &[(2018, 9)], shortages);
        assert_eq!(refusal_of(&book, trade), 13);
        cover(&mut book, 2, 1).expect("accepted");
        if sells {
            assert_eq!(say(&mut book, trade), left(1));
        } else {
            assert_eq!(refusal_of(&book, trade), 13);
        }
    }
}

/// The paper's words once more, by sums: the Mg moved are the smaller total,
/// each lot gives what the older ones leave of them, and each shortage takes
/// likewise.
fn after_by_sums(figures: &Figures, moved: u64) -> Figures {
    let mut rest = moved;
    let mut after = Vec::new();
    for &(year, mg) in figures {
        let taken = mg.min(rest);
        rest -= taken;
        if mg > taken {
            after.push((year, mg - taken));
        }
    }
    after
}

#[test]
fn covers_of_any_books() {
    let mut rng = Rng::new(9);
    let mut met = [0; 5];
    for _ in 0..400 {
        let before = many(&mut rng);
        let (maker, set) = (rng.below(8), rng.below(4));
        let covered = Cover { maker, set };
        let cell = cell_of(&covered);
        let (lots, shortages) = (live_lots(&before, cell), open_shortages(&before, cell));
        let mg = total(&lots).min(total(&shortages));
        let mut after = before.clone();
        assert_eq!(cover(&mut after, maker, set), moved(mg));
        assert_eq!(live_lots(&after, cell), after_by_sums(&lots, mg));
        assert_eq!(open_shortages(&after, cell), after_by_sums(&shortages, mg));
        assert!(after.is_sound());

        // By themselves its applications are accepted, and leave the same book.
        let (lots, shortages) = (before.lots[cell], before.shortages[cell]);
        let made = oldest_first(&covered, before.open_year, lots, shortages);
        let mut alone = before.clone();
        for application in &made {
            post(&mut alone, &Call::Apply(*application)).expect("accepted");
        }
        assert!(alone == after);
        assert_eq!(made.iter().map(|c| c.mg).sum::<u64>(), mg);

        met[0] += u32::from(mg > 0);
        met[1] += u32::from(made.len() > 3);
        met[2] += u32::from(live_lots(&after, cell).is_empty() && mg > 0);
        met[3] += u32::from(open_shortages(&after, cell).is_empty() && mg > 0);
        met[4] += u32::from(before.open_year == 2038 && mg > 0);
    }
    assert!(met.iter().all(|&n| n >= 40), "{met:?}");
}
