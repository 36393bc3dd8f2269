//! Card 7: which tables are accepted.

mod common;

use common::*;
use second::generate::rng::Rng;
use second::generate::tables::{accepted, Made};
use second::standards::Table;

/// No standard anywhere but in one column.
fn with_column(column: usize, entries: &[u64]) -> Table {
    let mut table = Table([[0; 6]; 24]);
    for (row, &entry) in table.0.iter_mut().zip(entries) {
        row[column] = entry;
    }
    table
}

fn each_place() -> impl Iterator<Item = (usize, usize)> {
    (0..24).flat_map(|year| (0..6).map(move |column| (year, column)))
}

#[test]
fn the_built_in_table_and_an_empty_one_are_accepted() {
    assert!(BUILT_IN.is_accepted());
    assert!(Table([[0; 6]; 24]).is_accepted());
    assert!(Table([[432; 6]; 24]).is_accepted());
    assert!(Table([[769; 6]; 24]).is_accepted());
}

/// Alone in its column, so that nothing rises.
#[test]
fn an_entry_is_0_or_432_to_769() {
    let within = [0, 432, 433, 600, 768, 769];
    let outside = [1, 2, 431, 770, 771, 1_000, 999_999_999_999, u64::MAX];
    // A narrower type takes these for 0, 432 or 769.
    let wide = [8, 16, 32, 63].map(|bits| [0, 432, 769].map(|entry| entry + (1 << bits)));
    for (year, column) in each_place() {
        let alone = |entry| {
            let mut table = Table([[0; 6]; 24]);
            table.0[year][column] = entry;
            table.is_accepted()
        };
        for entry in within {
            assert!(alone(entry), "{year} {column} {entry}");
        }
        for entry in outside.into_iter().chain(wide.into_iter().flatten()) {
            // 432 + 2^8 is a standard as any other.
            let taken = (432..=769).contains(&entry);
            assert_eq!(alone(entry), taken, "{year} {column} {entry}");
        }
    }
}

#[test]
fn a_column_may_fall_and_stay_but_rises_from_0_only() {
    let cases: [(&[u64], bool); 14] = [
        (&[600, 600, 600], true),
        (&[600, 599, 432], true),
        (&[769, 432], true),
        (&[600, 601], false),
        (&[432, 769], false),
        (&[768, 769], false),
        (&[600, 600, 601, 500], false),
        // To none, and back; as high as one likes.
        (&[600, 0, 0], true),
        (&[600, 0, 600], true),
        (&[432, 0, 769, 768], true),
        (&[0, 432, 0, 433, 0, 434], true),
        (&[0, 769], true),
        // From a comeback it must not rise.
        (&[432, 0, 500, 501], false),
        (&[0, 0, 431, 0], false),
    ];
    for (entries, taken) in cases {
        for (column, before) in (0..6).flat_map(|column| [0, 1, 7, 18].map(|n| (column, n))) {
            let mut years = vec![0; before];
            years.extend(entries);
            let table = with_column(column, &years);
            assert_eq!(table.is_accepted(), taken, "{column} {years:?}");
        }
    }
}

#[test]
fn every_rise_from_a_year_to_the_next_is_seen() {
    for column in 0..6 {
        for year in 0..23 {
            let mut entries = [600; 24];
            entries[year + 1] = 601;
            assert!(!with_column(column, &entries).is_accepted());
            // A fall before it, so that the same figures come back.
            entries = [600; 24];
            entries[year] = 599;
            assert!(!with_column(column, &entries).is_accepted());
            entries[year] = 0;
            assert!(with_column(column, &entries).is_accepted());
            entries = [600; 24];
            entries[year + 1..].fill(599);
            assert!(with_column(column, &entries).is_accepted());
        }
    }
}

/// A column is held to itself, and never to the one beside it.
#[test]
fn columns_do_not_hold_one_another() {
    let mut table = Table([[432, 769, 432, 769, 0, 769]; 24]);
    assert!(table.is_accepted());
    table.0[23] = [432, 432, 432, 0, 769, 432];
    assert!(table.is_accepted());
    table.0[23] = [432, 432, 433, 0, 769, 432];
    assert!(!table.is_accepted());
}

#[test]
fn one_entry_of_the_built_in_table_changed() {
    // The year from 2014 on, the column, the figure, whether it is accepted.
    for (year, column, entry, taken) in [
        // Set 0 begins in 2016 with 627: any two years before it, if it falls.
        (1, 0, 627, true),
        (1, 0, 628, true),
        (1, 0, 626, false),
        (0, 0, 500, true),
        (2, 0, 628, true),
        (2, 0, 626, false),
        (23, 0, 626, true),
        (23, 0, 628, false),
        // Set 1 falls in 2017, from 600 to 576.
        (0, 1, 769, true),
        (0, 1, 770, false),
        (2, 1, 576, true),
        (2, 1, 575, false),
        (3, 1, 600, true),
        (3, 1, 601, false),
        (3, 1, 575, false),
        // Heavy tractors end with 432.
        (22, 5, 433, false),
        (23, 5, 433, false),
        (23, 5, 431, false),
        (23, 5, 0, true),
        (13, 5, 433, true),
        (22, 5, 0, true),
    ] {
        let mut table = BUILT_IN.clone();
        table.0[year][column] = entry;
        assert_eq!(
            table.is_accepted(),
            taken,
            "{} {column} {entry}",
            2014 + year
        );
    }
}

/// The card's sentence for one table, column by column.
fn by_words(table: &Table) -> bool {
    (0..6).all(|column| {
        let entries: Vec<u64> = table.0.iter().map(|row| row[column]).collect();
        let limits = entries.iter().all(|&e| e == 0 || (432..=769).contains(&e));
        limits
            && entries
                .windows(2)
                .all(|pair| pair[1] <= pair[0] || pair[0] == 0)
    })
}

#[test]
fn any_table_is_accepted_or_not_by_the_cards_words() {
    let mut rng = Rng::new(7);
    let (mut taken, mut not) = (0, 0);
    for _ in 0..20_000 {
        let table = Made::drawn(&mut rng).table(&mut rng);
        let found = table.is_accepted();
        assert_eq!(found, by_words(&table), "{table}");
        match found {
            true => taken += 1,
            false => not += 1,
        }
    }
    assert!(taken > 10_000 && not > 4_000, "{taken} {not}");
}

#[test]
fn accepted_tables_are_drawn_with_falls_and_comebacks() {
    let mut rng = Rng::new(77);
    let mut met = [0; 7];
    for _ in 0..1_000 {
        let table = accepted(&mut rng);
        assert!(table.is_accepted(), "{table}");
        for column in 0..6 {
            let entries: Vec<u64> = table.0.iter().map(|row| row[column]).collect();
            let pair =
                |like: fn(u64, u64) -> bool| entries.windows(2).any(|pair| like(pair[0], pair[1]));
            let last_before = |at: usize| entries[..at].iter().rfind(|&&e| e != 0).copied();
            let higher = (2..24).any(|at| {
                entries[at - 1] == 0 && last_before(at).is_some_and(|before| entries[at] > before)
            });
            let whats = [
                entries.contains(&432),
                entries.contains(&769),
                entries.iter().all(|&e| e == 0),
                pair(|from, to| to != 0 && to < from),
                pair(|from, to| to == 0 && from != 0),
                pair(|from, to| from == 0 && to != 0),
                higher,
            ];
            for (met, what) in met.iter_mut().zip(whats) {
                *met += u32::from(what);
            }
        }
    }
    assert!(met.iter().all(|&times| times >= 200), "{met:?}");
}
