//! The paper's marked figures P1 to P12 and its run, as cards 3, 4 and 5
//! restate them.

mod common;

use common::*;
use second::book::Book;
use second::figuring::{is_expired, is_live, is_open, is_overdue, part, rounded, Figures, Part};
use second::text::parse;

const RUN: &str = "\
(file (maker 0) (set 3) (year 2014) (use 1) (edition 0) (family 0) (fcl 465) (cf 280000) (volume 1000) (life 435))
(file (maker 1) (set 3) (year 2014) (use 0) (edition 0) (family 5) (fcl 569) (cf 300000) (volume 100) (life 435))
(close (year 2014))
(trade (from 0) (to 1) (set 3) (vintage 2014) (mg 200))
(apply (maker 1) (set 3) (vintage 2014) (year 2014) (mg 261))
(apply (maker 1) (set 3) (vintage 2014) (year 2014) (mg 200))
(retire (maker 1) (set 3) (vintage 2014) (mg 1))
";

const RUN_OUTPUT: &str = "\
(ok 1218000000000 1)
(ok -26100000000 1)
(ok 1)
(ok 11980)
(no 15)
(ok 0)
(no 13)
(lot 0 3 2014 live 11980)
(short 1 3 2014 open 61)
";

#[test]
fn the_run_of_the_paper() {
    assert_eq!(output(RUN), RUN_OUTPUT);
}

#[test]
fn the_run_in_pieces_and_without_its_last_line_feed() {
    for piece in [1, 2, 3, 7, 64, 100, 1_000] {
        assert_eq!(output_in_pieces(RUN.as_bytes(), piece), RUN_OUTPUT);
    }
    assert_eq!(output(RUN.trim_end()), RUN_OUTPUT);
}

#[test]
fn lines_of_the_run_read_back_as_written() {
    for line in RUN.lines() {
        let call = parse(line.as_bytes()).expect("a form");
        assert_eq!(call.to_string(), line);
    }
}

#[test]
fn p1_spark_ignition() {
    assert_eq!(BUILT_IN.standard(0, 0, 2015), None);
    assert_eq!(BUILT_IN.standard(0, 0, 2016), Some(627));
}

#[test]
fn p2_heavy_tractor() {
    let years = [2016, 2017, 2026, 2027];
    let standards = years.map(|year| BUILT_IN.standard(3, 1, year));
    assert_eq!(standards, [475, 460, 436, 432].map(Some));
}

#[test]
fn p3_and_p4_the_two_parts() {
    let credit = Figures {
        fcl: 465,
        cf: 280_000,
        volume: 1_000,
        life: 435,
    };
    assert_eq!(part(475, &credit), Some(Part(1_218_000_000_000)));
    let debit = Figures {
        fcl: 569,
        cf: 300_000,
        volume: 100,
        life: 435,
    };
    assert_eq!(part(567, &debit), Some(Part(-26_100_000_000)));
}

#[test]
fn p5_and_p6_halves_round_to_the_even_mg() {
    for (sum, mg) in [
        (49_999_999, 0),
        (50_000_000, 0),
        (50_000_001, 1),
        (149_999_999, 1),
        (150_000_000, 2),
        (150_000_001, 2),
        (249_999_999, 2),
        (250_000_000, 2),
        (250_000_001, 3),
    ] {
        assert_eq!(rounded(sum), mg, "{sum}");
        assert_eq!(rounded(-sum), -mg, "-{sum}");
    }
}

#[test]
fn p7_two_parts_are_added_before_they_are_rounded() {
    let mut book = Book::fresh();
    assert_eq!(file(&mut book, 0, 566, 400_000, 100), filed(40_000_000, 1));
    assert_eq!(file(&mut book, 1, 566, 400_000, 100), filed(40_000_000, 2));
    assert_eq!(close(&mut book), closed(0));
    assert_eq!(lot(&book, 0, 3, 2014), 1);
}

#[test]
fn p8_the_life_of_a_vintage() {
    assert!(is_live(2020, 2014) && !is_expired(2020, 2014));
    assert!(!is_live(2021, 2014) && is_expired(2021, 2014));
}

#[test]
fn p9_the_life_of_a_shortage() {
    assert!(is_open(2018, 2014) && !is_overdue(2018, 2014));
    assert!(!is_open(2019, 2014) && is_overdue(2019, 2014));
}

#[test]
fn p10_the_limits_of_the_fcl() {
    let mut book = Book::fresh();
    assert_eq!(file(&mut book, 0, 1_200, 1, 1), filed(-633, 1));
    assert_eq!(refused(file(&mut book, 1, 0, 1, 1)), 8);
    assert_eq!(refused(file(&mut book, 1, 1_201, 1, 1)), 8);
}

#[test]
fn p11_the_last_family() {
    let mut book = Book::fresh();
    assert_eq!(file(&mut book, 63, 566, 1, 1), filed(1, 1));
    assert_eq!(refused(file(&mut book, 64, 566, 1, 1)), 7);
}

#[test]
fn p12_the_last_close() {
    let mut book = Book::fresh();
    close_until(&mut book, 2037);
    assert_eq!(say(&mut book, "(close (year 2037))"), closed(0));
    assert_eq!(book.open_year, 2038);
    assert_eq!(refusal_of(&book, "(close (year 2038))"), 5);
}

#[test]
fn every_standard_of_the_table() {
    let columns = [(1, 0), (2, 0), (3, 0), (2, 1), (3, 1)];
    let rows = [
        (2014..=2016, [600, 600, 567, 502, 475]),
        (2017..=2020, [576, 576, 555, 487, 460]),
        (2021..=2023, [563, 545, 513, 473, 447]),
        (2024..=2026, [555, 538, 506, 461, 436]),
        (2027..=2037, [552, 535, 503, 457, 432]),
    ];
    for (years, standards) in rows {
        for year in years {
            let found = columns.map(|(set, usage)| BUILT_IN.standard(set, usage, year));
            assert_eq!(found, standards.map(Some), "{year}");
            assert_eq!(BUILT_IN.standard(0, 0, year), (year >= 2016).then_some(627));
            for (set, usage) in [(0, 1), (1, 1), (2, 2), (3, 2), (4, 0), (u64::MAX, 0)] {
                assert_eq!(BUILT_IN.standard(set, usage, year), None);
            }
        }
    }
    for year in [0, 2013, 2038, u64::MAX] {
        assert_eq!(BUILT_IN.standard(3, 0, year), None);
    }
}
