//! Card 6: an amendment replaces the part of a family that is filed in its cell
//! in the open year.

mod common;

use common::any::*;
use common::*;
use second::book::{cell, Book};
use second::figuring::Part;
use second::postings::{Call, Filing, Refusal};
use std::collections::BTreeSet;

#[test]
fn an_amendment_replaces_the_part_and_nothing_else() {
    let before = two_families();
    for (fcl, mg) in [
        (561, 6),
        (567, 0),
        (570, -3),
        (1_200, -633),
        // A lower level is taken too, and the same one.
        (559, 8),
        (1, 566),
        (560, 7),
    ] {
        let mut after = before.clone();
        assert_eq!(amend(&mut after, plain(5, fcl)), filed(mg * MG, 2));
        let mut expected = before.clone();
        expected.parts[cell(0, 3)][5] = Part(mg * MG);
        assert!(after == expected, "{fcl}");
    }
}

/// A change, and the Mg that the family then has.
type Change = (fn(&mut Filing), i64);

#[test]
fn any_of_the_figures_may_be_amended() {
    let changes: [Change; 8] = [
        (|f| f.usage = 1, 475 - 561),
        (|f| f.figures.cf = 500_000, 3),
        (|f| f.figures.volume = 300, 18),
        (|f| f.figures.life = 500, 3_000),
        (|f| (f.figures.fcl, f.figures.volume) = (568, 1_000), -10),
        (|f| (f.year, f.edition) = (2025, 1), 506 - 561),
        (|f| (f.year, f.edition) = (2025, 2), 510 - 561),
        (|f| (f.year, f.edition, f.usage) = (2025, 2, 1), 442 - 561),
    ];
    for (change, mg) in changes {
        let mut amended = plain(5, 561);
        change(&mut amended);
        let year = amended.year;
        let mut book = book(year, &[], &[]);
        let filing = Filing {
            year,
            ..plain(5, 561)
        };
        post(&mut book, &Call::File(filing)).expect("accepted");
        assert_eq!(amend(&mut book, amended), filed(mg * MG, 1), "{amended:?}");
    }
}

/// The book as if the family were not filed, and whether it is.
fn unfiled(book: &Book, c: &Filing) -> (Book, bool) {
    let mut without = book.clone();
    if c.maker > 7 || c.set > 3 || c.family > 63 {
        return (without, false);
    }
    let (cell, bit) = (cell(c.maker as usize, c.set as usize), 1 << c.family);
    without.marks[cell] &= !bit;
    without.parts[cell][c.family as usize] = Part(0);
    (without, book.marks[cell] & bit != 0)
}

/// An amendment has the answer that a filing of its figures would have had in
/// place of the first, and leaves the book that this would have left.
#[test]
fn an_amendment_is_as_if_its_figures_had_been_filed() {
    let mut reached = BTreeSet::new();
    each_book(6, |book, rng, narrow| {
        let year = match rng.below(24) {
            0 => book.open_year + 1,
            1 => book.open_year - 1,
            2 => rng.draw(),
            _ => book.open_year,
        };
        let amended = any_amendment(rng, book, year, narrow);
        let (mut without, is_filed) = unfiled(book, &amended);
        let (answer, after) = match post(&mut without, &Call::File(amended)) {
            Ok(results) if is_filed => (Ok(results), without),
            Ok(_) => (Err(Refusal::NotFiled), book.clone()),
            Err(refusal) => (Err(refusal), book.clone()),
        };
        assert_eq!(amend(book, amended), answer, "{amended:?}");
        assert!(*book == after, "another book after {amended:?}");
        reached.insert(answer.map(|_| is_filed).map_err(Refusal::number));
    });
    let wanted = (2..=8).chain([17, 18]).map(Err).chain([Ok(true)]);
    assert_eq!(reached, wanted.collect());
}

#[test]
fn a_family_whose_part_is_0_is_filed() {
    let mut book = two_families();
    for _ in 0..2 {
        assert_eq!(amend(&mut book, plain(5, 567)), filed(0, 2));
        let again = Call::File(plain(5, 560)).to_string();
        assert_eq!(refusal_of(&book, &again), 9);
    }
    assert_eq!(amend(&mut book, plain(5, 566)), filed(MG, 2));
    assert_eq!(post(&mut book, &Call::File(plain(6, 567))), filed(0, 3));
    assert_eq!(amend(&mut book, plain(6, 565)), filed(2 * MG, 3));
}

/// Families filed and amended in turn, and what the cell closes with.
#[test]
fn a_close_nets_the_last_figures() {
    let cases: [(&[u64], i64); 9] = [
        (&[560], 9),
        (&[560, 569], 0),
        (&[560, 570], -1),
        (&[570, 560], 9),
        (&[560, 567], 2),
        (&[567, 560], 9),
        (&[560, 560], 9),
        (&[560, 570, 561, 572, 563], 6),
        (&[560, 1_200, 1, 1_200, 1, 568], 1),
    ];
    for (levels, mg) in cases {
        let mut input = format!("{}\n", Call::File(plain(9, 565)));
        let mut expected = format!("(ok {} 1)\n", 2 * MG);
        let forms = [Call::File as fn(Filing) -> Call].into_iter();
        for (form, &fcl) in forms.chain(std::iter::repeat(Call::Amend as _)).zip(levels) {
            input += &format!("{}\n", form(plain(5, fcl)));
            expected += &format!("(ok {} 2)\n", (567 - fcl as i64) * MG);
        }
        input += "(close (year 2014))\n";
        expected += &match mg {
            0 => "(ok 0)\n".into(),
            1.. => format!("(ok 0)\n(lot 0 3 2014 live {mg})\n"),
            _ => format!("(ok 1)\n(short 0 3 2014 open {})\n", -mg),
        };
        assert_eq!(output(&input), expected, "{levels:?}");
    }
}

/// The largest credits of a whole cell become its largest debits.
#[test]
fn a_full_cell_is_amended_to_the_limits() {
    let mut book = book(2027, &[], &[]);
    let largest = |family, usage, fcl| Filing {
        maker: 7,
        set: 3,
        year: 2027,
        usage,
        edition: 0,
        family,
        figures: at_the_limits(fcl),
    };
    for number in 0..64 {
        let lowest = largest(number, 0, 1);
        let answer = post(&mut book, &Call::File(lowest));
        assert_eq!(answer, filed(25_100_000_000_000_000, number + 1));
    }
    for number in 0..64 {
        let highest = largest(number, 1, 1_200);
        assert_eq!(
            amend(&mut book, highest),
            filed(-38_400_000_000_000_000, 64)
        );
        assert!(book.is_sound());
    }
    assert_eq!(close(&mut book), closed(1));
    assert_eq!(lot(&book, 7, 3, 2027), 0);
    assert_eq!(shortage(&book, 7, 3, 2027), 24_576_000_000);
}
