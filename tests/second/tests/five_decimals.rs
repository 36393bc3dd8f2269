//! Card 4: CF has five decimals, and the Mg of every old figure are the same
//! once its CF is multiplied by 10.

mod common;

use common::*;
use second::book::{Book, PART_LIMIT};
use second::figuring::{part, rounded, Figures, Part};
use second::generate::rng::Rng;
use second::postings::{Answer, Call, Filing};
use std::collections::BTreeMap;

/// Heavy vocational engines, 2014.
const STANDARD: u64 = 567;

/// A part before card 4, in units of 10^-7 Mg: CF counted ten-thousandths, 1 to
/// 100,000. None where a figure is outside its limits.
fn old_part(standard: u64, old: &Figures) -> Option<i128> {
    let figures = [old.fcl, old.cf, old.volume, old.life];
    let limits = [1_200, 100_000, 100_000, 500];
    let mut each = figures.iter().zip(limits);
    let within = each.all(|(&figure, most)| figure > 0 && figure <= most);
    let [fcl, cf, volume, life] = figures.map(i128::from);
    within.then(|| (i128::from(standard) - fcl) * cf * volume * life)
}

/// The Mg that lie nearest to a sum of these; of two equally near, the even.
fn old_mg(sum: i128) -> i128 {
    let about = sum / 10_000_000;
    (about - 1..=about + 1)
        .min_by_key(|mg| ((sum - mg * 10_000_000).abs(), mg % 2 != 0))
        .expect("three to choose from")
}

fn restated(old: &Figures) -> Figures {
    Figures {
        cf: old.cf * 10,
        ..*old
    }
}

/// A figure of 1 to `most`, now and then at an end, one step outside or far
/// from it.
fn figure(rng: &mut Rng, most: u64) -> u64 {
    match rng.below(24) {
        0 => 0,
        1 => 1,
        2 => most,
        3 => most + 1,
        // Ten times this is still a number of 64 bits.
        4 => rng.draw() / 10,
        _ => rng.between(1, most),
    }
}

#[test]
fn restated_families_have_ten_times_the_part_or_none() {
    let mut rng = Rng::new(4);
    let (mut taken, mut refused) = (0, 0);
    for _ in 0..20_000 {
        let old = Figures {
            fcl: figure(&mut rng, 1_200),
            cf: figure(&mut rng, 100_000),
            volume: figure(&mut rng, 100_000),
            life: figure(&mut rng, 500),
        };
        let standard = rng.between(432, 769);
        let ten_times = old_part(standard, &old).map(|part| 10 * part);
        let found = part(standard, &restated(&old)).map(|part| i128::from(part.0));
        assert_eq!(found, ten_times, "{standard} {old:?}");
        match found {
            Some(part) => {
                assert!(part.unsigned_abs() <= u128::from(PART_LIMIT), "{part}");
                taken += 1;
            }
            None => refused += 1,
        }
    }
    assert!(taken > 10_000 && refused > 5_000, "{taken} {refused}");
}

/// Families within the old limits, their parts large, or small and few.
fn old_families(rng: &mut Rng) -> Vec<Figures> {
    let (families, volume, life) = match rng.below(3) {
        0 => (3, 9, 3),
        _ => (62, 100_000, 500),
    };
    let families = 0..rng.between(0, families);
    let drawn = families.map(|_| Figures {
        fcl: rng.between(1, 1_200),
        cf: rng.between(1, 100_000),
        volume: rng.between(1, volume),
        life: rng.between(1, life),
    });
    drawn.collect()
}

fn old_sum(families: &[Figures]) -> i128 {
    let parts = families.iter().map(|old| old_part(STANDARD, old));
    parts.map(|part| part.expect("within the limits")).sum()
}

/// Adds up to two families so that the old sum comes to a half of an even or
/// of an odd Mg, or to one old unit beside it.
fn land_on_an_old_half(rng: &mut Rng, families: &mut Vec<Figures>) {
    let half = [5_000_000, 15_000_000, -5_000_000, -15_000_000][rng.index(4)];
    let beside = [-1, 0, 1][rng.index(3)];
    let missing = half + beside - old_sum(families) % 20_000_000;
    let size = missing.unsigned_abs() as u64;
    for (cf, volume) in [(100_000, size / 100_000), (size % 100_000, 1)] {
        if cf > 0 && volume > 0 {
            families.push(Figures {
                fcl: (i128::from(STANDARD) - missing.signum()) as u64,
                cf,
                volume,
                life: 1,
            });
        }
    }
}

/// The Mg of a cell that closes with these families, a shortage below 0.
fn closed_mg(families: &[Figures]) -> i128 {
    let mut book = Book::fresh();
    for (family, &figures) in (0..).zip(families) {
        let filing = Filing {
            figures,
            ..plain(family, 567)
        };
        post(&mut book, &Call::File(filing)).expect("accepted");
    }
    close(&mut book).expect("accepted");
    i128::from(lot(&book, 0, 3, 2014)) - i128::from(shortage(&book, 0, 3, 2014))
}

#[test]
fn restated_families_close_with_the_same_mg() {
    let mut rng = Rng::new(44);
    let mut reached = BTreeMap::new();
    for _ in 0..3_000 {
        let mut old = old_families(&mut rng);
        if !rng.once_in(4) {
            land_on_an_old_half(&mut rng, &mut old);
        }
        let sum = old_sum(&old);
        let new: Vec<Figures> = old.iter().map(restated).collect();
        let parts = new.iter().filter_map(|figures| part(STANDARD, figures));
        let new_sum = parts.map(|part| i128::from(part.0)).sum();
        assert_eq!(rounded(new_sum), old_mg(sum), "{sum}");
        assert_eq!(closed_mg(&new), old_mg(sum), "{sum}");
        *reached.entry(sum % 20_000_000).or_insert(0) += 1;
    }
    // Each half, on both sides of zero, and what lies beside it.
    for half in [5_000_000, 15_000_000, -5_000_000, -15_000_000] {
        for sum in half - 1..=half + 1 {
            let found = reached.get(&sum).copied().unwrap_or(0);
            assert!(found >= 100, "{sum}: {found}");
        }
    }
}

fn file_with(book: &mut Book, cf: u64) -> Answer {
    let family = book.filed(3);
    file(book, family, 566, cf, 1)
}

#[test]
fn cf_is_1_to_1_000_000() {
    let mut book = Book::fresh();
    for cf in [0, 1_000_001, 1_000_010, 10_000_000, 999_999_999_999] {
        assert_eq!(refused(file_with(&mut book, cf)), 8, "{cf}");
    }
    let taken = [1, 9, 10, 123_457, 100_000, 100_001, 999_999, 1_000_000];
    for (count, cf) in (1..).zip(taken) {
        assert_eq!(file_with(&mut book, cf as u64), filed(cf, count));
    }
}

#[test]
fn one_family_beside_a_half() {
    for (cf, volume, units, mg) in [
        (310_559, 161, 49_999_999, 0),
        (877_193, 57, 50_000_001, 1),
        (116_189, 1_291, 149_999_999, 1),
        (148_721, 1_681, 250_000_001, 3),
    ] {
        for sign in [1, -1] {
            let family = Figures {
                fcl: (STANDARD as i64 - sign) as u64,
                cf,
                volume,
                life: 1,
            };
            assert_eq!(part(STANDARD, &family), Some(Part(sign * units)));
            assert_eq!(closed_mg(&[family]), i128::from(sign) * mg);
        }
    }
}
