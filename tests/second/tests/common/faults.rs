//! What may be wrong with a filing, and which of several faults answers.

use second::postings::Filing;

/// A fault, and its refusal.
pub type Fault = (fn(&mut Filing), u8);

/// Refusals in the order of the checks; the last are a filing's 9 and an
/// amendment's 18.
const ORDER: [u8; 9] = [3, 4, 5, 6, 17, 7, 8, 9, 18];

/// What may be wrong with a filing of 2014 by any entry, and with an amendment.
const BEFORE_7: [Fault; 12] = [
    (|f| f.maker = 8, 3),
    (|f| f.maker = u64::MAX, 3),
    (|f| f.set = 4, 4),
    (|f| f.set = u64::MAX, 4),
    (|f| f.year = 2013, 5),
    (|f| f.year = 2015, 5),
    (|f| f.year = u64::MAX, 5),
    (|f| f.usage = 2, 6),
    (|f| f.usage = u64::MAX, 6),
    (|f| f.edition = 1, 17),
    (|f| f.edition = 2, 17),
    (|f| f.edition = 3, 17),
];

/// The same of any year.
pub const OF_7_AND_8: [Fault; 10] = [
    (|f| f.family = 64, 7),
    (|f| f.family = u64::MAX, 7),
    (|f| f.figures.fcl = 0, 8),
    (|f| f.figures.fcl = 1_201, 8),
    (|f| f.figures.cf = 0, 8),
    (|f| f.figures.cf = 1_000_001, 8),
    (|f| f.figures.volume = 0, 8),
    (|f| f.figures.volume = 100_001, 8),
    (|f| f.figures.life = 0, 8),
    (|f| f.figures.life = 501, 8),
];

/// These and a form's own, in the order of the checks.
pub fn with_own(own: &[Fault]) -> Vec<Fault> {
    let mut faults = [&BEFORE_7[..], &OF_7_AND_8, own].concat();
    faults.sort_by_key(|&(_, number)| ORDER.iter().position(|&other| other == number));
    faults
}

/// Each fault alone, and with each later one.
pub fn the_first_of_two_answers(faults: &[Fault], right: Filing, gets: impl Fn(Filing) -> u8) {
    for (first, &(break_first, number)) in faults.iter().enumerate() {
        let mut alone = right;
        break_first(&mut alone);
        assert_eq!(gets(alone), number, "{alone:?}");
        for (break_later, _) in &faults[first + 1..] {
            let mut both = right;
            break_later(&mut both);
            break_first(&mut both);
            assert_eq!(gets(both), number, "{both:?}");
        }
    }
}

/// All faults at once, then one less each time.
pub fn the_first_of_all_answers(faults: &[Fault], right: Filing, gets: impl Fn(Filing) -> u8) {
    for (first, &(_, number)) in faults.iter().enumerate() {
        let mut faulty = right;
        for (fault, _) in faults[first..].iter().rev() {
            fault(&mut faulty);
        }
        assert_eq!(gets(faulty), number, "{faulty:?}");
    }
}
