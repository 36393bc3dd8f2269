//! Pairs of limits, numbers and volumes at both sides of them, and how filings
//! by a pair fared.

use second::generate::{books::any, rng::Rng};
use second::limits::Limits;
use second::postings::{Answer, Filing, Refusal};
use std::fmt;

const SMALL: Limits = Limits::SMALL;
const LARGE: Limits = Limits::LARGE;

/// The largest number and the largest volume as a call has them.
#[derive(Clone, Copy, Debug)]
pub struct Pair {
    pub number: u64,
    pub volume: u64,
}

impl Pair {
    /// An entry's pair, one above the large one, 0, one below, or anything; most
    /// often the two of one make, and that the small entry's.
    pub fn drawn(rng: &mut Rng) -> Self {
        let make = rng.below(8).saturating_sub(2);
        let other = match rng.below(3) {
            0 => rng.below(6),
            _ => make,
        };
        Pair {
            number: limit(rng, make, SMALL.number(), LARGE.number()),
            volume: limit(rng, other, SMALL.volume(), LARGE.volume()),
        }
    }

    pub fn limits(self) -> Limits {
        Limits::of(self.number, self.volume)
    }
}

fn limit(rng: &mut Rng, make: u64, small: u64, large: u64) -> u64 {
    match make {
        0 => small,
        1 => large,
        // A narrower type takes some of these for less.
        2 => match rng.below(4) {
            0 => large + 1,
            1 => u64::MAX,
            2 => [1 << 8, 1 << 16, 1 << 32, 1 << 63][rng.index(4)] + small,
            _ => large + rng.between(1, large),
        },
        3 => rng.below(2),
        4 => rng.below(large + 1),
        _ => any(rng),
    }
}

/// A figure at the limit of the pair or one above it, or between the large one
/// and a pair's that is above; most often none of these, but the usual one.
pub fn beside(rng: &mut Rng, usual: u64, pair: u64, large: u64) -> u64 {
    let limit = pair.min(large);
    match rng.below(8) {
        0 => limit,
        1 => limit + 1,
        2 if pair > large => rng.between(large + 1, pair),
        2 => rng.between(limit + 1, large + 1),
        _ => usual,
    }
}

/// Of filings by a pair: accepted, and refused by 7, 8 and 9.
#[derive(Clone, Copy, Default)]
struct Fared([u64; 4]);

impl Fared {
    fn count(&mut self, answer: &Answer) {
        let place = match answer {
            Ok(_) => 0,
            Err(Refusal::Family) => 1,
            Err(Refusal::Limits) => 2,
            Err(Refusal::AlreadyFiled) => 3,
            Err(_) => return,
        };
        self.0[place] += 1;
    }
}

impl fmt::Display for Fared {
    fn fmt(&self, f: &mut fmt::Formatter<'_>) -> fmt::Result {
        let [accepted, by_number, by_volume, again] = self.0;
        write!(f, "{accepted}/{by_number}/{by_volume}/{again}")
    }
}

#[derive(Default)]
pub struct Pairs {
    small: Fared,
    large: Fared,
    /// One or both above the large ones.
    above: Fared,
    /// One or both 0.
    nothing: Fared,
    others: Fared,
    /// Accepted at a limit, and refused one above it: by number, by volume.
    at: [u64; 2],
    one_above: [u64; 2],
    /// Refused above the large limit, and within the pair's own.
    beyond: [u64; 2],
}

impl Pairs {
    pub fn count(&mut self, pair: Pair, filing: &Filing, answer: &Answer) {
        let limits = pair.limits();
        let as_told = limits.number() == pair.number && limits.volume() == pair.volume;
        let fared = match pair {
            _ if !as_told => &mut self.above,
            _ if limits == SMALL => &mut self.small,
            _ if limits == LARGE => &mut self.large,
            Pair { number: 0, .. } | Pair { volume: 0, .. } => &mut self.nothing,
            _ => &mut self.others,
        };
        fared.count(answer);
        let figures = [filing.family, filing.figures.volume];
        let refusals = [Refusal::Family, Refusal::Limits];
        for (place, (most, own)) in [
            (limits.number(), pair.number),
            (limits.volume(), pair.volume),
        ]
        .into_iter()
        .enumerate()
        {
            let figure = figures[place];
            let refused = *answer == Err(refusals[place]);
            self.at[place] += u64::from(answer.is_ok() && figure == most);
            self.one_above[place] += u64::from(refused && figure == most + 1);
            self.beyond[place] += u64::from(refused && figure > most && figure <= own);
        }
    }
}

impl fmt::Display for Pairs {
    fn fmt(&self, f: &mut fmt::Formatter<'_>) -> fmt::Result {
        let Pairs {
            small,
            large,
            above,
            nothing,
            others,
            at,
            one_above,
            beyond,
        } = self;
        write!(
            f,
            "accepted/7/8/9 by the small pair {small}, the large {large}, one above {above}, with a \
             0 {nothing}, another {others}; number, volume at the limit {}, {}, one above it {}, \
             {}, above the large within the pair's {}, {}",
            at[0], at[1], one_above[0], one_above[1], beyond[0], beyond[1]
        )
    }
}

#[cfg(test)]
mod tests {
    use super::*;
    use crate::calls::{call_on, filing_of, pair_of, FILE_BY};
    use second::book::Book;
    use second::postings::file_by;
    use second::standards::Table;

    /// Of 20,000 filings by a pair, on books of a few families.
    fn tallied() -> Pairs {
        let (mut rng, table) = (Rng::new(10), Table::built_in());
        let mut pairs = Pairs::default();
        let mut book = Book::fresh();
        for _ in 0..20_000 {
            let words = call_on(&book, &table, &mut rng, FILE_BY);
            let (pair, filing) = (pair_of(&words).expect("a pair"), filing_of(&words));
            let answer = file_by(&mut book, &table, pair.limits(), &filing);
            pairs.count(pair, &filing, &answer);
            if rng.once_in(200) {
                book = Book::fresh();
            }
        }
        pairs
    }

    #[test]
    fn both_sides_of_every_pair_are_reached() {
        let pairs = tallied();
        for fared in [pairs.small, pairs.large, pairs.above, pairs.others] {
            let [.., again] = fared.0;
            assert!(fared.0[..3].iter().all(|&n| n >= 100), "{pairs}");
            assert!(again >= 50, "{pairs}");
        }
        let [_, by_number, by_volume, _] = pairs.nothing.0;
        assert!(by_number >= 100 && by_volume >= 100, "{pairs}");
        for edges in [pairs.at, pairs.one_above, pairs.beyond] {
            assert!(edges.iter().all(|&n| n >= 100), "{pairs}");
        }
    }
}
