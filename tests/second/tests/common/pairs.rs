//! Any pairs of limits, and what a filing gets by them in the card's words.

use super::BUILT_IN;
use second::book::Book;
use second::generate::rng::Rng;
use second::limits::Limits;
use second::postings::{file_by, Answer, Filing, Refusal};

/// The largest number and the largest volume.
pub type Pair = (u64, u64);

pub const SMALL: Pair = (15, 5_000);
pub const LARGE: Pair = (63, 100_000);

/// Posts a filing by a pair, under the built-in table.
pub fn file_within(book: &mut Book, (number, volume): Pair, filing: &Filing) -> Answer {
    file_by(book, &BUILT_IN, Limits::of(number, volume), filing)
}

fn any_limit(rng: &mut Rng, small: u64, large: u64) -> u64 {
    match rng.below(8) {
        0 => 0,
        1 => small,
        2 => large,
        3 => large + rng.between(1, large),
        4 => u64::MAX - rng.below(2),
        5 => rng.draw(),
        _ => rng.below(large + 1),
    }
}

pub fn any_pair(rng: &mut Rng) -> Pair {
    let number = any_limit(rng, SMALL.0, LARGE.0);
    (number, any_limit(rng, SMALL.1, LARGE.1))
}

/// The answer by a pair to what the large entry answers so. A number of a pair
/// that is above the large one counts as the large one, by which that answer is.
pub fn limited(large: Answer, filing: &Filing, (number, volume): Pair) -> Answer {
    use Refusal::{AlreadyFiled, Family, Limits};
    let comes_later = matches!(large, Ok(_) | Err(Family | Limits | AlreadyFiled));
    if !comes_later {
        large
    } else if filing.family > number {
        Err(Family)
    } else if ![Err(Family), Err(Limits)].contains(&large) && filing.figures.volume > volume {
        Err(Limits)
    } else {
        large
    }
}
