//! What the program is asked: records of calls, and of texts.

use crate::case::Case;
use crate::tally::Tally;
use crate::texts::TextCase;
use second::generate::rng::Rng;
use std::io::Read;

/// The same again for the same seed and number.
pub struct Asking {
    number: u64,
    asked: Asked,
}

enum Asked {
    Call(Box<Case>),
    Text(Box<TextCase>),
}

impl Asking {
    /// One in three has a text.
    pub fn of(seed: u64, number: u64) -> Self {
        let rng = &mut Rng::new(Rng::new(seed).draw() ^ number);
        let asked = if number % 3 == 2 {
            Asked::Text(Box::new(TextCase::drawn(rng)))
        } else {
            Asked::Call(Box::new(Case::drawn(rng)))
        };
        Asking { number, asked }
    }

    pub fn record(&self) -> Vec<u8> {
        match &self.asked {
            Asked::Call(case) => case.record(),
            Asked::Text(case) => case.record(),
        }
    }

    /// Counts the answer in both, or gives the first difference in words.
    pub fn hold(&self, answers: &mut impl Read, tally: &mut Tally) -> Result<(), String> {
        let held = match &self.asked {
            Asked::Call(case) => case
                .hold(answers)
                .map(|answer| tally.count(case, &answer))
                .map_err(|why| format!("{}: {why}", case.told())),
            Asked::Text(case) => case
                .hold(answers)
                .map(|outcome| tally.count_text(case, &outcome))
                .map_err(|why| format!("{}: {why}", case.told())),
        };
        held.map_err(|why| format!("record {}, {why}", self.number))
    }
}
