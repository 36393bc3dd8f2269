//! The pair of limits of an entry, which refusals 7 and 8 read of a filing.

use crate::book::FAMILIES;
use crate::figuring::{part, Figures, Part, MAX_VOLUME};

#[derive(Clone, Copy, Debug, PartialEq, Eq)]
pub struct Limits {
    number: u64,
    volume: u64,
}

impl Limits {
    /// The large entry's, and every amendment's, whoever filed.
    pub const LARGE: Limits = Limits {
        number: FAMILIES as u64 - 1,
        volume: MAX_VOLUME,
    };
    /// The small makers' entry's.
    pub const SMALL: Limits = Limits {
        number: 15,
        volume: 5_000,
    };

    /// The largest number and the largest volume, whatever they are: one above
    /// the large entry's counts as that.
    pub fn of(number: u64, volume: u64) -> Self {
        Limits {
            number: number.min(Limits::LARGE.number),
            volume: volume.min(Limits::LARGE.volume),
        }
    }

    pub const fn number(self) -> u64 {
        self.number
    }

    pub const fn volume(self) -> u64 {
        self.volume
    }

    /// A family's place in its cell, or none if its number is above the limit.
    pub fn place(self, family: u64) -> Option<usize> {
        (family <= self.number).then_some(family as usize)
    }

    /// The family's part, or none if a figure is outside its limits.
    pub fn part(self, standard: u64, figures: &Figures) -> Option<Part> {
        let within = figures.volume <= self.volume;
        part(standard, figures).filter(|_| within)
    }
}
