//! The book and its soundness, decided for any figures whatever.

use crate::figuring::{Mg, Part, ALL_CLOSED, FIRST_YEAR, YEARS};

pub const MAKERS: usize = 8;
pub const SETS: usize = 4;
pub const CELLS: usize = MAKERS * SETS;
pub const FAMILIES: usize = 64;

/// For a part's size, on either side of zero.
pub const PART_LIMIT: u64 = 38_400_000_000_000_000;
pub const SHORTAGE_LIMIT: Mg = Mg(25_000_000_000);
/// For the lots of all makers together, in one set and vintage.
pub const LOTS_LIMIT: Mg = Mg(200_000_000_000);

#[derive(Clone, Debug, PartialEq, Eq)]
pub struct Book {
    pub open_year: u64,
    /// One bit a family, for each cell.
    pub marks: [u64; CELLS],
    /// Parts of the open year, for each cell.
    pub parts: [[Part; FAMILIES]; CELLS],
    pub lots: [[Mg; YEARS]; CELLS],
    pub shortages: [[Mg; YEARS]; CELLS],
}

/// The cell of a maker and a set; cells run maker before set.
pub fn cell(maker: usize, set: usize) -> usize {
    maker * SETS + set
}

impl Default for Book {
    fn default() -> Self {
        Self::fresh()
    }
}

impl Book {
    pub fn fresh() -> Self {
        Book {
            open_year: FIRST_YEAR,
            marks: [0; CELLS],
            parts: [[Part(0); FAMILIES]; CELLS],
            lots: [[Mg(0); YEARS]; CELLS],
            shortages: [[Mg(0); YEARS]; CELLS],
        }
    }

    pub fn is_sound(&self) -> bool {
        (FIRST_YEAR..=ALL_CLOSED).contains(&self.open_year)
            && self.parts_are_sound()
            && self.shortages_are_sound()
            && self.lots_are_sound()
            && self.nothing_from_the_open_year_on()
    }

    /// Families filed in a cell this year.
    pub fn filed(&self, cell: usize) -> u64 {
        u64::from(self.marks[cell].count_ones())
    }

    fn parts_are_sound(&self) -> bool {
        let mut cells = self.marks.iter().zip(&self.parts);
        cells.all(|(&mark, parts)| {
            let mut families = parts.iter().enumerate();
            families.all(|(family, part)| {
                let limit = if mark >> family & 1 == 1 {
                    PART_LIMIT
                } else {
                    0
                };
                part.0.unsigned_abs() <= limit
            })
        })
    }

    fn shortages_are_sound(&self) -> bool {
        self.shortages
            .iter()
            .flatten()
            .all(|&shortage| shortage <= SHORTAGE_LIMIT)
    }

    fn lots_are_sound(&self) -> bool {
        (0..SETS).all(|set| {
            self.lots_of_all_makers(set)
                .iter()
                .all(|&lots| lots <= LOTS_LIMIT)
        })
    }

    /// The lots of all makers together, by vintage. A sum too large for 64
    /// bits stops at their end, far above the limit.
    fn lots_of_all_makers(&self, set: usize) -> [Mg; YEARS] {
        let mut sums = [Mg(0); YEARS];
        for maker in 0..MAKERS {
            for (sum, lot) in sums.iter_mut().zip(&self.lots[cell(maker, set)]) {
                sum.0 = sum.0.saturating_add(lot.0);
            }
        }
        sums
    }

    fn nothing_from_the_open_year_on(&self) -> bool {
        let closed = self.open_year.saturating_sub(FIRST_YEAR);
        let closed = usize::try_from(closed).map_or(YEARS, |years| years.min(YEARS));
        let mut figures = self.lots.iter().chain(&self.shortages);
        figures.all(|years| years[closed..].iter().all(|&mg| mg == Mg(0)))
    }
}
