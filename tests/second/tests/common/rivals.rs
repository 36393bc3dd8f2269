//! Lists of one maker's applications in one set, begun on a book: rivals of a
//! cover.

use super::payable::{applied, live_lots, open_shortages, Figures};
use super::post;
use second::book::Book;
use second::covering::oldest_first;
use second::figuring::{Mg, YEARS};
use second::generate::books::any;
use second::generate::rng::Rng;
use second::postings::{Call, Cover};

/// A rival being made, with the book as it stands after its list.
pub struct Rival {
    pub cover: Cover,
    cell: usize,
    pub book: Book,
    pub list: Vec<Call>,
    /// The Mg of the accepted ones.
    pub covered: u64,
    pub refused: u32,
}

/// Which of the lots, or of the shortages, is next.
type Turn = fn(&mut Rng, &Figures) -> usize;

const OLDEST: Turn = |_, _| 0;
const YOUNGEST: Turn = |_, figures| figures.len() - 1;
const ANY: Turn = |rng, figures| rng.index(figures.len());
const LARGEST: Turn = |_, figures| by_size(figures, true);
const SMALLEST: Turn = |_, figures| by_size(figures, false);

const TURNS: [Turn; 5] = [OLDEST, YOUNGEST, ANY, LARGEST, SMALLEST];

fn by_size(figures: &Figures, largest: bool) -> usize {
    let places = 0..figures.len();
    let size = |&at: &usize| figures[at].1;
    let found = if largest {
        places.max_by_key(size)
    } else {
        places.min_by_key(size)
    };
    found.unwrap_or(0)
}

impl Rival {
    pub fn begun(book: &Book, cover: Cover, cell: usize) -> Self {
        Rival {
            cover,
            cell,
            book: book.clone(),
            list: Vec::new(),
            covered: 0,
            refused: 0,
        }
    }

    fn put(&mut self, vintage: u64, year: u64, mg: u64) {
        let call = applied(&self.cover, vintage, year, mg);
        match post(&mut self.book, &call) {
            Ok(_) => self.covered += mg,
            Err(_) => self.refused += 1,
        }
        self.list.push(call);
    }

    fn payable(&self) -> Option<(Figures, Figures)> {
        let lots = live_lots(&self.book, self.cell);
        let shortages = open_shortages(&self.book, self.cell);
        (!lots.is_empty() && !shortages.is_empty()).then_some((lots, shortages))
    }

    /// Pays in this order until nothing more can be paid: all of a lot or a
    /// shortage at a time, or a piece.
    pub fn pay_all(&mut self, rng: &mut Rng, lot: usize, shortage: usize, in_pieces: bool) {
        for turn in 0.. {
            let Some((lots, shortages)) = self.payable() else {
                return;
            };
            let (vintage, live) = lots[TURNS[lot](rng, &lots)];
            let (year, open) = shortages[TURNS[shortage](rng, &shortages)];
            let most = live.min(open);
            // In the end whole, so that the largest figures come to one.
            let mg = match in_pieces && turn < 40 {
                true => rng.between(1, most),
                false => most,
            };
            self.put(vintage, year, mg);
        }
    }

    /// Pairs of a lot and a shortage of the same size first.
    pub fn pay_equals(&mut self) {
        while let Some((lots, shortages)) = self.payable() {
            let equal = lots.iter().find_map(|&(vintage, live)| {
                let same = shortages.iter().find(|&&(_, open)| open == live);
                same.map(|&(year, _)| (vintage, year, live))
            });
            match equal {
                Some((vintage, year, mg)) => self.put(vintage, year, mg),
                None => return,
            }
        }
    }

    /// One application whatever: often one that can be accepted, else of any
    /// year and amount.
    pub fn any(&mut self, rng: &mut Rng) {
        let first = 2012;
        let any_year = |rng: &mut Rng| first + rng.below(YEARS as u64 + 4);
        let years = match self.payable() {
            Some((lots, shortages)) if !rng.once_in(3) => {
                let (vintage, live) = lots[rng.index(lots.len())];
                let (year, open) = shortages[rng.index(shortages.len())];
                (vintage, year, live.min(open))
            }
            _ => (any_year(rng), any_year(rng), 3),
        };
        let (vintage, year, most) = years;
        let mg = match rng.below(8) {
            0 => 0,
            1 => most + 1,
            2 => any(rng),
            3 => most,
            _ => rng.between(1, most),
        };
        self.put(vintage, year, mg);
    }

    /// The cover's own applications in another order, some of them in two
    /// pieces.
    pub fn shuffled(&mut self, rng: &mut Rng) {
        let (lots, shortages): ([Mg; YEARS], [Mg; YEARS]) =
            (self.book.lots[self.cell], self.book.shortages[self.cell]);
        let mut made = oldest_first(&self.cover, self.book.open_year, lots, shortages);
        while !made.is_empty() {
            let mut next = made.swap_remove(rng.index(made.len()));
            if next.mg > 1 && rng.once_in(3) {
                let piece = rng.between(1, next.mg - 1);
                self.put(next.vintage, next.year, piece);
                next.mg -= piece;
            }
            self.put(next.vintage, next.year, next.mg);
        }
    }

    /// Of a kind by its number.
    pub fn drawn(book: &Book, cover: Cover, cell: usize, rng: &mut Rng) -> Self {
        let mut rival = Rival::begun(book, cover, cell);
        let any_turns = |rng: &mut Rng| (rng.index(TURNS.len()), rng.index(TURNS.len()));
        match rng.below(8) {
            // Youngest lot first.
            0 => rival.pay_all(rng, 1, 0, false),
            // Oldest lot first, youngest shortage first.
            1 => rival.pay_all(rng, 0, 1, false),
            2 | 3 => {
                let ((lot, shortage), pieces) = (any_turns(rng), rng.once_in(2));
                rival.pay_all(rng, lot, shortage, pieces);
            }
            4 => rival.shuffled(rng),
            5 => {
                rival.pay_equals();
                let (lot, shortage) = any_turns(rng);
                rival.pay_all(rng, lot, shortage, false);
            }
            // Of any length, and at times then all that is left.
            kind => {
                for _ in 0..rng.below(20) {
                    rival.any(rng);
                }
                if kind == 6 {
                    let (lot, shortage) = any_turns(rng);
                    rival.pay_all(rng, lot, shortage, true);
                }
            }
        }
        rival
    }
}

/// What is left in lots of each vintage or younger, from 2014 on.
pub fn or_younger(book: &Book, cell: usize) -> Vec<u128> {
    let lots = &book.lots[cell];
    let from = |first: usize| lots[first..].iter().map(|mg| u128::from(mg.0)).sum();
    (0..YEARS).map(from).collect()
}
