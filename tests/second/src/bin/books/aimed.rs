//! Arguments of calls aimed at a book and a table.

use crate::calls::{AMEND, APPLY, CLOSE, COVER, FILE, FILE_BY, TRADE};
use crate::pairs::{beside, Pair};
use second::book::{cell, Book, CELLS, FAMILIES, MAKERS, SETS};
use second::figuring::{
    is_live, is_open, Mg, FIRST_YEAR, MAX_CF, MAX_FCL, MAX_LIFE, MAX_VOLUME, YEARS,
};
use second::generate::rng::Rng;
use second::limits::Limits;
use second::standards::{
    alternative_standard, Table, COLUMNS, COLUMN_USES, GREATEST_STANDARD, LEAST_STANDARD,
};

// The places of these among a filing's arguments.
const FAMILY: usize = 5;
const FCL: usize = 6;
const VOLUME: usize = 8;

/// The arguments of a call that the book accepts, most likely, if it is sound
/// and the table accepted.
pub fn aimed(book: &Book, table: &Table, rng: &mut Rng, kind: usize) -> Vec<u64> {
    match kind {
        FILE | AMEND => aimed_filing(book, table, rng, kind == AMEND),
        FILE_BY => aimed_filing_by(book, table, rng),
        CLOSE => vec![book.open_year],
        APPLY => aimed_application(book, rng),
        COVER => aimed_cover(book, rng),
        _ => aimed_payment(book, rng, kind),
    }
}

/// Of a family that isn't filed, or for an amendment of one that is; once in
/// ten the other way.
fn aimed_filing(book: &Book, table: &Table, rng: &mut Rng, amendment: bool) -> Vec<u64> {
    let maker = rng.index(MAKERS);
    let (set, usage) = aimed_column(book, table, rng);
    let edition = aimed_edition(rng, set, book.open_year);
    let mark = book.marks[cell(maker, set as usize)];
    let filed = amendment != rng.once_in(10);
    let family = from_anywhere(rng, FAMILIES, |family| (mark >> family & 1 == 1) == filed);
    let mut words = vec![
        maker as u64,
        set,
        book.open_year,
        usage,
        edition,
        family as u64,
    ];
    for most in [MAX_FCL, MAX_CF, MAX_VOLUME, MAX_LIFE] {
        words.push(match rng.below(40) {
            0 => 0,
            1 => most + 1,
            2..=5 => 1,
            6..=9 => most,
            10 | 11 => most - 1,
            // Where the limit of CF was while it had four decimals.
            12..=15 => most / 10 + rng.below(2),
            // Beside the standards.
            16..=19 => rng
                .between(LEAST_STANDARD - 2, GREATEST_STANDARD + 2)
                .min(most),
            _ => rng.between(1, most),
        });
    }
    if rng.once_in(20) {
        let standard = table.named_standard(edition, set, usage, book.open_year);
        words[FCL] = standard.unwrap_or(0);
    }
    words
}

/// With a pair, and a number and a volume at both sides of its limits; once in
/// six of a family that is filed.
fn aimed_filing_by(book: &Book, table: &Table, rng: &mut Rng) -> Vec<u64> {
    let mut words = aimed_filing(book, table, rng, false);
    let pair = Pair::drawn(rng);
    let limits = pair.limits();
    let mark = book.marks[cell(words[0] as usize, words[1] as usize)];
    let filed = rng.once_in(6);
    let within = from_anywhere(rng, limits.number() as usize + 1, |family| {
        (mark >> family & 1 == 1) == filed
    });
    words[FAMILY] = beside(rng, within as u64, pair.number, Limits::LARGE.number());
    if words[VOLUME] > limits.volume() {
        words[VOLUME] = rng.between(1, limits.volume().max(1));
    }
    words[VOLUME] = beside(rng, words[VOLUME], pair.volume, Limits::LARGE.volume());
    words.extend([pair.number, pair.volume]);
    words
}

/// A set and use for which the table has a standard this year, once in ten any.
fn aimed_column(book: &Book, table: &Table, rng: &mut Rng) -> (u64, u64) {
    let any = rng.once_in(10);
    let column = from_anywhere(rng, COLUMNS, |column| {
        let (set, usage) = COLUMN_USES[column];
        any || table.standard(set, usage, book.open_year).is_some()
    });
    COLUMN_USES[column]
}

/// One that the set and year have, at times any of 0 to 3.
fn aimed_edition(rng: &mut Rng, set: u64, year: u64) -> u64 {
    let alternative = alternative_standard(1, set, 0, year).is_some();
    match rng.below(5) {
        0 => rng.below(4),
        _ if alternative => rng.below(3),
        _ => 0,
    }
}

/// A trade or a retirement.
fn aimed_payment(book: &Book, rng: &mut Rng, kind: usize) -> Vec<u64> {
    let short_too = rng.once_in(10);
    let payer = from_anywhere(rng, CELLS * YEARS, |place| {
        let (cell, index) = (place / YEARS, place % YEARS);
        let short = book.shortages[cell].iter().any(|&mg| mg > Mg(0));
        short == short_too && live_lot(book, cell, index) > 0
    });
    let (cell, index) = (payer / YEARS, payer % YEARS);
    let (maker, set) = (cell / SETS, cell % SETS);
    let mg = part_of(rng, live_lot(book, cell, index));
    let vintage = FIRST_YEAR + index as u64;
    let other = (maker + rng.between(1, MAKERS as u64 - 1) as usize) % MAKERS;
    let mut words = vec![maker as u64];
    if kind == TRADE {
        words.push(other as u64);
    }
    words.extend([set as u64, vintage, mg]);
    words
}

fn aimed_application(book: &Book, rng: &mut Rng) -> Vec<u64> {
    let cell = payable_cell(book, rng);
    let vintage = from_anywhere(rng, YEARS, |index| live_lot(book, cell, index) > 0);
    let year = if rng.once_in(10) {
        rng.index(YEARS)
    } else {
        from_anywhere(rng, YEARS, |index| open_shortage(book, cell, index) > 0)
    };
    let most = live_lot(book, cell, vintage).min(open_shortage(book, cell, year));
    vec![
        (cell / SETS) as u64,
        (cell % SETS) as u64,
        FIRST_YEAR + vintage as u64,
        FIRST_YEAR + year as u64,
        part_of(rng, most),
    ]
}

/// Once in ten any cell.
fn aimed_cover(book: &Book, rng: &mut Rng) -> Vec<u64> {
    let cell = match rng.below(10) {
        0 => rng.index(CELLS),
        _ => payable_cell(book, rng),
    };
    vec![(cell / SETS) as u64, (cell % SETS) as u64]
}

/// A cell with a live lot and an open shortage.
fn payable_cell(book: &Book, rng: &mut Rng) -> usize {
    from_anywhere(rng, CELLS, |cell| {
        (0..YEARS).any(|index| live_lot(book, cell, index) > 0)
            && (0..YEARS).any(|index| open_shortage(book, cell, index) > 0)
    })
}

/// The first place that fits from a random one on, or that one.
fn from_anywhere(rng: &mut Rng, places: usize, fits: impl Fn(usize) -> bool) -> usize {
    let start = rng.index(places);
    let mut turn = (start..places).chain(0..start);
    turn.find(|&place| fits(place)).unwrap_or(start)
}

fn live_lot(book: &Book, cell: usize, index: usize) -> u64 {
    let live = is_live(book.open_year, FIRST_YEAR + index as u64);
    if live {
        book.lots[cell][index].0
    } else {
        0
    }
}

fn open_shortage(book: &Book, cell: usize, index: usize) -> u64 {
    let open = is_open(book.open_year, FIRST_YEAR + index as u64);
    if open {
        book.shortages[cell][index].0
    } else {
        0
    }
}

/// All of an amount, 1, or something between.
fn part_of(rng: &mut Rng, mg: u64) -> u64 {
    match rng.below(4) {
        0 => mg.max(1),
        1 => 1,
        _ => rng.between(1, mg.max(1)),
    }
}
