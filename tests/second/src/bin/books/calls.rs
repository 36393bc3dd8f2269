//! Calls: their words, and calls on a book, some with arguments at an edge.

use crate::aimed::aimed;
use crate::pairs::Pair;
use second::book::{cell, Book, CELLS, MAKERS, SETS};
use second::figuring::{
    year_index, Figures, Mg, ALL_CLOSED, FIRST_YEAR, LAST_YEAR, MAX_CF, MAX_FCL, MAX_LIFE,
    MAX_VOLUME, YEARS,
};
use second::generate::{books::any, rng::Rng, TELLING_YEARS};
use second::limits::Limits;
use second::postings::{Application, Call, Cover, Filing, Retirement, Trade};
use second::standards::Table;

/// A call's kind and its arguments.
pub const CALL_WORDS: usize = 13;

// A call's kind.
pub const FILE: usize = 0;
pub const CLOSE: usize = 1;
pub const TRADE: usize = 2;
pub const APPLY: usize = 3;
const RETIRE: usize = 4;
pub const AMEND: usize = 5;
/// The kind of a record that is no call but has a text.
pub const TEXT: usize = 6;
pub const COVER: usize = 7;
/// A filing by a pair of limits, which are its last two arguments.
pub const FILE_BY: usize = 8;
pub const KINDS: usize = 9;

/// The kinds that are calls, as often as they are drawn.
const CALLS: [usize; 9] = [
    FILE, CLOSE, TRADE, APPLY, RETIRE, AMEND, COVER, FILE_BY, FILE_BY,
];

pub fn kind_of(words: &[u64; CALL_WORDS]) -> usize {
    words[0] as usize
}

/// A filing by a pair is a filing, here without its pair.
pub fn call_of(words: &[u64; CALL_WORDS]) -> Call {
    let [_, a, b, c, d, e, ..] = *words;
    match kind_of(words) {
        FILE | FILE_BY => Call::File(filing_of(words)),
        AMEND => Call::Amend(filing_of(words)),
        CLOSE => Call::Close { year: a },
        TRADE => Call::Trade(Trade {
            from: a,
            to: b,
            set: c,
            vintage: d,
            mg: e,
        }),
        APPLY => Call::Apply(Application {
            maker: a,
            set: b,
            vintage: c,
            year: d,
            mg: e,
        }),
        COVER => Call::Cover(Cover { maker: a, set: b }),
        _ => Call::Retire(Retirement {
            maker: a,
            set: b,
            vintage: c,
            mg: d,
        }),
    }
}

/// The pair that a filing is handed.
pub fn pair_of(words: &[u64; CALL_WORDS]) -> Option<Pair> {
    let [.., number, volume] = *words;
    (kind_of(words) == FILE_BY).then_some(Pair { number, volume })
}

pub fn filing_of(words: &[u64; CALL_WORDS]) -> Filing {
    let [_, maker, set, year, usage, edition, family, fcl, cf, volume, life, ..] = *words;
    Filing {
        maker,
        set,
        year,
        usage,
        edition,
        family,
        figures: Figures {
            fcl,
            cf,
            volume,
            life,
        },
    }
}

#[derive(Clone, Copy)]
enum Role {
    Maker,
    Set,
    OpenYear,
    Usage,
    Edition,
    Family,
    /// A figure with its greatest value.
    UpTo(u64),
    /// A limit of a pair, with the two entries'.
    Limit(u64, u64),
    Vintage,
    ShortYear,
    Amount,
}

use Role::{Amount, Edition, Family, Limit, Maker, OpenYear, Set, ShortYear, UpTo, Usage, Vintage};

/// The arguments of a filing by a pair: a filing's in the order of the form, and
/// the pair.
const FILING_BY: &[Role] = &[
    Maker,
    Set,
    OpenYear,
    Usage,
    Edition,
    Family,
    UpTo(MAX_FCL),
    UpTo(MAX_CF),
    UpTo(MAX_VOLUME),
    UpTo(MAX_LIFE),
    Limit(Limits::SMALL.number(), Limits::LARGE.number()),
    Limit(Limits::SMALL.volume(), Limits::LARGE.volume()),
];
/// Of a filing, and of an amendment.
const FILING: &[Role] = FILING_BY.split_at(FILING_BY.len() - 2).0;

/// Of each kind.
const ROLES: [&[Role]; KINDS] = [
    FILING,
    &[OpenYear],
    &[Maker, Maker, Set, Vintage, Amount],
    &[Maker, Set, Vintage, ShortYear, Amount],
    &[Maker, Set, Vintage, Amount],
    FILING,
    &[],
    &[Maker, Set],
    FILING_BY,
];

/// A call that the book would accept under the table where it can, or one with
/// some of its arguments at or past an edge; whatever in the arguments that it
/// lacks.
pub fn call_on(book: &Book, table: &Table, rng: &mut Rng, kind: usize) -> [u64; CALL_WORDS] {
    let mut words = [0; CALL_WORDS];
    words.fill_with(|| any(rng));
    words[0] = kind as u64;
    let arguments = aimed(book, table, rng, kind);
    words[1..=arguments.len()].copy_from_slice(&arguments);
    let changes = match rng.below(20) {
        0..=12 => 0,
        13..=17 => 1,
        18 => 2,
        _ => ROLES[kind].len() as u64 / 2 + 1,
    };
    // Amounts are drawn last, when the lot that they are held to is known.
    let mut changed: Vec<usize> = (0..changes).map(|_| rng.index(ROLES[kind].len())).collect();
    changed.sort_unstable();
    for place in changed {
        words[1 + place] = edge(book, rng, &words, ROLES[kind][place], words[1 + place]);
    }
    // Refusal 20, where it concerns the call, comes before 3.
    if !table.is_accepted() && rng.once_in(4) {
        words[1] = rng.between(6, 9);
    }
    words
}

/// Any of a call, a filing by a pair twice as often as others; in the telling
/// years half of the time a filing, by a pair or not, or an amendment.
pub fn kind_on(book: &Book, rng: &mut Rng) -> usize {
    if TELLING_YEARS.contains(&book.open_year) && rng.once_in(2) {
        [FILE, AMEND, FILE_BY][rng.index(3)]
    } else {
        CALLS[rng.index(CALLS.len())]
    }
}

/// An argument at or past an edge of its role, or far from any.
fn edge(book: &Book, rng: &mut Rng, words: &[u64; CALL_WORDS], role: Role, now: u64) -> u64 {
    if rng.once_in(4) {
        return huge(rng, now);
    }
    let open = book.open_year;
    let years = [
        FIRST_YEAR - 1,
        FIRST_YEAR,
        LAST_YEAR,
        ALL_CLOSED,
        ALL_CLOSED + 1,
        0,
        open,
        open.wrapping_add(1),
        open.wrapping_sub(1),
        open.wrapping_sub(rng.between(2, 9)),
    ];
    match role {
        // The same maker twice, in a trade.
        Maker if rng.once_in(3) => words[1],
        Maker => rng.between(6, 9),
        Set => rng.below(6),
        OpenYear => years[rng.index(years.len())],
        Usage | Edition => rng.below(4),
        Family => [0, 62, 63, 64, 65][rng.index(5)],
        UpTo(most) => [0, 1, most, most + 1, most - 1][rng.index(5)],
        Limit(small, large) => {
            [0, small - 1, small, small + 1, large - 1, large, large + 1][rng.index(7)]
        }
        // One year on either side of the last that is live, or open.
        Vintage if rng.once_in(2) => open.wrapping_sub(rng.between(5, 8)),
        ShortYear if rng.once_in(2) => open.wrapping_sub(rng.between(3, 6)),
        Vintage | ShortYear => years[rng.index(years.len())],
        Amount => amount_at_edge(book, rng, words),
    }
}

/// 0, or an amount near what the lot or the shortage holds.
fn amount_at_edge(book: &Book, rng: &mut Rng, words: &[u64; CALL_WORDS]) -> u64 {
    let figure = |figures: &[[Mg; YEARS]; CELLS], maker: u64, set: u64, year: u64| {
        let index = year_index(year)?;
        let known = maker < MAKERS as u64 && set < SETS as u64;
        known.then(|| figures[cell(maker as usize, set as usize)][index].0)
    };
    let lot = match call_of(words) {
        Call::Trade(t) => figure(&book.lots, t.from, t.set, t.vintage),
        Call::Apply(p) if rng.once_in(2) => figure(&book.shortages, p.maker, p.set, p.year),
        Call::Apply(p) => figure(&book.lots, p.maker, p.set, p.vintage),
        Call::Retire(p) => figure(&book.lots, p.maker, p.set, p.vintage),
        Call::File(_) | Call::Small(_) | Call::Amend(_) | Call::Close { .. } | Call::Cover(_) => {
            None
        }
    };
    let mg = lot.unwrap_or(1);
    match rng.below(4) {
        0 => 0,
        1 => mg,
        2 => mg.wrapping_sub(1),
        _ => mg.wrapping_add(1),
    }
}

/// A number that a narrower type would take for `now`, or any.
fn huge(rng: &mut Rng, now: u64) -> u64 {
    match rng.below(6) {
        0 => now.wrapping_add(1 << 8),
        1 => now.wrapping_add(1 << 16),
        2 => now.wrapping_add(1 << 32),
        3 => now.wrapping_add(1 << 63),
        _ => any(rng),
    }
}
