//! Texts of tables, as `std.txt` has them: right ones, and ones bent in form.

use super::lines::{huge, Text};
use super::rng::Rng;
use super::std_bends::BENDS;
use super::tables::{accepted, changed};
use crate::standards::Table;

/// Apart from the numbers that a session of the same seed draws.
const APART: u64 = 0x7374_642e_7478_7400;

/// The text of a seed. More than half are accepted.
pub fn std_text(seed: u64) -> Vec<u8> {
    let rng = &mut Rng::new(seed ^ APART);
    match rng.below(12) {
        0 => text_of(&Table::built_in()).bytes(),
        1..=6 => text_of(&accepted(rng)).bytes(),
        7 | 8 => text_of(&changed(rng)).bytes(),
        9 => bent(rng, 2),
        _ => bent(rng, 1),
    }
}

/// A text with so many bends, seldom with an entry at an edge beside them.
fn bent(rng: &mut Rng, bends: usize) -> Vec<u8> {
    let table = match rng.below(4) {
        0 => Table::built_in(),
        1 => changed(rng),
        _ => accepted(rng),
    };
    let mut text = text_of(&table);
    for _ in 0..bends {
        BENDS[rng.index(BENDS.len())](&mut text, rng);
    }
    let bytes = text.bytes();
    match rng.below(40) {
        0 => huge(rng, bytes),
        1 => bytes[..rng.index(bytes.len() + 1)].into(),
        2 => [b"\xef\xbb\xbf", bytes.as_slice()].concat(),
        3 => Vec::new(),
        _ => bytes,
    }
}

fn text_of(table: &Table) -> Text {
    Text::of(&table.to_string())
}
