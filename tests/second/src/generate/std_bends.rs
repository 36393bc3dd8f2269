//! Ways to bend the text of a table.

use super::bends::{
    brackets, bytes_changed, carriage_returns, doubled, empty_line, long_line, missing, spaces,
    swapped, Bend,
};
use super::lines::Text;
use super::rng::Rng;
use crate::figuring::{FIRST_YEAR, YEARS};

pub(super) const BENDS: [Bend; 26] = [
    both,
    both,
    |text, rng| text.change(rng, beyond),
    |text, rng| text.change(rng, beyond),
    missing,
    missing,
    one_more,
    one_more,
    wrong_year,
    wrong_year,
    swapped,
    doubled,
    |text, _| text.ended = !text.ended,
    |text, _| text.lines.push(Vec::new()),
    empty_line,
    carriage_returns,
    spaces,
    |text, rng| text.change(rng, |_, line| line.replacen(' ', "\t", 1)),
    |text, rng| text.change_number(rng, |_, number| format!("0{number}")),
    |text, rng| text.change_number(rng, |rng, _| pick(rng, NUMBERS).into()),
    |text, rng| text.change_number(rng, |rng, _| pick(rng, NUMBERS).into()),
    |text, rng| text.change(rng, |rng, line| line.replacen("std", pick(rng, NAMES), 1)),
    entries,
    brackets,
    long_line,
    bytes_changed,
];

/// Numbers out of the limits or of the form, and two that are right.
const NUMBERS: &[&str] = &[
    "0",
    "432",
    "431",
    "770",
    "999999999999",
    "1000000000000",
    "0000000000600",
    "000000000600",
    "00",
    "18446744073709551616",
    "18446744073709552216",
    "4294967896",
    "-432",
    "+600",
    "600.0",
    "6e2",
    "0x258",
    "",
    "٦٠٠",
    "none",
    "600 ",
    "(600)",
];

const NAMES: &[&str] = &[
    "Std", "STD", "stds", "st", "", "std ", " std", "standard", "file", "(std)", "0",
];

fn pick(rng: &mut Rng, from: &[&'static str]) -> &'static str {
    from[rng.index(from.len())]
}

/// A line after the last, and whatever it says.
fn one_more(text: &mut Text, rng: &mut Rng) {
    let last = text.lines.last().cloned().unwrap_or_default();
    let after = FIRST_YEAR + YEARS as u64;
    let line = match rng.below(5) {
        0 => last,
        1 | 2 => String::from_utf8_lossy(&last)
            .replacen("2037", &after.to_string(), 1)
            .into(),
        3 => Vec::new(),
        _ => vec![rng.draw() as u8],
    };
    text.lines.push(line);
}

fn wrong_year(text: &mut Text, rng: &mut Rng) {
    text.change(rng, other_year);
}

fn other_year(rng: &mut Rng, line: String) -> String {
    let Some(year) = line.get(5..9).and_then(|year| year.parse::<u64>().ok()) else {
        return line;
    };
    let other = match rng.below(9) {
        0 | 1 => year + 1,
        2 | 3 => year.saturating_sub(1),
        4 => FIRST_YEAR,
        5 => year + (1 << 32),
        6 => year + (1 << 16),
        7 => 0,
        _ => year.saturating_sub(FIRST_YEAR),
    };
    line.replacen(&year.to_string(), &other.to_string(), 1)
}

/// The last entry at fault by its figure; the greatest may be a rise.
fn beyond(rng: &mut Rng, line: String) -> String {
    let Some((most, _)) = line.rsplit_once(' ') else {
        return line;
    };
    let entry = ["1", "431", "769", "770", "999999999999"][rng.index(5)];
    format!("{most} {entry})")
}

/// A year and a figure at fault in one line: 19 before 20.
fn both(text: &mut Text, rng: &mut Rng) {
    text.change(rng, |rng, line| {
        let line = beyond(rng, line);
        other_year(rng, line)
    });
}

/// One too few, one too many, or each in a field of its own.
fn entries(text: &mut Text, rng: &mut Rng) {
    text.change(rng, |rng, line| {
        let Some((most, last)) = line.rsplit_once(' ') else {
            return line;
        };
        match rng.below(4) {
            0 => format!("{most})"),
            1 => format!("{line} {last}"),
            2 => format!("{most} 0 {last}"),
            _ => format!("{most} ({last})"),
        }
    });
}
