//! Ways to bend the text of a book.

use super::bends::{
    brackets, bytes_changed, carriage_returns, doubled, empty_line, long_line, missing, spaces,
    swapped, Bend,
};
use super::lines::Text;
use super::rng::Rng;
use crate::figuring::{ALL_CLOSED, FIRST_YEAR, LAST_YEAR};

pub(super) const BENDS: [Bend; 36] = [
    |text, _| drop(text.lines.drain(..text.lines.len().min(1))),
    open_elsewhere,
    open_twice,
    open_year,
    open_year,
    group_moved,
    group_moved,
    neighbours_swapped,
    neighbours_swapped,
    said_twice,
    said_twice,
    stranger,
    stranger,
    stranger,
    late,
    late,
    figure,
    figure,
    figure,
    figure,
    figure,
    |text, rng| text.change(rng, renamed),
    |text, rng| text.change(rng, other_fields),
    |text, rng| text.change_number(rng, beyond),
    |text, rng| text.change_number(rng, |_, number| format!("0{number}")),
    |text, rng| text.change(rng, |_, line| line.replacen(' ', "\t", 1)),
    |text, _| text.ended = !text.ended,
    |text, _| text.lines.push(Vec::new()),
    empty_line,
    carriage_returns,
    spaces,
    spaces,
    brackets,
    |text, rng| [missing, doubled, swapped][rng.index(3)](text, rng),
    long_line,
    bytes_changed,
];

/// The first word of a line, by group.
const GROUPS: [&str; 4] = ["open", "family", "lot", "short"];

const NEAR_NAMES: [&str; 14] = [
    "Open", "opens", "families", "Family", "fam", "lots", "LOT", "shortage", "shor", "alot", "std",
    "", "lot ", " short",
];

const OPEN_YEARS: [&str; 16] = [
    "2013",
    "2014",
    "2037",
    "2038",
    "2039",
    "0",
    "4294969310",
    "999999999999999999",
    "1000000000000000000",
    "18446744073709553630",
    "02014",
    "-2014",
    "-0",
    "",
    "2014 ",
    "2014 0",
];

/// The figures of a line that tell most.
const TELLING_FIGURES: [&str; 12] = [
    "0",
    "-0",
    "-1",
    "01",
    "38400000000000001",
    "-38400000000000001",
    "25000000001",
    "200000000001",
    "999999999999999999",
    "-999999999999999999",
    "1000000000000000000",
    "-1000000000000000000",
];

/// Others, at an edge or of no form.
const OTHER_FIGURES: [&str; 22] = [
    "1",
    "38400000000000000",
    "-38400000000000000",
    "25000000000",
    "200000000000",
    "18446744073709551617",
    "-9223372036854775808",
    "000000000000000001",
    "0000000000000000001",
    "00",
    "-01",
    "+1",
    "--1",
    "-",
    "- 1",
    "1-",
    "",
    "1.0",
    "0x1f",
    "٣",
    "(1)",
    "live 1",
];

fn open_elsewhere(text: &mut Text, rng: &mut Rng) {
    if text.lines.len() > 1 {
        let open = text.lines.remove(0);
        text.lines
            .insert(rng.between(1, 3) as usize % (text.lines.len() + 1), open);
    }
}

fn open_twice(text: &mut Text, rng: &mut Rng) {
    let year = rng.between(FIRST_YEAR, ALL_CLOSED);
    let open = match (text.lines.first(), rng.below(2)) {
        (Some(open), 0) => open.clone(),
        _ => format!("(open {year})").into(),
    };
    let at = text.place(rng);
    text.lines.insert(at, open);
}

fn open_year(text: &mut Text, rng: &mut Rng) {
    if let Some(open) = text.lines.first_mut() {
        let year = OPEN_YEARS[rng.index(OPEN_YEARS.len())];
        *open = format!("(open {year})").into();
    }
}

/// All lines of a group, to the front, behind the open year, or to the end.
fn group_moved(text: &mut Text, rng: &mut Rng) {
    let group = rng.between(1, 3) as usize;
    let (moved, mut others): (Vec<_>, Vec<_>) =
        text.lines.drain(..).partition(|line| rank(line).0 == group);
    let at = [0, 1, others.len()][rng.index(3)].min(others.len());
    others.splice(at..at, moved);
    text.lines = others;
}

fn neighbours_swapped(text: &mut Text, rng: &mut Rng) {
    let at = text.place(rng);
    if at + 1 < text.lines.len() {
        text.lines.swap(at, at + 1);
    }
}

/// A line, and the same place with another figure.
fn said_twice(text: &mut Text, rng: &mut Rng) {
    let at = text.place(rng);
    let line = text.lines.get(at).map(|line| String::from_utf8_lossy(line));
    if let Some((most, _)) = line.as_ref().and_then(|line| line.rsplit_once(' ')) {
        let again = format!("{most} {})", rng.between(1, 3));
        text.lines.insert(at + rng.index(2), again.into());
    }
}

/// A line at its place in the order, of a maker, set, number or year that the
/// book has not.
fn stranger(text: &mut Text, rng: &mut Rng) {
    let group = rng.between(1, 3) as usize;
    let family = group == 1;
    let inside = if family { 63 } else { LAST_YEAR };
    let first = if family { 0 } else { FIRST_YEAR };
    let far = 1 << [8, 16, 32, 58][rng.index(4)];
    let (maker, set, third) = match rng.below(10) {
        0 | 1 => (8, 0, first),
        2 | 3 => (rng.below(8), 4, first),
        4 => (rng.below(8), rng.below(4), inside + 1),
        5 | 6 if family => (rng.below(8), rng.below(4), inside + 1),
        5 | 6 => (rng.below(8), rng.below(4), FIRST_YEAR - 1),
        7 => (rng.below(8) + far, rng.below(4), inside),
        8 => (rng.below(8), rng.below(4) + far, first),
        _ => (rng.below(8), rng.below(4), inside + far),
    };
    insert_in_order(text, group, [maker, set, third], rng.between(1, 9));
}

/// A lot or a shortage of the open year or later, at its place in the order.
fn late(text: &mut Text, rng: &mut Rng) {
    let open = text.lines.first().and_then(|line| rank(line).1.pop());
    let open = open.unwrap_or(FIRST_YEAR).clamp(FIRST_YEAR, LAST_YEAR);
    let year = match rng.below(3) {
        0 => LAST_YEAR,
        1 => open,
        _ => rng.between(open, LAST_YEAR),
    };
    let group = rng.between(2, 3) as usize;
    insert_in_order(text, group, [rng.below(8), rng.below(4), year], 1);
}

fn insert_in_order(text: &mut Text, group: usize, place: [u64; 3], figure: u64) {
    let [maker, set, third] = place;
    let line = format!("({} {maker} {set} {third} {figure})", GROUPS[group]);
    let before = |other: &Vec<u8>| rank(other) < (group, place.to_vec());
    let at = text.lines.iter().take_while(|line| before(line)).count();
    text.lines.insert(at, line.into());
}

/// A line's group and its first three figures, as far as it has them.
fn rank(line: &[u8]) -> (usize, Vec<u64>) {
    let line = String::from_utf8_lossy(line);
    let mut words = line.trim_matches(['(', ')']).split(' ');
    let name = words.next().unwrap_or("");
    let group = GROUPS.iter().position(|&group| group == name);
    let figures = words.take(3).filter_map(|word| word.parse().ok()).collect();
    (group.unwrap_or(0), figures)
}

/// The last figure of a line.
fn figure(text: &mut Text, rng: &mut Rng) {
    let figure = match rng.below(3) {
        0 => OTHER_FIGURES[rng.index(OTHER_FIGURES.len())],
        _ => TELLING_FIGURES[rng.index(TELLING_FIGURES.len())],
    };
    text.change(rng, |_, line| match line.rsplit_once(' ') {
        Some((most, _)) => format!("{most} {figure})"),
        None => line,
    });
}

fn renamed(rng: &mut Rng, line: String) -> String {
    let Some((name, rest)) = line.split_once(' ') else {
        return line;
    };
    let other = match rng.below(3) {
        0 => GROUPS[rng.index(GROUPS.len())],
        _ => NEAR_NAMES[rng.index(NEAR_NAMES.len())],
    };
    if name.starts_with('(') {
        format!("({other} {rest}")
    } else {
        line
    }
}

/// One too few, one too many, each by its name, or a line of the listing.
fn other_fields(rng: &mut Rng, line: String) -> String {
    let Some((most, last)) = line.rsplit_once(' ') else {
        return line;
    };
    match rng.below(6) {
        0 => format!("{most})"),
        1 => format!("{most} 1 {last}"),
        2 => format!("{line} 1)"),
        3 => format!("{most} live {last}"),
        4 => format!("{most} (mg {last})"),
        _ => line
            .replacen(' ', " (maker ", 1)
            .replacen(" (maker 0", " (maker 0)", 1),
    }
}

/// A number that a narrower type would take for this one, or one beside it.
fn beyond(rng: &mut Rng, number: &str) -> String {
    let Ok(number) = number.parse::<i128>() else {
        return number.into();
    };
    let other = match rng.below(8) {
        0 => number + (1 << 8),
        1 => number + (1 << 16),
        2 => number + (1 << 32),
        3 => number + (1 << 64),
        4 => -number,
        5 => number - 1,
        _ => number + 1,
    };
    other.to_string()
}
