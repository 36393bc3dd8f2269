//! Ways to bend any text of lines.

use super::lines::Text;
use super::rng::Rng;

pub(super) type Bend = fn(&mut Text, &mut Rng);

pub(super) fn missing(text: &mut Text, rng: &mut Rng) {
    let at = text.place(rng);
    if at < text.lines.len() {
        text.lines.remove(at);
    }
}

pub(super) fn swapped(text: &mut Text, rng: &mut Rng) {
    let (one, other) = (text.place(rng), text.place(rng));
    if one.max(other) < text.lines.len() {
        text.lines.swap(one, other);
    }
}

pub(super) fn doubled(text: &mut Text, rng: &mut Rng) {
    let at = text.place(rng);
    if let Some(line) = text.lines.get(at).cloned() {
        text.lines.insert(at, line);
    }
}

pub(super) fn empty_line(text: &mut Text, rng: &mut Rng) {
    let at = text.place(rng);
    text.lines.insert(at, Vec::new());
}

/// At the end of each line, or of one.
pub(super) fn carriage_returns(text: &mut Text, rng: &mut Rng) {
    if rng.once_in(2) {
        text.lines.iter_mut().for_each(|line| line.push(b'\r'));
    } else {
        text.change(rng, |_, line| line + "\r");
    }
}

pub(super) fn spaces(text: &mut Text, rng: &mut Rng) {
    text.change(rng, |rng, line| match rng.below(7) {
        0 => format!(" {line}"),
        1 => format!("{line} "),
        2 => line.replace(' ', "  "),
        3 => line.replacen(' ', "  ", 1),
        4 => line.replacen(' ', "", 1),
        5 => line.replace(')', " )"),
        _ => line.replace('(', "( "),
    });
}

pub(super) fn brackets(text: &mut Text, rng: &mut Rng) {
    text.change(rng, |rng, line| match rng.below(6) {
        0 => line.replace(['(', ')'], ""),
        1 => line.replace('(', "[").replace(')', "]"),
        2 => line.replace('(', "(("),
        3 => line.replace(')', ""),
        4 => line.replace(')', "))"),
        _ => format!("{line}{line}"),
    });
}

/// Around the limit of a line, or far above it.
pub(super) fn long_line(text: &mut Text, rng: &mut Rng) {
    let length = [159, 160, 161, 162, 4_095, 4_096, 70_000][rng.index(7)];
    text.change(rng, |rng, line| {
        let missing = length - line.len().min(length);
        let more = [" ", "0", "\0"][rng.index(3)].repeat(missing);
        match rng.below(2) {
            0 => more + &line,
            _ => line + &more,
        }
    });
}

/// A byte lost, doubled, replaced or put in, a line feed among them.
pub(super) fn bytes_changed(text: &mut Text, rng: &mut Rng) {
    let at = text.place(rng);
    let Some(line) = text.lines.get_mut(at).filter(|line| !line.is_empty()) else {
        return;
    };
    let at = rng.index(line.len());
    let byte = match rng.below(5) {
        0 => 0,
        1 => b'\n',
        2 => b"()0 123456789\r\t"[rng.index(15)],
        _ => rng.draw() as u8,
    };
    match rng.below(4) {
        0 => drop(line.remove(at)),
        1 => line.insert(at, line[at]),
        2 => line[at] = byte,
        _ => line.insert(at, byte),
    }
}
