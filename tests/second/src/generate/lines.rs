//! Texts by their lines, to be bent.

use super::rng::Rng;

/// A text by its lines. The last one may lack its line feed.
pub(super) struct Text {
    pub(super) lines: Vec<Vec<u8>>,
    pub(super) ended: bool,
}

impl Text {
    /// Of one that has all its line feeds.
    pub(super) fn of(text: &str) -> Self {
        Text {
            lines: text.lines().map(Vec::from).collect(),
            ended: true,
        }
    }

    pub(super) fn bytes(&self) -> Vec<u8> {
        let mut bytes = self.lines.join(&b'\n');
        if self.ended && !self.lines.is_empty() {
            bytes.push(b'\n');
        }
        bytes
    }

    /// The place of a line, the first and the last often.
    pub(super) fn place(&self, rng: &mut Rng) -> usize {
        match rng.below(4) {
            0 => 0,
            1 => self.lines.len().saturating_sub(1),
            _ => rng.index(self.lines.len()),
        }
    }

    /// Changes one line, as text; an empty text stays.
    pub(super) fn change(
        &mut self,
        rng: &mut Rng,
        change: impl FnOnce(&mut Rng, String) -> String,
    ) {
        let at = self.place(rng);
        if let Some(line) = self.lines.get_mut(at) {
            *line = change(rng, String::from_utf8_lossy(line).into()).into();
        }
    }

    /// Changes one of the numbers of one line, the year among them.
    pub(super) fn change_number(
        &mut self,
        rng: &mut Rng,
        change: impl FnOnce(&mut Rng, &str) -> String,
    ) {
        self.change(rng, |rng, line| {
            let mut words: Vec<String> = line.split(' ').map(String::from).collect();
            let at = 1.max(rng.index(words.len()));
            if let Some(word) = words.get_mut(at) {
                let digits = word.trim_end_matches(')').len();
                let (number, bracket) = word.split_at(digits);
                *word = change(rng, number) + bracket;
            }
            words.join(" ")
        });
    }
}

/// Many megabytes: of lines, of a line, of none; after the text or before it.
pub(super) fn huge(rng: &mut Rng, text: Vec<u8>) -> Vec<u8> {
    let length = rng.between(4, 12) as usize * 1_000_000;
    let mut much = match rng.below(4) {
        0 => vec![b'\n'; length],
        1 => vec![0; length],
        2 => vec![b' '; length],
        _ => text.repeat(length / text.len().max(1)),
    };
    if rng.once_in(4) {
        much.extend(text);
        much
    } else {
        [text, much].concat()
    }
}
