//! A book as text, and a text's book: the open year, then every filed family,
//! every lot and every shortage above 0, a line each.

use crate::book::{cell, Book, CELLS, FAMILIES, MAKERS, SETS};
use crate::figuring::{year_index, Mg, Part, FIRST_YEAR, YEARS};
use crate::postings::Refusal;
use std::fmt;
use std::io::{self, Read};

const DIGITS_LIMIT: usize = 18;

const LONGEST_LINE: usize = "(family 7 3 63 -999999999999999999)\n".len();
/// No text that has a book is longer.
pub const LONGEST: usize = LONGEST_LINE * (1 + CELLS * FAMILIES + 2 * CELLS * YEARS);

/// In the order of the text.
#[derive(Clone, Copy, Debug, PartialEq, Eq, PartialOrd, Ord)]
enum Group {
    Open,
    Family,
    Lot,
    Short,
}

/// A line's meaning. Where lines stand in a text goes by their group, then by
/// the figures that name a place; the open year names none.
#[derive(Clone, Copy, Debug, PartialEq, Eq)]
struct Entry {
    group: Group,
    /// Maker, set, and family number or year.
    place: [u64; 3],
    /// The open year, the part, or the Mg.
    figure: i128,
}

impl fmt::Display for Entry {
    fn fmt(&self, f: &mut fmt::Formatter<'_>) -> fmt::Result {
        let [maker, set, third] = self.place;
        let figure = self.figure;
        let name = match self.group {
            Group::Open => return write!(f, "(open {figure})"),
            Group::Family => "family",
            Group::Lot => "lot",
            Group::Short => "short",
        };
        write!(f, "({name} {maker} {set} {third} {figure})")
    }
}

/// The text, whatever the book; of one that is not sound it may be no text that
/// can be read.
pub fn text_of(book: &Book) -> String {
    let mut text = String::new();
    for entry in entries(book) {
        text += &format!("{entry}\n");
    }
    text
}

pub fn written(book: &Book) -> Result<String, Refusal> {
    if book.is_sound() {
        Ok(text_of(book))
    } else {
        Err(Refusal::UnsoundBook)
    }
}

/// Writes at the buffer's start and returns the length; the bytes after it, and
/// at a refusal all of them, stay.
pub fn write(book: &Book, buffer: &mut [u8]) -> Result<usize, Refusal> {
    let text = written(book)?;
    let place = buffer.get_mut(..text.len()).ok_or(Refusal::ShortBuffer)?;
    place.copy_from_slice(text.as_bytes());
    Ok(text.len())
}

fn entries(book: &Book) -> Vec<Entry> {
    let open = Entry {
        group: Group::Open,
        place: [0; 3],
        figure: book.open_year.into(),
    };
    let mut entries = vec![open];
    for cell in 0..CELLS {
        let filed = (0..FAMILIES).filter(|family| book.marks[cell] >> family & 1 == 1);
        entries.extend(filed.map(|family| Entry {
            group: Group::Family,
            place: place(cell, family as u64),
            figure: book.parts[cell][family].0.into(),
        }));
    }
    for (group, figures) in [(Group::Lot, &book.lots), (Group::Short, &book.shortages)] {
        for (cell, years) in figures.iter().enumerate() {
            let above_zero = (FIRST_YEAR..).zip(years).filter(|(_, &mg)| mg > Mg(0));
            entries.extend(above_zero.map(|(year, mg)| Entry {
                group,
                place: place(cell, year),
                figure: mg.0.into(),
            }));
        }
    }
    entries
}

fn place(cell: usize, third: u64) -> [u64; 3] {
    [(cell / SETS) as u64, (cell % SETS) as u64, third]
}

/// Puts the text's book in the place of the one lent, whatever that is; at a
/// refusal it stays.
pub fn read_in(book: &mut Book, text: &[u8]) -> Result<(), Refusal> {
    *book = read(text)?;
    Ok(())
}

/// The text's book. All that makes it none is asked before its soundness.
pub fn read(text: &[u8]) -> Result<Book, Refusal> {
    let book = lines(text)
        .and_then(|lines| lines.into_iter().map(parse).collect::<Option<Vec<_>>>())
        .filter(|entries| is_in_order(entries))
        .and_then(|entries| book_of(&entries))
        .ok_or(Refusal::NotABook)?;
    if book.is_sound() {
        Ok(book)
    } else {
        Err(Refusal::UnsoundBook)
    }
}

/// Of a text of any size it reads and holds one byte more than one that has a
/// book can have, which tells that it has none.
pub fn read_from(text: impl Read) -> io::Result<Result<Book, Refusal>> {
    let mut held = Vec::new();
    text.take(LONGEST as u64 + 1).read_to_end(&mut held)?;
    Ok(read(&held))
}

/// Without their line feeds, which every one of them has.
fn lines(text: &[u8]) -> Option<Vec<&[u8]>> {
    let text = text.strip_suffix(b"\n")?;
    Some(text.split(|&byte| byte == b'\n').collect())
}

/// The open year first and once, then strictly rising.
fn is_in_order(entries: &[Entry]) -> bool {
    let first = entries.first().map(|entry| entry.group);
    let rank = |entry: &Entry| (entry.group, entry.place);
    first == Some(Group::Open)
        && entries
            .windows(2)
            .all(|pair| rank(&pair[0]) < rank(&pair[1]))
}

/// What a line says, if it is exactly of its form.
fn parse(line: &[u8]) -> Option<Entry> {
    let inner = line.strip_prefix(b"(")?.strip_suffix(b")")?;
    let mut words = inner.split(|&byte| byte == b' ');
    let group = match words.next()? {
        b"open" => Group::Open,
        b"family" => Group::Family,
        b"lot" => Group::Lot,
        b"short" => Group::Short,
        _ => return None,
    };
    let mut place = [0; 3];
    if group != Group::Open {
        for figure in &mut place {
            *figure = number(words.next()?)?;
        }
    }
    let word = words.next()?;
    let figure = match group {
        Group::Open => i128::from(number(word)?),
        Group::Family => signed(word)?,
        Group::Lot | Group::Short => i128::from(above_zero(word)?),
    };
    words.next().is_none().then_some(Entry {
        group,
        place,
        figure,
    })
}

fn number(word: &[u8]) -> Option<u64> {
    let leading_zero = word.len() > 1 && word[0] == b'0';
    let digits = word.iter().all(u8::is_ascii_digit);
    if word.len() > DIGITS_LIMIT || leading_zero || !digits {
        return None;
    }
    std::str::from_utf8(word).ok()?.parse().ok()
}

fn above_zero(word: &[u8]) -> Option<u64> {
    number(word).filter(|&number| number > 0)
}

/// A number, or one above 0 after a minus.
fn signed(word: &[u8]) -> Option<i128> {
    match word.strip_prefix(b"-") {
        Some(size) => above_zero(size).map(|size| -i128::from(size)),
        None => number(word).map(i128::from),
    }
}

/// None where an entry names a place that the book has not.
fn book_of(entries: &[Entry]) -> Option<Book> {
    let mut book = Book::fresh();
    for entry in entries {
        put(&mut book, entry)?;
    }
    Some(book)
}

fn put(book: &mut Book, entry: &Entry) -> Option<()> {
    let [maker, set, third] = entry.place;
    if entry.group == Group::Open {
        book.open_year = u64::try_from(entry.figure).ok()?;
        return Some(());
    }
    if maker >= MAKERS as u64 || set >= SETS as u64 {
        return None;
    }
    let cell = cell(maker as usize, set as usize);
    if entry.group == Group::Family {
        let family = usize::try_from(third).ok()?;
        *book.parts[cell].get_mut(family)? = Part(i64::try_from(entry.figure).ok()?);
        book.marks[cell] |= 1 << family;
        return Some(());
    }
    let figures = match entry.group {
        Group::Lot => &mut book.lots,
        _ => &mut book.shortages,
    };
    figures[cell][year_index(third)?] = Mg(u64::try_from(entry.figure).ok()?);
    Some(())
}
