//! Records and answers as words of 64 bits, low byte first.

use crate::calls::CALL_WORDS;
use second::book::{Book, CELLS, FAMILIES};
use second::figuring::{FIRST_YEAR, YEARS};
use second::standards::Table;
use std::io::Read;

const BYTES: usize = 8;
/// The words of an answer before its book.
pub const HEAD: usize = 4;

pub fn record(book: &Book, call: &[u64; CALL_WORDS], table: &Table) -> Vec<u8> {
    let mut words = Vec::new();
    push_book(&mut words, book);
    words.extend(call);
    words.extend(table.0.iter().flatten());
    words.into_iter().flat_map(u64::to_le_bytes).collect()
}

fn push_book(words: &mut Vec<u64>, book: &Book) {
    words.push(book.open_year);
    words.extend(book.marks);
    words.extend(book.parts.iter().flatten().map(|part| part.0 as u64));
    words.extend(book.lots.iter().flatten().map(|mg| mg.0));
    words.extend(book.shortages.iter().flatten().map(|mg| mg.0));
}

/// Holds the program's next answer against ours; the first words have these
/// names.
pub fn hold_answer(
    answers: &mut impl Read,
    names: [&str; HEAD],
    head: [u64; HEAD],
    after: &Book,
) -> Result<(), String> {
    let mut ours = head.to_vec();
    push_book(&mut ours, after);
    let bytes = next_bytes(answers, ours.len() * BYTES)?;
    let theirs: Vec<u64> = bytes.chunks_exact(BYTES).map(word).collect();
    match ours
        .iter()
        .zip(&theirs)
        .position(|(our, their)| our != their)
    {
        None => Ok(()),
        Some(place) => Err(format!(
            "\n  program: {:?}\n  second:  {:?}\n  word {place}, {}: program {}, second {}",
            &theirs[..HEAD],
            &ours[..HEAD],
            place_name(place, names),
            theirs[place],
            ours[place]
        )),
    }
}

pub fn next_bytes(answers: &mut impl Read, length: usize) -> Result<Vec<u8>, String> {
    let mut bytes = vec![0; length];
    answers
        .read_exact(&mut bytes)
        .map_err(|error| format!("the program's answer: {error}"))?;
    Ok(bytes)
}

fn word(bytes: &[u8]) -> u64 {
    bytes
        .iter()
        .rev()
        .fold(0, |word, &byte| word << 8 | u64::from(byte))
}

/// What stands at a word of an answer.
fn place_name(place: usize, names: [&str; HEAD]) -> String {
    let Some(at) = place.checked_sub(HEAD) else {
        return names[place].into();
    };
    let Some(at) = at.checked_sub(1) else {
        return "open year".into();
    };
    let Some(at) = at.checked_sub(CELLS) else {
        return format!("mark of cell {at}");
    };
    let Some(at) = at.checked_sub(CELLS * FAMILIES) else {
        return format!("part of cell {}, family {}", at / FAMILIES, at % FAMILIES);
    };
    let (name, at) = match at.checked_sub(CELLS * YEARS) {
        None => ("lot", at),
        Some(at) => ("shortage", at),
    };
    let year = FIRST_YEAR + (at % YEARS) as u64;
    format!("{name} of cell {}, year {year}", at / YEARS)
}

#[cfg(test)]
mod tests {
    use super::*;
    use crate::calls::{call_of, filing_of, pair_of, FILE_BY};
    use second::postings::Call;

    /// The book, a kind and twelve arguments, and the table.
    #[test]
    fn a_record_has_3_774_words() {
        let mut call = [0; CALL_WORDS];
        for (argument, word) in call.iter_mut().enumerate() {
            *word = 100 + argument as u64;
        }
        call[0] = FILE_BY as u64;
        let record = record(&Book::fresh(), &call, &Table::built_in());
        assert_eq!(record.len(), 30_192);
        let words: Vec<u64> = record.chunks_exact(BYTES).map(word).collect();
        assert_eq!(words[3_617..3_630], call);
        assert_eq!(words[3_630..3_636], Table::built_in().0[0]);
    }

    /// In the order of the form, and then the pair.
    #[test]
    fn a_filing_by_a_pair_has_twelve_arguments() {
        let call: [u64; CALL_WORDS] = std::array::from_fn(|at| at as u64);
        let line = Call::Amend(filing_of(&call)).to_string();
        assert_eq!(
            line,
            "(amend (maker 1) (set 2) (year 3) (use 4) (edition 5) (family 6) (fcl 7) (cf 8) \
             (volume 9) (life 10))"
        );
        let of_kind = |kind: usize| {
            let mut call = call;
            call[0] = kind as u64;
            call
        };
        let pair = pair_of(&of_kind(FILE_BY)).expect("a pair");
        assert_eq!((pair.number, pair.volume), (11, 12));
        assert_eq!(call_of(&of_kind(FILE_BY)), Call::File(filing_of(&call)));
        for kind in 0..FILE_BY {
            assert!(pair_of(&of_kind(kind)).is_none());
        }
    }
}
