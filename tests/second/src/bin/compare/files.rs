//! The files that books are read from and written to.

use second::room::{Room, STD};

pub const BOOK: &str = "book.txt";
pub const AFTER: &str = "after.txt";

/// Whether a file has these bytes, or there is none; and that nothing but the
/// files that were meant lies beside it.
pub fn hold_file(room: &Room, name: &str, expected: Option<&[u8]>) -> Result<(), String> {
    let found = room
        .read(name)
        .map_err(|error| format!("{name}: {error}"))?;
    let names = room.names().map_err(|error| error.to_string())?;
    let strange = names
        .iter()
        .find(|name| ![STD, BOOK, AFTER].contains(&&***name));
    match (found.as_deref(), expected, strange) {
        (_, _, Some(strange)) => Err(format!("the program left a file {strange}")),
        (Some(_), None, _) => Err(format!("the program wrote {name}")),
        (None, Some(_), _) => Err(format!("the program wrote no {name}")),
        (Some(found), Some(expected), _) if found != expected => {
            let place = found
                .iter()
                .zip(expected)
                .take_while(|(a, b)| a == b)
                .count();
            Err(format!(
                "{name} has {} bytes and not the {} of second; they differ from byte {place} on",
                found.len(),
                expected.len()
            ))
        }
        _ => Ok(()),
    }
}
