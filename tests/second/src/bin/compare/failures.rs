//! Files that cannot be read or written: each must get a message.

use second::room::{Room, STD};
use std::ffi::OsStr;
use std::fs::{self, File};
use std::io;
use std::process::Output;

const INPUT: &[u8] = b"(close (year 2014))\n";
const ANSWER: &[u8] = b"(ok 0)\n";

/// A directory that stands where a file should.
const TAKEN: &str = "taken";

pub fn tells_failures(room: &Room, program: &OsStr) -> Result<(), String> {
    tells_std(room, program)?;
    tells_books(room, program)
}

/// Standards that are there and cannot be read get a message and no answer.
fn tells_std(room: &Room, program: &OsStr) -> Result<(), String> {
    let given = || {
        fs::create_dir(room.path().join(STD))?;
        let given = run(room, program, &[])?;
        fs::remove_dir(room.path().join(STD))?;
        Ok(given)
    };
    held(program, given(), b"", STD)
}

/// So does a book; one that cannot be written gets its message after the
/// answers, and nothing is left of it.
fn tells_books(room: &Room, program: &OsStr) -> Result<(), String> {
    for (option, answers) in [("--read", &b""[..]), ("--write", ANSWER)] {
        for file in [TAKEN, "nowhere/book.txt"] {
            let given = || {
                fs::create_dir(room.path().join(TAKEN))?;
                let given = run(room, program, &[option, file])?;
                fs::remove_dir(room.path().join(TAKEN))?;
                Ok(given)
            };
            held(program, given(), answers, &format!("{option} {file}"))?;
            hold_empty(room, option)?;
        }
    }
    let given = run(room, program, &["--read", "missing", "--write", "new"]);
    held(program, given, b"", "--read missing")?;
    hold_empty(room, "--read missing")
}

fn run(room: &Room, program: &OsStr, arguments: &[&str]) -> io::Result<Output> {
    let input = File::open(room.write("input", INPUT)?)?;
    let given = room.command(program)?.args(arguments).stdin(input).output();
    room.remove("input")?;
    given
}

fn held(
    program: &OsStr,
    given: io::Result<Output>,
    answers: &[u8],
    file: &str,
) -> Result<(), String> {
    let given = given.map_err(|error| format!("{}: {error}", program.to_string_lossy()))?;
    if given.stdout == answers && !given.stderr.is_empty() {
        Ok(())
    } else {
        Err(format!("{file}: that it failed was not told, or not alone"))
    }
}

fn hold_empty(room: &Room, after: &str) -> Result<(), String> {
    let names = room.names().map_err(|error| error.to_string())?;
    if names.is_empty() {
        Ok(())
    } else {
        Err(format!("{after}: the program left {}", names.join(", ")))
    }
}
