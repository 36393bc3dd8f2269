//! A session cut in two at a line: its book is written at the end of the one
//! half and read at the beginning of the other.

use crate::files::{hold_file, AFTER, BOOK};
use crate::runs::run;
use crate::trial::{cut, ours, Trial};
use second::book::Book;
use second::generate::rng::Rng;
use second::room::Room;
use second::standards::Table;
use second::written::text_of;
use std::ffi::OsStr;

/// Whether the program's halves together are this library's whole. With
/// standards at fault there is no session to cut.
pub fn hold_halves(trial: &Trial, room: &Room, program: &OsStr) -> Result<bool, String> {
    let Ok(table) = &trial.standards.table else {
        return Ok(false);
    };
    let input = trial.input();
    let ends = input.iter().enumerate().filter(|(_, &byte)| byte == b'\n');
    let ends: Vec<usize> = ends.map(|(at, _)| at + 1).collect();
    let at = Rng::new(trial.seed).pick(&ends).copied().unwrap_or(0);
    let halves = Halves {
        table,
        input: input.split_at(at),
        piece: trial.piece,
    };
    let told = |why: String| trial.told(&format!("cut after byte {at}: {why}"));
    trial
        .standards
        .lay_out(room)
        .map_err(|error| told(error.to_string()))?;
    halves.hold(room, program).map_err(told)?;
    Ok(true)
}

struct Halves<'a> {
    table: &'a Table,
    input: (&'a [u8], &'a [u8]),
    piece: usize,
}

impl Halves<'_> {
    fn hold(&self, room: &Room, program: &OsStr) -> Result<(), String> {
        let (first, second) = self.input;
        let whole = [first, second].concat();
        let (whole, end) = ours(Book::fresh(), self.table, &whole, self.piece)?;
        let (expected, middle) = ours(Book::fresh(), self.table, first, self.piece)?;
        // As many answers as lines.
        let lines = cut(first).len();
        let answered: usize = whole
            .split_inclusive(|&byte| byte == b'\n')
            .take(lines)
            .map(<[u8]>::len)
            .sum();
        self.run(room, program, &["--write", BOOK], first, &expected)?;
        hold_file(room, BOOK, Some(text_of(&middle).as_bytes()))?;
        let arguments = ["--read", BOOK, "--write", AFTER];
        self.run(room, program, &arguments, second, &whole[answered..])?;
        hold_file(room, AFTER, Some(text_of(&end).as_bytes()))?;
        for file in [BOOK, AFTER] {
            room.remove(file).map_err(|error| error.to_string())?;
        }
        Ok(())
    }

    fn run(
        &self,
        room: &Room,
        program: &OsStr,
        arguments: &[&str],
        input: &[u8],
        expected: &[u8],
    ) -> Result<(), String> {
        let run = || {
            let mut command = room.command(program)?;
            run(command.args(arguments), input, self.piece)
        };
        let given = run().map_err(|error| format!("{}: {error}", program.to_string_lossy()))?;
        given
            .hold(&cut(input), expected)
            .map_err(|why| format!("{}: {why}", arguments.join(" ")))
    }
}
