//! `compare PROGRAM N [FIRST-SEED]`: holds PROGRAM against this library on N
//! generated sessions, half of them with a `std.txt`, each whole and cut in two
//! by `--write` and `--read`, and on some texts of standards and of books beside
//! each. Stops at the first difference.

mod books;
mod difference;
mod failures;
mod files;
mod halves;
mod runs;
mod standards;
mod tally;
mod trial;

use books::BookTrial;
use failures::tells_failures;
use halves::hold_halves;
use second::asked::answered;
use second::room::Room;
use std::ffi::OsStr;
use std::process::ExitCode;
use std::time::Instant;
use tally::Tally;
use trial::Trial;

const PROGRESS_EVERY: u64 = 25;

/// Texts of standards beside each session, and as many of books.
const TEXTS: u64 = 10;

fn main() -> ExitCode {
    answered("compare PROGRAM N [FIRST-SEED]", |asked| {
        let room = Room::new().map_err(|error| format!("no room to run in: {error}"))?;
        tells_failures(&room, &asked.program)?;
        let tally = compare(&room, &asked.program, asked.count, asked.seed)?;
        let count = asked.count;
        Ok(format!(
            "{count} sessions compared, 0 differences ({tally})"
        ))
    })
}

fn compare(room: &Room, program: &OsStr, count: u64, first_seed: u64) -> Result<Tally, String> {
    let begun = Instant::now();
    let mut tally = Tally::default();
    for turn in 0..count {
        let seed = first_seed.wrapping_add(turn);
        let trial = Trial::of(turn, seed);
        tally.count_session(trial.hold(room, program)?);
        tally.count_halves(hold_halves(&trial, room, program)?);
        for text in 0..TEXTS {
            let seed = seed.wrapping_mul(TEXTS).wrapping_add(text);
            tally.count_text(Trial::of_text(seed).hold(room, program)?);
            tally.count_book(BookTrial::of(seed).hold(room, program)?);
        }
        if (turn + 1) % PROGRESS_EVERY == 0 || turn + 1 == count {
            eprintln!(
                "{} of {count} sessions, {} lines, seed {seed}, {:.1} s",
                turn + 1,
                tally.lines,
                begun.elapsed().as_secs_f64()
            );
        }
    }
    Ok(tally)
}
