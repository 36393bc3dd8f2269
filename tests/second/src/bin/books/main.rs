//! `books PROGRAM N [SEED]`: holds PROGRAM, the probe of the book layer,
//! against this library on N random books with a call and a table each, sound
//! or not, and stops at the first difference.
//!
//! PROGRAM reads records to the end of its input and ignores a last one that
//! is cut short. A record is 3,617 words of a book, then a call's kind and
//! twelve arguments, then 144 words of a table, row by row, whatever the call: in
//! all 30,192 bytes. Its answer is the book's soundness, the refusal or 0, two
//! values, and the book after it. A word is 64 bits, low byte first. The kinds
//! are 0 file, 1 close, 2 trade, 3 apply, 4 retire, 5 amend, 7 cover, 8 a filing
//! by a pair: after its ten arguments the largest number and the largest volume.
//! One that is none ends PROGRAM with a message, and is tried first.
//!
//! One record in three is of kind 6, followed by as many bytes as its first
//! argument says, at most 229,441. These are read as a text with the book lent,
//! and the book is written into them as a lent buffer. The answer is the book's
//! soundness, the refusal when written or 0, the length or 0, the refusal when
//! read or 0, the book after the reading, and then the bytes after the writing.
//! More bytes than that end PROGRAM with a message, and are tried first too.

mod aimed;
mod asking;
mod calls;
mod case;
mod covers;
mod pairs;
mod refused;
mod tally;
mod texts;
mod words;

use asking::Asking;
use refused::refuses_no_records;
use second::asked::{answered, Asked};
use second::generate::rng::Rng;
use std::io::{BufReader, BufWriter, Read, Write};
use std::process::{ChildStdin, Command, ExitCode, Stdio};
use std::sync::mpsc::{sync_channel, Receiver, SyncSender};
use std::thread;
use std::time::Instant;
use tally::Tally;

const PROGRESS_EVERY: u64 = 2_000;
/// Cases on their way to the program.
const AHEAD: usize = 16;

fn main() -> ExitCode {
    answered("books PROGRAM N [SEED]", |asked| {
        refuses_no_records(&asked.program, asked.seed)?;
        let tally = compare(asked)?;
        eprintln!("{}", tally.by_kind());
        let count = asked.count;
        let answers = tally.answers();
        Ok(format!("{count} books compared, 0 differences ({answers})"))
    })
}

fn compare(asked: &Asked) -> Result<Tally, String> {
    let (program, count, seed) = (&asked.program, asked.count, asked.seed);
    let named = |what: &dyn std::fmt::Display| format!("{}: {what}", program.to_string_lossy());
    let mut child = Command::new(program)
        .stdin(Stdio::piped())
        .stdout(Stdio::piped())
        .spawn()
        .map_err(|error| named(&error))?;
    let stdin = child.stdin.take();
    let stdout = child.stdout.take().ok_or_else(|| named(&"no output"))?;
    let mut answers = BufReader::with_capacity(1 << 18, stdout);
    let tally = thread::scope(|scope| {
        let (sender, askings) = sync_channel(AHEAD);
        scope.spawn(move || hand_over(stdin, sender, count, seed));
        let tally = held(&mut answers, askings, count, seed);
        if tally.is_err() {
            // Else the other thread waits for a program that waits for us.
            let _ = child.kill();
        }
        tally
    });
    let more = answers.bytes().next().is_some();
    let status = child.wait().map_err(|error| named(&error))?;
    let tally = tally?;
    if tally.books != count {
        return Err(named(&format!("it took {} of {count} books", tally.books)));
    }
    if more {
        return Err(named(&"it answers more than it was asked"));
    }
    if !status.success() {
        return Err(named(&format!("it ended with {status}")));
    }
    Ok(tally)
}

/// Holds the answers against ours, until they end or one differs.
fn held(
    answers: &mut impl Read,
    askings: Receiver<Asking>,
    count: u64,
    seed: u64,
) -> Result<Tally, String> {
    let begun = Instant::now();
    let mut tally = Tally::default();
    for asking in askings {
        asking
            .hold(answers, &mut tally)
            .map_err(|why| format!("seed {seed}, {why}"))?;
        if tally.books % PROGRESS_EVERY == 0 {
            let seconds = begun.elapsed().as_secs_f64();
            eprintln!(
                "{} of {count} books, seed {seed}, {seconds:.1} s",
                tally.books
            );
        }
    }
    Ok(tally)
}

/// Writes every record, and at last one that is cut short. What is asked is
/// sent on once the program has its record.
fn hand_over(stdin: Option<ChildStdin>, sender: SyncSender<Asking>, count: u64, seed: u64) {
    let Some(mut stdin) = stdin.map(|stdin| BufWriter::with_capacity(1 << 16, stdin)) else {
        return;
    };
    for number in 0..count {
        let asking = Asking::of(seed, number);
        let handed = stdin
            .write_all(&asking.record())
            .and_then(|()| stdin.flush());
        if handed.is_err() || sender.send(asking).is_err() {
            return;
        }
    }
    let last = Asking::of(seed, count).record();
    let cut = Rng::new(count).index(last.len());
    let _ = stdin.write_all(&last[..cut]).and_then(|()| stdin.flush());
}
