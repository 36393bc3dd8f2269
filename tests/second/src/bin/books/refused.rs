//! Records that are none: each must get a message and no answer, nor may the
//! good record after it.

use crate::calls::{FILE_BY, KINDS};
use crate::case::Case;
use crate::texts::{TextCase, MOST};
use second::generate::rng::Rng;
use std::ffi::OsStr;
use std::io::{self, Write};
use std::process::{Command, Output, Stdio};
use std::thread;

/// Kinds that are none; a remainder or a narrower type takes each for one.
const NO_KINDS: [u64; 9] = [
    9,
    11,
    15,
    1 << 8,
    (1 << 8) + 5,
    (1 << 8) + 8,
    1 << 16,
    1 << 32,
    1 << 63,
];

/// More bytes than a record may have.
const TOO_MANY: [u64; 4] = [MOST as u64 + 1, (1 << 32) + 1, 1 << 63, u64::MAX];

pub fn refuses_no_records(program: &OsStr, seed: u64) -> Result<(), String> {
    let rng = &mut Rng::new(seed);
    let good = Case::drawn(rng).record();
    let hold = |bad: Vec<u8>, what: String| {
        let given = run(program, &[bad, good.clone()].concat())
            .map_err(|error| format!("{}: {error}", program.to_string_lossy()))?;
        if !given.stdout.is_empty() || given.stderr.is_empty() {
            return Err(format!("{what}, and was not refused"));
        }
        Ok(())
    };
    for kind in NO_KINDS {
        let mut bad = Case::drawn(rng);
        bad.call[0] = kind;
        hold(bad.record(), format!("kind {kind} is none"))?;
    }
    for length in TOO_MANY {
        let bad = TextCase::drawn(rng).record_with(length);
        hold(bad, format!("{length} bytes are too many"))?;
    }
    Ok(())
}

fn run(program: &OsStr, input: &[u8]) -> io::Result<Output> {
    let mut child = Command::new(program)
        .stdin(Stdio::piped())
        .stdout(Stdio::piped())
        .stderr(Stdio::piped())
        .spawn()?;
    let stdin = child.stdin.take();
    thread::scope(|scope| {
        // A program that stops reading shows in its output.
        scope.spawn(|| stdin.map(|mut stdin| stdin.write_all(input)));
        child.wait_with_output()
    })
}

const _: () = assert!(FILE_BY + 1 == KINDS && NO_KINDS[0] as usize == KINDS);
