//! Runs of the program in a room.

use crate::difference::first_difference;
use second::room::Room;
use std::fs::File;
use std::io::{self, Read, Seek, Write};
use std::process::{ChildStdin, Command, ExitStatus, Stdio};
use std::thread;

/// What a run gave.
pub struct Given {
    output: Vec<u8>,
    status: ExitStatus,
    /// The bytes read of an input that was not to be read.
    read: u64,
}

impl Given {
    /// Whether it is what this library gives to these lines.
    pub fn hold(&self, lines: &[Vec<u8>], expected: &[u8]) -> Result<(), String> {
        if self.output != expected {
            return Err(first_difference(lines, &self.output, expected));
        }
        if self.read > 0 {
            return Err(format!("the program read {} bytes of its input", self.read));
        }
        if !self.status.success() {
            return Err(format!("the program ended with {}", self.status));
        }
        Ok(())
    }
}

/// With the input handed over in pieces.
pub fn run(program: &mut Command, input: &[u8], piece: usize) -> io::Result<Given> {
    let mut child = program
        .stdin(Stdio::piped())
        .stdout(Stdio::piped())
        .spawn()?;
    let stdin = child.stdin.take();
    let stdout = child.stdout.take();
    let mut output = Vec::new();
    thread::scope(|scope| {
        scope.spawn(|| hand_over(stdin, input, piece));
        stdout.map_or(Ok(0), |mut out| out.read_to_end(&mut output))
    })?;
    Ok(Given {
        output,
        status: child.wait()?,
        read: 0,
    })
}

/// A program that stops reading shows in its output.
fn hand_over(stdin: Option<ChildStdin>, input: &[u8], piece: usize) {
    if let Some(mut stdin) = stdin {
        let _ = input
            .chunks(piece)
            .try_for_each(|bytes| stdin.write_all(bytes));
    }
}

/// Where the input must not be read. The place to read at, which we share with
/// the program, tells whether it did.
pub fn run_unread(room: &Room, program: &mut Command, input: &[u8]) -> io::Result<Given> {
    let mut file = File::open(room.write("input", input)?)?;
    let output = program
        .stdin(file.try_clone()?)
        .stderr(Stdio::inherit())
        .output()?;
    room.remove("input")?;
    Ok(Given {
        output: output.stdout,
        status: output.status,
        read: file.stream_position()?,
    })
}
