//! Runs of the program `second`.

use second::room::Room;
use std::ffi::OsStr;
use std::fs::File;
use std::io::Seek;
use std::process::Output;

/// What the program gives in a room, and how many bytes of its input it read.
pub fn run(room: &Room, arguments: &[&str], input: &str) -> (Output, u64) {
    let input = room.write("input", input.as_bytes()).expect("written");
    let mut input = File::open(input).expect("opened");
    let output = room
        .command(OsStr::new(env!("CARGO_BIN_EXE_second")))
        .expect("built")
        .args(arguments)
        .stdin(input.try_clone().expect("shared"))
        .output()
        .expect("run");
    (output, input.stream_position().expect("told"))
}

/// The output of a run that must end well; whether it read its input.
pub fn gives(room: &Room, arguments: &[&str], input: &str) -> (String, bool) {
    let (output, read) = run(room, arguments, input);
    assert_eq!(output.status.code(), Some(0));
    assert!(output.stderr.is_empty());
    let said = String::from_utf8(output.stdout).expect("plain text");
    (said, read > 0)
}

pub fn answered(text: &str) -> (String, bool) {
    (text.into(), true)
}

pub fn unread(text: &str) -> (String, bool) {
    (text.into(), false)
}

/// The output of a run that must end with a message about a file.
pub fn told(room: &Room, arguments: &[&str], input: &str, why: &str) -> (String, bool) {
    let (output, read) = run(room, arguments, input);
    assert_eq!(output.status.code(), Some(1));
    let said = String::from_utf8_lossy(&output.stderr).into_owned();
    assert!(said.starts_with(&format!("second: {why}: ")), "{said}");
    let answers = String::from_utf8(output.stdout).expect("plain text");
    (answers, read > 0)
}
