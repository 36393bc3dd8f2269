//! Card 8: the books that the program `second` begins with and leaves.

mod common;

use common::program::{answered, gives, run, told, unread};
use common::written::TEXT;
use second::room::Room;
use std::fs;

const INPUT: &str = "(retire (maker 0) (set 3) (vintage 2014) (mg 11900))\n(close (year 2017))\n";
const LISTING: &str = "(lot 0 3 2014 live 11980)\n(lot 0 3 2016 live 1)\n\
                       (short 1 3 2014 open 61)\n(short 1 3 2015 open 25000000000)\n\
                       (lot 7 0 2015 live 200000000000)\n";

fn room(files: &[(&str, &str)]) -> Room {
    let room = Room::new().expect("made");
    for (name, text) in files {
        room.write(name, text.as_bytes()).expect("written");
    }
    room
}

/// The files in a room, but for the input.
fn files(room: &Room) -> Vec<String> {
    let entries = fs::read_dir(room.path()).expect("listed");
    let names = entries.map(|entry| entry.expect("an entry").file_name());
    let mut names: Vec<String> = names
        .map(|name| name.to_string_lossy().into_owned())
        .filter(|name| name != "input")
        .collect();
    names.sort();
    names
}

fn file(room: &Room, name: &str) -> String {
    fs::read_to_string(room.path().join(name)).expect("a file")
}

#[test]
fn a_session_begins_with_the_book_read() {
    let room = room(&[("b", TEXT)]);
    assert_eq!(gives(&room, &["--read", "b"], ""), unread(LISTING));
    for arguments in [&["--read", "b"][..], &["--read", "b", "--no-accounts"]] {
        let (said, _) = gives(&room, arguments, INPUT);
        let mut lines = said.lines();
        assert_eq!(lines.next(), Some("(ok 80)"));
        assert_eq!(lines.next(), Some("(ok 2)"));
        assert_eq!(lines.next(), Some("(lot 0 2 2017 live 384000000)"));
    }
    assert_eq!(files(&room), ["b"]);
}

#[test]
fn the_book_is_written_after_the_listing() {
    let room = room(&[("old", "x")]);
    for name in ["new", "old"] {
        let said = gives(&room, &["--write", name], "(close (year 2014))\n");
        assert_eq!(said, answered("(ok 0)\n"));
        assert_eq!(file(&room, name), "(open 2015)\n");
    }
    assert_eq!(files(&room), ["new", "old"]);
}

#[test]
fn what_is_read_and_written_is_the_same() {
    let room = room(&[("b", TEXT)]);
    for name in ["b", "c"] {
        let said = gives(&room, &["--write", name, "--read", "b"], "");
        assert_eq!(said, unread(LISTING));
        assert_eq!(file(&room, name), TEXT);
    }
    assert_eq!(files(&room), ["b", "c"]);
}

#[test]
fn a_refused_book_is_the_whole_answer() {
    let faulty = [
        ("(open 2013)\n", "(no 2)\n"),
        ("(open 2014)", "(no 22)\n"),
        ("", "(no 22)\n"),
        ("(open 2013)", "(no 22)\n"),
    ];
    let huge = TEXT.repeat(30_000);
    for (text, answer) in faulty.into_iter().chain([(&*huge, "(no 22)\n")]) {
        let room = room(&[("b", text), ("old", "x")]);
        for arguments in [
            &["--read", "b"][..],
            &["--read", "b", "--write", "old"],
            &["--read", "b", "--write", "new"],
            &["--read", "b", "--write", "b"],
            &["--read", "b", "--write", "nowhere/new"],
        ] {
            assert_eq!(gives(&room, arguments, INPUT), unread(answer));
        }
        assert_eq!(files(&room), ["b", "old"]);
        assert_eq!((&*file(&room, "b"), &*file(&room, "old")), (text, "x"));
    }
}

#[test]
fn the_standards_are_judged_before_the_book() {
    let room = room(&[("std.txt", "x"), ("b", "x"), ("good", TEXT)]);
    for name in ["b", "good", "missing", "."] {
        let said = gives(&room, &["--read", name, "--write", "new"], INPUT);
        assert_eq!(said, unread("(no 19)\n"));
    }
    assert_eq!(files(&room), ["b", "good", "std.txt"]);
}

#[test]
fn a_book_that_cannot_be_read_is_told() {
    let room = room(&[]);
    for name in [".", "missing", "nowhere/b"] {
        let said = told(&room, &["--read", name, "--write", "new"], INPUT, name);
        assert_eq!(said, unread(""));
    }
    assert!(files(&room).is_empty());
}

/// What was answered stays answered.
#[test]
fn a_book_that_cannot_be_written_is_told() {
    let room = room(&[]);
    fs::create_dir(room.path().join("taken")).expect("made");
    for name in ["taken", "nowhere/b", "."] {
        let said = told(&room, &["--write", name], "(close (year 2014))\n", name);
        assert_eq!(said, answered("(ok 0)\n"));
    }
    assert_eq!(files(&room), ["taken"]);
}

#[test]
fn other_arguments_are_refused() {
    let room = room(&[("b", TEXT)]);
    for arguments in [
        &["--read"][..],
        &["--write"],
        &["--read", "b", "--read", "b"],
        &["--write", "c", "--write", "d"],
        &["--read=b"],
        &["b"],
    ] {
        let (output, read) = run(&room, arguments, INPUT);
        assert_eq!((output.status.code(), read), (Some(2), 0));
        assert!(output.stdout.is_empty() && !output.stderr.is_empty());
    }
    assert_eq!(files(&room), ["b"]);
}
