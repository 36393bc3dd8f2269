//! Card 7: where the program `second` takes its standards from.

mod common;

use common::program::{answered, gives, run, told, unread};
use second::room::{Room, STD};
use second::standards::Table;
use std::fs;

/// Under a standard of 500 the part is 1, by the built-in table 68.
const INPUT: &str = "(file (maker 0) (set 3) (year 2014) (use 0) (edition 0) (family 0) \
                     (fcl 499) (cf 1) (volume 1) (life 1))\n";

/// A table of 500 throughout.
fn office() -> String {
    Table([[500; 6]; 24]).to_string()
}

#[test]
fn the_standards_are_those_of_std_txt_or_built_in() {
    let room = Room::new().expect("made");
    for arguments in [&[][..], &["--no-accounts"]] {
        room.lay_out(None).expect("laid out");
        assert_eq!(gives(&room, arguments, INPUT), answered("(ok 68 1)\n"));
        room.lay_out(Some(office().as_bytes())).expect("laid out");
        assert_eq!(gives(&room, arguments, INPUT), answered("(ok 1 1)\n"));
        let built_in = Table::built_in().to_string();
        room.lay_out(Some(built_in.as_bytes())).expect("laid out");
        assert_eq!(gives(&room, arguments, INPUT), answered("(ok 68 1)\n"));
    }
}

#[test]
fn standards_at_fault_are_the_whole_answer() {
    let room = Room::new().expect("made");
    let risen = office().replace("2015 500", "2015 501");
    let late = office().replace("2014", "2015");
    for (text, answer) in [
        ("", "(no 19)\n"),
        ("\n", "(no 19)\n"),
        (&late, "(no 19)\n"),
        (&risen, "(no 20)\n"),
    ] {
        room.lay_out(Some(text.as_bytes())).expect("laid out");
        for arguments in [&[][..], &["--no-accounts"], &["--std", STD]] {
            assert_eq!(gives(&room, arguments, INPUT), unread(answer));
        }
    }
}

#[test]
fn a_named_file_takes_the_place_of_std_txt() {
    let room = Room::new().expect("made");
    room.lay_out(Some(b"x")).expect("laid out");
    room.write("office.std", office().as_bytes())
        .expect("written");
    for arguments in [
        &["--std", "office.std"][..],
        &["--std", "office.std", "--no-accounts"],
        &["--no-accounts", "--std", "office.std"],
    ] {
        assert_eq!(gives(&room, arguments, INPUT), answered("(ok 1 1)\n"));
    }
}

#[test]
fn standards_that_cannot_be_read_are_told() {
    let room = Room::new().expect("made");
    fs::create_dir(room.path().join(STD)).expect("made");
    for (arguments, why) in [
        (&[][..], STD),
        (&["--no-accounts"], STD),
        (&["--std", "."], "."),
        // A file that is named must be there.
        (&["--std", "missing"], "missing"),
    ] {
        // Nothing is posted.
        assert_eq!(told(&room, arguments, INPUT, why), unread(""));
    }
}

#[test]
fn other_arguments_are_refused() {
    let room = Room::new().expect("made");
    for arguments in [
        &["--std"][..],
        &["--std", STD, "--std", STD],
        &["--no-accounts", "--no-accounts"],
        &["--accounts"],
        &["office.std"],
    ] {
        let (output, read) = run(&room, arguments, INPUT);
        assert_eq!((output.status.code(), read), (Some(2), 0));
        assert!(output.stdout.is_empty() && !output.stderr.is_empty());
    }
}
