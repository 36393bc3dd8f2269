//! The examples of the repository.

mod common;

use common::*;
use second::standards::Table;
use second::std_text::read_table;
use std::fs;

fn example(name: &str) -> String {
    let here = concat!(env!("CARGO_MANIFEST_DIR"), "/../../examples/");
    fs::read_to_string(format!("{here}{name}")).expect("an example")
}

fn table(name: &str) -> Table {
    let read = read_table(example(name).as_bytes()).expect("read");
    read.expect("accepted")
}

#[test]
fn the_sample_session() {
    assert_eq!(output(&example("sample.txt")), example("sample.out"));
}

#[test]
fn a_cover() {
    assert_eq!(output(&example("cover.txt")), example("cover.out"));
}

#[test]
fn small_filings() {
    assert_eq!(output(&example("small.txt")), example("small.out"));
}

#[test]
fn the_built_in_standards() {
    assert_eq!(example("std.txt"), BUILT_IN.to_string());
    assert_eq!(table("std.txt"), *BUILT_IN);
}

#[test]
fn another_offices_session() {
    let (table, input) = (table("office-std.txt"), example("office.txt"));
    assert_ne!(table, *BUILT_IN);
    let given = output_under(&table, input.as_bytes(), 100);
    assert_eq!(given, example("office.out"));
    // Under the built-in standards it is another.
    assert_ne!(output(&input), given);
}
