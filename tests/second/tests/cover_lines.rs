//! Card 9: the line `(cover (maker N) (set N))`, its answer, and sessions with
//! it that are cut in two.

mod common;

use common::payable::many;
use common::*;
use second::generate::rng::Rng;
use second::postings::{Call, Cover};
use second::text::{parse, LINE_LIMIT};
use second::written::{read, text_of};

const RIGHT: &str = "(cover (maker 7) (set 3))";

#[test]
fn the_form() {
    let call = Call::Cover(Cover { maker: 7, set: 3 });
    assert_eq!(parse(RIGHT.as_bytes()), Some(call));
    assert_eq!(call.to_string(), RIGHT);
    let far = Cover {
        maker: 999_999_999_999,
        set: 100_000_000_000,
    };
    let longest = Call::Cover(far).to_string();
    assert_eq!(parse(longest.as_bytes()), Some(Call::Cover(far)));
    assert!(longest.len() < LINE_LIMIT);
}

#[test]
fn near_forms_are_no_forms() {
    let heads = "covers Cover COVER covered cove over recover cover0 (cover cover( pay";
    let mut near: Vec<String> = heads
        .split(' ')
        .map(|head| RIGHT.replacen("cover", head, 1))
        .collect();
    let numbers = "07 00 007 -7 +7 7.0 0x7 seven 0000000000007 1000000000000 9999999999999";
    for number in numbers.split(' ').chain(["", " 7", "7 "]) {
        near.push(RIGHT.replacen('7', number, 1));
        near.push(RIGHT.replacen('3', number, 1));
    }
    // A byte lost.
    near.extend((0..RIGHT.len()).map(|at| format!("{}{}", &RIGHT[..at], &RIGHT[at + 1..])));
    let others = [
        "(cover)",
        "(cover )",
        "(cover (maker 7))",
        "(cover (set 3))",
        "(cover (set 3) (maker 7))",
        "(cover (maker 7) (maker 7))",
        "(cover (maker 7) (set 3) (mg 1))",
        "(cover (maker 0) (set 0) (mg 1))",
        "(cover (maker 7) (set 3) (set 3))",
        "(cover (maker 7) (set 3) (year 2014))",
        "(cover (maker 7) (set 3) (vintage 2014))",
        "(cover (maker 7) (vintage 2014) (year 2014) (mg 1))",
        "(cover (from 7) (set 3))",
        "(cover (Maker 7) (set 3))",
        "(cover (maker 7) (sets 3))",
        "(cover (maker 7)(set 3))",
        "(cover(maker 7) (set 3))",
        "(cover  (maker 7) (set 3))",
        "(cover (maker  7) (set 3))",
        "(cover (maker 7)  (set 3))",
        "(cover (maker 7) (set 3) )",
        "(cover\t(maker 7) (set 3))",
        "cover (maker 7) (set 3)",
        "(cover maker 7 set 3)",
        "(cover 7 3)",
        "[cover [maker 7] [set 3]]",
        "((cover (maker 7) (set 3)))",
        "(apply (maker 7) (set 3))",
        "(retire (maker 7) (set 3))",
    ];
    near.extend(others.map(String::from));
    let ends = [" ", "\r", "\t", "\0", ")", "()", "; all"];
    near.extend(ends.map(|end| format!("{RIGHT}{end}")));
    near.extend([" ", "\u{feff}", "("].map(|begin| format!("{begin}{RIGHT}")));
    near.push(format!("{RIGHT}{RIGHT}"));
    near.push(RIGHT.to_uppercase());
    for line in &near {
        assert_ne!(line, RIGHT);
        assert!(parse(line.as_bytes()).is_none(), "{line}");
        assert_eq!(output(&format!("{line}\n")), "(no 1)\n", "{line}");
    }
}

/// Filled with blanks or zeros it is no form at any length.
#[test]
fn a_longer_line_is_no_form() {
    for length in [RIGHT.len() + 1, 159, 160, 161, 5_000] {
        for filler in [" ", "0"] {
            let more = filler.repeat(length - RIGHT.len());
            for line in [format!("{RIGHT}{more}"), format!("{more}{RIGHT}")] {
                assert_eq!(output_in_pieces(line.as_bytes(), 100), "(no 1)\n");
            }
        }
    }
}

/// Nothing but the Mg moved is answered, 0 too.
#[test]
fn answers_on_the_terminal() {
    let text = "(open 2017)\n(lot 7 3 2014 9)\n(lot 7 3 2016 5)\n(short 7 3 2015 11)\n";
    let book = read(text.as_bytes()).expect("a book");
    let input = "\
(cover (maker 8) (set 4))
(cover (maker 8) (set 3))
(cover (maker 7) (set 4))
(cover (maker 999999999999) (set 3))
(cover (maker 7) (set 2))
(cover (maker 7) (set 3))
(cover (maker 7) (set 3))
(cover (maker 7) (set 3)";
    let (output, after) = output_begun(book, &BUILT_IN, input.as_bytes(), 7);
    let expected = "\
(no 3)
(no 3)
(no 4)
(no 3)
(ok 0)
(ok 11)
(ok 0)
(no 1)
(lot 7 3 2016 live 3)
";
    assert_eq!(output, expected);
    assert_eq!(text_of(&after), "(open 2017)\n(lot 7 3 2016 3)\n");
}

/// Before a cover and after it: what is read in is what it goes by.
#[test]
fn sessions_with_covers_cut_at_every_line() {
    let mut rng = Rng::new(98);
    let mut moved = 0;
    for _ in 0..30 {
        let begun = many(&mut rng);
        let mut lines = Vec::new();
        for _ in 0..8 {
            let (maker, set) = (rng.below(9), rng.below(4));
            lines.push(format!("(cover (maker {maker}) (set {set}))\n"));
        }
        lines.insert(4, format!("(close (year {}))\n", begun.open_year));
        let whole = output_begun(begun.clone(), &BUILT_IN, lines.concat().as_bytes(), 4_096).0;
        let (mut said, mut book) = (String::new(), begun);
        for (at, line) in lines.iter().enumerate() {
            let (output, after) = output_begun(book, &BUILT_IN, line.as_bytes(), 4_096);
            book = read(text_of(&after).as_bytes()).expect("a book");
            assert!(book == after);
            let last = at + 1 == lines.len();
            let answers = output
                .split_inclusive('\n')
                .take(if last { usize::MAX } else { 1 });
            said.extend(answers);
            moved += u32::from(line.starts_with("(cover") && !output.starts_with("(ok 0)"));
        }
        assert_eq!(said, whole);
    }
    assert!(moved >= 100, "{moved}");
}
