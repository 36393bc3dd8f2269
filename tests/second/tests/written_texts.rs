//! Card 8: both ways between books and texts, for any of them.

mod common;

use common::any::begun;
use common::written::verdict;
use second::book::Book;
use second::generate::book_texts::{book_text, some_book};
use second::generate::books::Make;
use second::generate::rng::Rng;
use second::written::{read, read_from, read_in, text_of, write, written, LONGEST};
use std::collections::BTreeMap;
use std::io::{self, Read};

#[test]
fn a_sound_book_written_and_read_is_the_same_book() {
    let mut rng = Rng::new(8);
    let mut books: Vec<Book> = (0..300).map(|_| some_book(&mut rng)).collect();
    books.extend((0..60).map(|_| begun(&mut rng)).filter(Book::is_sound));
    for book in books {
        let text = written(&book).expect("sound");
        assert!(text.len() <= LONGEST);
        assert!(read(text.as_bytes()).as_ref() == Ok(&book));
        let mut buffer = vec![0; text.len()];
        assert_eq!(write(&book, &mut buffer), Ok(text.len()));
        assert_eq!(buffer, text.as_bytes());
    }
}

#[test]
fn any_other_book_is_refused() {
    let mut rng = Rng::new(9);
    let mut unsound = 0;
    for _ in 0..300 {
        let book = Make::unsound(&mut rng).book(&mut rng);
        let mut buffer = vec![7; rng.index(2) * LONGEST];
        let lent = buffer.clone();
        let refused = write(&book, &mut buffer);
        if !book.is_sound() {
            assert_eq!(refused.map_err(|refusal| refusal.number()), Err(2));
            assert_eq!(buffer, lent);
            unsound += 1;
        }
    }
    assert!(unsound > 250);
}

/// The card's words, by other means: in the order of the groups every place
/// that a line may name is looked for at the text's head.
fn by_words(text: &[u8]) -> u8 {
    let Ok(text) = std::str::from_utf8(text) else {
        return 22;
    };
    let open = text.split_once('\n').and_then(|(line, rest)| {
        let year = line.strip_prefix("(open ")?.strip_suffix(')')?;
        is_number(year).then_some((year, rest))
    });
    let Some((open, mut rest)) = open else {
        return 22;
    };
    let open: u64 = open.parse().expect("18 digits");
    let mut unsound = !(2014..=2038).contains(&open);
    let mut totals: BTreeMap<(u64, u64), u64> = BTreeMap::new();
    for (name, thirds) in [
        ("family", 0..=63),
        ("lot", 2014..=2037),
        ("short", 2014..=2037),
    ] {
        for (maker, set) in (0..8).flat_map(|maker| (0..4).map(move |set| (maker, set))) {
            let head = format!("({name} {maker} {set} ");
            for third in thirds.clone() {
                let Some(after) = rest.strip_prefix(&head) else {
                    break;
                };
                let Some(after) = after.strip_prefix(&format!("{third} ")) else {
                    continue;
                };
                let Some((figure, after)) = after.split_once(")\n") else {
                    return 22;
                };
                let Some(size) = size_of(figure, name == "family") else {
                    return 22;
                };
                rest = after;
                let total = totals.entry((set, third)).or_default();
                unsound |= match name {
                    "family" => size > 38_400_000_000_000_000,
                    "lot" => {
                        *total += size;
                        third >= open || *total > 200_000_000_000
                    }
                    _ => third >= open || size > 25_000_000_000,
                };
            }
        }
    }
    match rest {
        "" if unsound => 2,
        "" => 0,
        _ => 22,
    }
}

/// A part's size, or Mg above 0.
fn size_of(figure: &str, part: bool) -> Option<u64> {
    let (size, may_be_0) = match figure.strip_prefix('-') {
        Some(size) => (size, false),
        None => (figure, part),
    };
    let right = is_number(size) && (may_be_0 || size != "0") && (part || size == figure);
    right.then(|| size.parse().expect("18 digits"))
}

fn is_number(word: &str) -> bool {
    let digits = word.bytes().all(|byte| byte.is_ascii_digit());
    digits && (word == "0" || !word.starts_with('0')) && (1..=18).contains(&word.len())
}

#[test]
fn any_text_gets_what_the_cards_words_give() {
    let mut met: BTreeMap<u8, u32> = BTreeMap::new();
    for seed in 0..2_000 {
        let text = book_text(seed);
        let found = verdict(&text);
        assert_eq!(found, by_words(&text), "seed {seed}");
        *met.entry(found).or_default() += 1;
        let mut lent = Book::fresh();
        lent.open_year = seed;
        let before = lent.clone();
        let read = read_in(&mut lent, &text);
        assert_eq!(read.is_ok(), found == 0);
        if read.is_ok() {
            // An accepted text written again has the same bytes.
            assert_eq!(written(&lent).map(String::into_bytes), Ok(text));
        } else {
            assert!(lent == before, "seed {seed}");
        }
    }
    let least = [(0, 750), (2, 200), (22, 500)];
    for (what, least) in least {
        assert!(met[&what] >= least, "{met:?}");
    }
    assert_eq!(met.len(), 3);
}

/// What an accepted text, or one of no sound book, shows at a glance.
fn figures(text: &str, verdict: u8) -> Vec<&'static str> {
    let has = |figure: &str| text.contains(&format!(" {figure})\n"));
    let families = |end: &str| {
        let mut families = text.lines().filter(|line| line.starts_with("(family"));
        families.any(|line| line.ends_with(end))
    };
    let looks = [
        ("fresh", 0, text == "(open 2014)\n"),
        ("2048 families", 0, text.matches("(family").count() == 2048),
        ("families of 2038", 0, text.starts_with("(open 2038)\n(fam")),
        ("part 0", 0, families(" 0)")),
        ("part below 0", 0, text.contains(" -")),
        ("largest part", 0, has("38400000000000000")),
        ("least part", 0, has("-38400000000000000")),
        ("largest shortage", 0, has("25000000000")),
        ("largest lot", 0, has("200000000000")),
        ("part above", 2, has("38400000000000001")),
        ("part below", 2, has("-38400000000000001")),
        ("shortage above", 2, has("25000000001")),
        ("lot above", 2, has("200000000001")),
        ("18 digits", 2, has("999999999999999999")),
        ("the longest text", 2, text.len() > 127_000),
        ("open before", 2, text.starts_with("(open 2013)")),
        ("open after", 2, text.starts_with("(open 2039)")),
    ];
    let shown = looks.iter().filter(|look| look.1 == verdict && look.2);
    shown.map(|look| look.0).collect()
}

/// What a text that is none shows.
fn faults(text: &str) -> Vec<&'static str> {
    let words: Vec<Vec<&str>> = text
        .lines()
        .map(|line| line.trim_matches(['(', ')']).split(' ').collect())
        .collect();
    let any = |is_so: &dyn Fn(&[&str]) -> bool| words.iter().any(|words| is_so(words));
    let group = |words: &[&str]| {
        ["open", "family", "lot", "short"]
            .iter()
            .position(|name| words[0] == *name)
    };
    let at = |place: usize, word: &'static str| {
        any(&|words| words.len() == 5 && group(words).is_some() && words[place] == word)
    };
    let ranks = words.iter().map(|words| group(words));
    let looks = [
        ("empty", text.is_empty()),
        ("megabytes", text.len() > 1_000_000),
        ("longer than the longest", text.len() > 127_194),
        ("no open", !text.contains("(open")),
        (
            "open not first",
            text.contains("\n(open") && !text.starts_with("(open"),
        ),
        ("open twice", text.matches("(open").count() == 2),
        (
            "no last line feed",
            !text.is_empty() && !text.ends_with('\n'),
        ),
        ("an empty line at the end", text.ends_with(")\n\n")),
        ("an empty line", text.contains(")\n\n(")),
        ("a carriage return", text.contains("\r\n")),
        ("a tab", text.contains('\t')),
        ("a blank before", text.contains("\n (")),
        ("a blank after", text.contains(") \n")),
        ("two blanks", text.contains("  ")),
        ("a group out of order", !ranks.is_sorted()),
        ("-0", at(4, "-0")),
        (
            "0 Mg",
            any(&|words| words.len() == 5 && words[0] != "family" && words[4] == "0"),
        ),
        (
            "-1 Mg",
            any(&|words| words.len() == 5 && words[0] != "family" && words[4] == "-1"),
        ),
        ("19 digits", at(4, "1000000000000000000")),
        (
            "a leading zero",
            any(&|words| {
                words
                    .iter()
                    .any(|word| word.len() > 1 && word.starts_with('0'))
            }),
        ),
        ("maker 8", at(1, "8")),
        ("set 4", at(2, "4")),
        ("number 64", at(3, "64")),
        ("year 2013", at(3, "2013")),
        ("year 2038", at(3, "2038")),
        (
            "listing",
            any(&|words| words.len() == 6 && words[4] == "live"),
        ),
        ("a byte-order mark", text.starts_with('\u{feff}')),
    ];
    let shown = looks.iter().filter(|(_, is_so)| *is_so);
    shown.map(|&(what, _)| what).collect()
}

#[test]
fn texts_are_bent_in_every_way() {
    let mut met: BTreeMap<&str, u32> = BTreeMap::new();
    for text in (0..4_000).map(book_text) {
        let (verdict, text) = (verdict(&text), String::from_utf8_lossy(&text));
        let shown = match verdict {
            22 => faults(&text),
            _ => figures(&text, verdict),
        };
        for what in shown {
            *met.entry(what).or_default() += 1;
        }
    }
    assert_eq!(met.len(), 17 + 27, "{met:?}");
    assert!(met.values().all(|&n| n >= 5), "{met:?}");
}

/// A reader that fails after some bytes.
struct Failing<'a>(&'a [u8]);

impl Read for Failing<'_> {
    fn read(&mut self, into: &mut [u8]) -> io::Result<usize> {
        match self.0.read(into)? {
            0 => Err(io::ErrorKind::Other.into()),
            length => Ok(length),
        }
    }
}

#[test]
fn a_text_longer_than_any_is_refused_by_its_length() {
    // All that a text of the form can have, in numbers of 18 digits.
    let longest = (0..400).map(book_text).filter(|text| verdict(text) == 2);
    let longest = longest.max_by_key(Vec::len).expect("some");
    assert_eq!(longest.len(), 127_194);
    assert!(longest.len() <= LONGEST);
    // Nor is the end of a text that has none looked for.
    let endless = read_from(io::repeat(b'\n')).expect("no error");
    assert_eq!(endless.map_err(|refusal| refusal.number()), Err(22));
    let much = [text_of(&Book::fresh()).into_bytes(), vec![b'x'; LONGEST]].concat();
    let found = read_from(Failing(&much)).expect("not reached");
    assert_eq!(found.map_err(|refusal| refusal.number()), Err(22));
    assert!(read_from(Failing(&much[..LONGEST])).is_err());
    assert!(read_from(Failing(b"(open 2014)\n")).is_err());
    assert_eq!(
        read_from(&b"(open 2014)\n"[..]).expect("read"),
        Ok(Book::fresh())
    );
}
