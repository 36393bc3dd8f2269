//! Card 8: a book as text, and a text's book in place of the one lent.

mod common;

use common::written::{written_book, TEXT};
use second::book::Book;
use second::figuring::Mg;
use second::written::{read, read_in, text_of, write, written};

#[test]
fn a_book_as_text() {
    assert_eq!(written(&Book::fresh()).as_deref(), Ok("(open 2014)\n"));
    assert_eq!(written(&written_book()).as_deref(), Ok(TEXT));
}

#[test]
fn the_text_of_a_book_is_read_as_it() {
    assert_eq!(read(b"(open 2014)\n"), Ok(Book::fresh()));
    assert_eq!(read(TEXT.as_bytes()), Ok(written_book()));
}

/// A mark tells a family with part 0 from none.
#[test]
fn a_family_with_part_0_is_written() {
    let mut book = Book::fresh();
    book.marks[31] = 1 << 63;
    assert_eq!(text_of(&book), "(open 2014)\n(family 7 3 63 0)\n");
    assert_eq!(read(text_of(&book).as_bytes()), Ok(book));
}

/// Document 01 asks nothing of the marks of a book whose years are all closed.
#[test]
fn families_of_2038_are_written_and_read() {
    let text = TEXT.replace("(open 2017)", "(open 2038)");
    let mut book = written_book();
    book.open_year = 2038;
    assert_eq!(read(text.as_bytes()).as_ref(), Ok(&book));
    assert_eq!(written(&book), Ok(text));
}

#[test]
fn writing_leaves_the_bytes_after_the_text() {
    let book = written_book();
    for more in [0, 1, 100] {
        let mut buffer = vec![b'x'; TEXT.len() + more];
        assert_eq!(write(&book, &mut buffer), Ok(TEXT.len()));
        assert_eq!(buffer, [TEXT.as_bytes(), &vec![b'x'; more]].concat());
    }
}

#[test]
fn a_short_buffer_stays() {
    for length in [0, 1, 12, TEXT.len() - 1] {
        let mut buffer = vec![b'x'; length];
        let refused = write(&written_book(), &mut buffer);
        assert_eq!(refused.map_err(|refusal| refusal.number()), Err(21));
        assert_eq!(buffer, vec![b'x'; length]);
    }
}

#[test]
fn an_unsound_book_is_written_nowhere() {
    let mut book = written_book();
    book.lots[0][3] = Mg(1);
    for length in [0, TEXT.len() - 1, 2 * TEXT.len()] {
        let mut buffer = vec![b'x'; length];
        let refused = write(&book, &mut buffer);
        assert_eq!(refused.map_err(|refusal| refusal.number()), Err(2));
        assert_eq!(buffer, vec![b'x'; length]);
    }
}

#[test]
fn the_lent_book_is_replaced_whatever_it_is_or_stays() {
    let mut unsound = written_book();
    unsound.open_year = 0;
    for lent in [Book::fresh(), written_book(), unsound] {
        let mut book = lent.clone();
        assert_eq!(read_in(&mut book, b"(open 2020)\n"), Ok(()));
        assert!(book == common::book(2020, &[], &[]));
        for (text, number) in [("(open 2013)\n", 2), ("(open 2014)", 22)] {
            let mut book = lent.clone();
            let refused = read_in(&mut book, text.as_bytes());
            assert_eq!(refused.map_err(|refusal| refusal.number()), Err(number));
            assert!(book == lent);
        }
    }
}

#[test]
fn a_text_without_one_of_its_lines_is_another_book() {
    for line in TEXT.lines().skip(1) {
        let text = TEXT.replacen(&format!("{line}\n"), "", 1);
        let book = read(text.as_bytes()).expect("accepted");
        assert!(book != written_book(), "{line}");
        assert_eq!(written(&book), Ok(text));
    }
}
