//! The paper's bookings that look plausible: each test fails for a book that
//! keeps them.

mod common;

use common::*;
use second::book::Book;

#[test]
fn families_are_not_rounded_one_by_one() {
    // 40,000,000 twice is 1 Mg; each alone rounds to 0.
    let mut book = Book::fresh();
    file(&mut book, 0, 566, 400_000, 100).expect("accepted");
    file(&mut book, 1, 566, 400_000, 100).expect("accepted");
    close(&mut book).expect("accepted");
    assert_eq!(lot(&book, 0, 3, 2014), 1);
    // 60,000,000 twice is 1 Mg; each alone rounds to 1.
    let mut book = Book::fresh();
    file(&mut book, 0, 566, 600_000, 100).expect("accepted");
    file(&mut book, 1, 566, 600_000, 100).expect("accepted");
    close(&mut book).expect("accepted");
    assert_eq!(lot(&book, 0, 3, 2014), 1);
}

#[test]
fn a_vintage_pays_for_the_shortage_five_years_on() {
    // Vintage 2014 is still live after 2019 closed, when that year's own
    // shortage appears, and covers it.
    let mut book = Book::fresh();
    file(&mut book, 0, 566, 1_000_000, 100).expect("accepted");
    close_until(&mut book, 2019);
    file(&mut book, 0, 556, 1_000_000, 100).expect("accepted");
    assert_eq!(close(&mut book), closed(1));
    let apply = "(apply (maker 0) (set 3) (vintage 2014) (year 2019) (mg 1))";
    assert_eq!(say(&mut book, apply), left(0));
    assert_eq!(shortage(&book, 0, 3, 2019), 0);
}

#[test]
fn a_vintage_is_expired_once_the_sixth_year_on_closes() {
    let book = book(2021, &[(0, 3, 2014, 9)], &[(0, 3, 2020, 9)]);
    let apply = "(apply (maker 0) (set 3) (vintage 2014) (year 2020) (mg 1))";
    assert_eq!(refusal_of(&book, apply), 10);
    let trade = "(trade (from 0) (to 1) (set 3) (vintage 2014) (mg 1))";
    assert_eq!(refusal_of(&book, trade), 10);
}

#[test]
fn an_overdue_shortage_does_not_free_the_seller() {
    let book = book(
        2019,
        &[(0, 3, 2018, 9), (0, 2, 2018, 9)],
        &[(0, 3, 2014, 1)],
    );
    let trade = "(trade (from 0) (to 1) (set 3) (vintage 2018) (mg 1))";
    assert_eq!(refusal_of(&book, trade), 13);
    let retire = "(retire (maker 0) (set 3) (vintage 2018) (mg 1))";
    assert_eq!(refusal_of(&book, retire), 13);
    let apply = "(apply (maker 0) (set 3) (vintage 2018) (year 2014) (mg 1))";
    assert_eq!(refusal_of(&book, apply), 14);
    // The other set is free, and a short maker may buy.
    let mut after = book.clone();
    let other = "(trade (from 0) (to 1) (set 2) (vintage 2018) (mg 1))";
    assert_eq!(say(&mut after, other), left(8));
    let back = "(trade (from 1) (to 0) (set 2) (vintage 2018) (mg 1))";
    assert_eq!(say(&mut after, back), left(0));
}

#[test]
fn a_filing_with_part_0_is_filed() {
    let mut book = Book::fresh();
    assert_eq!(file(&mut book, 7, 567, 1, 1), filed(0, 1));
    assert_eq!(refused(file(&mut book, 7, 566, 1, 1)), 9);
    assert_eq!(file(&mut book, 8, 566, 1, 1), filed(1, 2));
    // Next year the families are free again.
    close(&mut book).expect("accepted");
    assert_eq!(file(&mut book, 7, 567, 1, 1), filed(0, 1));
}
