//! Group CNF text, of document 02.
use crate::{x, MARK};
use badolkhup::{book_of, book_of_text, from_text, plain_form, text_of, to_text, Refusal};
use badolkhup::{BODY, BOOK_BYTES, CLAUSES, GROUPS, VARIABLES};

/// Book X as text.
fn x_text() -> Vec<u8> {
    std::fs::read("../../examples/x.gcnf").unwrap()
}

#[test]
fn book_x_as_text() {
    let (book, text) = (x(), x_text());
    let mut out = vec![MARK; text.len() + 2];
    assert_eq!(to_text(&book, &mut out), Ok(text.len()));
    assert_eq!((&out[..text.len()], &out[text.len()..]), (&text[..], &[MARK; 2][..]));
    let mut out = [MARK; 62];
    assert_eq!(from_text(&text, &mut out), Ok(60));
    assert_eq!((&out[..60], &out[60..]), (&book[..], &[MARK; 2][..]));
}

/// In spaces that are just large enough.
#[test]
fn spaces_to_the_byte() {
    let (book, text) = (x(), x_text());
    let mut out = vec![MARK; text.len()];
    assert_eq!(to_text(&book, &mut out), Ok(text.len()));
    assert_eq!(out, text);
    let mut out = [MARK; 60];
    assert_eq!(from_text(&text, &mut out), Ok(60));
    assert_eq!(out[..], book);
}

/// Order, repeats, tabs, blanks, blank lines, comments, leading zeros and the last line feed change nothing.
#[test]
fn book_x_by_hand() {
    let text = "c by hand\n\t\n  p\tgcnf 3  06 5 \nc\n{0} -3 -3 0\n{1} 1 1 0 \t\n\n \t{2} 3 -1 0\ncat \u{e9}\r\n{3} 2 2 2 00\n{4} 3 -2 3 -2 0\n{5} -01 2 0";
    assert_eq!(book_of_text(text.as_bytes()), Ok(x()));
    assert_eq!(book_of_text(format!("{text}\n").as_bytes()), Ok(x()));
}

#[test]
fn literals_that_may_meet() {
    let plain_of = |line: &str| plain_form(&book_of_text(format!("p gcnf 40 1 1\n{line}").as_bytes())?);
    assert_eq!(plain_of("{1} 2 02 0"), Ok(vec![40, 1, 1, 2, 0]));
    assert_eq!(plain_of("{0} 7 -7 0"), Ok(vec![40, 1, 0, -7, 7, 0]));
    assert_eq!(plain_of("{0} 0"), Ok(vec![40, 1, 0, 0]));
    let body: Vec<i32> = (1..=32).map(|v| -v).collect();
    let words: String = body.iter().rev().chain(&body).map(|literal| format!("{literal} ")).collect();
    assert_eq!(plain_of(&format!("{{1}} {words}0")), Ok([vec![40, 1, 1], body, vec![0]].concat()));
}

/// A text may be longer than a book can be, and its numbers longer than any type.
#[test]
fn long_texts() {
    let zeros = "0".repeat(70_000);
    let text = format!("c{zeros}\np gcnf {zeros}1 {zeros}1 {zeros}\n{{{zeros}}} -{zeros}1 {zeros}");
    assert_eq!(book_of_text(text.as_bytes()), book_of(&[1, 0, 0, -1, 0]));
    let refusal = Refusal { number: 7, place: 1 };
    assert_eq!(book_of_text(format!("p gcnf {}1 0 0", "9".repeat(70_000)).as_bytes()), Err(refusal));
}

/// The smallest texts of books: no text makes more bytes a byte.
#[test]
fn texts_that_make_most_bytes() {
    for clauses in [0, 1, 2, CLAUSES] {
        let text = format!("p gcnf 1 {clauses} 0{}", "\n{0} 0".repeat(clauses));
        let book = book_of_text(text.as_bytes()).unwrap();
        assert_eq!(book.len(), 10 + 7 * clauses);
        assert_eq!(text_of(&book), Ok([text.as_bytes(), b"\n"].concat()));
    }
}

/// The length of the longest text of a book with so many clauses: of the variables, 25 have four digits.
fn longest_with(clauses: usize) -> usize {
    let in_bodies = ((BOOK_BYTES - 10 - 7 * clauses) / 2).min(BODY * clauses);
    let of_four = in_bodies.min(25 * clauses);
    let header = format!("p gcnf {VARIABLES} {clauses} {GROUPS}\n").len();
    header + clauses * "{32} 1024 0\n".len() + of_four * " -1024".len() + (in_bodies - of_four) * " -999".len()
}

/// docs/INTEGRATING.md names the length of the longest text: 1,150 clauses with the 25 variables of four digits in each body, 13 places left free.
#[test]
fn the_longest_text() {
    assert_eq!((0..=CLAUSES).map(longest_with).max(), Some(186_242));
    let clause = |first: i32| [32].into_iter().chain((first..=1_024).map(|v| -v)).chain([1_024, 0]);
    let bodies = [1_000; 1_137].into_iter().chain([1_001; 13]);
    let plain: Vec<i32> = [1_024, 32].into_iter().chain(bodies.flat_map(clause)).collect();
    let book = book_of(&plain).unwrap();
    assert_eq!(book.len(), BOOK_BYTES - 1);
    let text = text_of(&book).unwrap();
    assert_eq!(text.len(), 186_242);
    assert_eq!(book_of_text(&text), Ok(book));
}
