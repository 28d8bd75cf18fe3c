//! Wish 1 of document 02: group CNF text, with an example of each way in which an open point is read (docs/DECISIONS.md).
use twin::book::{Book, Clause, MOST_CLAUSES};
use twin::calls::{from_text, read, to_text};
use twin::{Answer, Refusal};

const X: [i32; 23] = [3, 5, 0, -3, 0, 1, 1, 0, 2, -1, 3, 0, 3, 2, 0, 4, -2, 3, 0, 5, -1, 2, 0];
const X_TEXT: &str = "p gcnf 3 6 5\n{0} -3 0\n{1} 1 0\n{2} -1 3 0\n{3} 2 0\n{4} -2 3 0\n{5} -1 2 0\n";

fn refused(number: u32, place: usize) -> Answer {
    Err(Refusal { number, place })
}

/// The plain form of the book that a text says.
fn plain_of(text: impl AsRef<[u8]>) -> Result<Vec<i32>, Refusal> {
    Book::from_text(text.as_ref()).map(|book| book.plain())
}

/// The text says the book of this plain form.
fn says(text: impl AsRef<[u8]>, plain: &[i32]) {
    let shown = String::from_utf8_lossy(text.as_ref()).into_owned();
    assert_eq!(plain_of(text), Ok(plain.to_vec()), "{shown}");
}

/// The text is refused, by a call that is lent room enough.
fn refuses(text: impl AsRef<[u8]>, number: u32, place: usize) {
    let shown = String::from_utf8_lossy(text.as_ref()).into_owned();
    assert_eq!(from_text(text.as_ref(), &mut vec![0; 65_535]), refused(number, place), "{shown}");
}

/// One clause line in a text of 3 variables and 2 groups, on line 2.
fn with(line: &str) -> String {
    format!("p gcnf 3 1 2\n{line}\n")
}

fn clause_says(line: &str, clause: &[i32]) {
    says(with(line), &[&[3, 2], clause].concat());
}

fn clause_refused(line: &str, number: u32) {
    refuses(with(line), number, 2);
}

/// A body of so many literals, and one more of them that repeats the first.
fn body(size: usize) -> String {
    (1..=size).chain([1]).map(|variable| format!("-{variable} ")).collect()
}

#[test]
fn book_x() {
    let book = Book::from_plain(&X).expect("X is a book").bytes();
    let mut text = vec![9; X_TEXT.len() + 2];
    assert_eq!(to_text(&book, &mut text), Ok(vec![X_TEXT.len() as u64]));
    assert_eq!((&text[..X_TEXT.len()], &text[X_TEXT.len()..]), (X_TEXT.as_bytes(), &[9, 9][..]));
    let mut bytes = vec![9; 62];
    assert_eq!(from_text(X_TEXT.as_bytes(), &mut bytes), Ok(vec![60]));
    assert_eq!((&bytes[..60], &bytes[60..]), (&book[..], &[9, 9][..]));
    assert_eq!(std::fs::read("../examples/x.gcnf").ok(), Some(X_TEXT.into()));
}

/// Any order, repeats, tabs, blanks, blank lines, comments, leading zeros, no last line feed: one book.
#[test]
fn book_x_by_hand() {
    let text = "c by hand\n\t\n  p\tgcnf 3  06 5 \nc\n{0} -3 -3 0\n{1} 1 1 0 \t\n\n \t{2} 3 -1 0\ncat\n{3} 2 2 2 00\n{4} 3 -2 3 -2 0\n{5} -01 2 0";
    says(text, &X);
    says(format!("{text}\n"), &X);
    says(format!("{text}\n\n  \n"), &X);
}

/// W1.1: only blanks and tabs separate.
#[test]
fn a_literal_right_after_the_brace() {
    clause_refused("{1}2 0", 22);
    clause_refused("{1}0", 22);
    clause_says("{1}\t2 0", &[1, 2, 0]);
}

/// W1.2
#[test]
fn leading_zeros() {
    says("p gcnf 003 01 2\n{01} -02 00\n", &[3, 2, 1, -2, 0]);
    clause_refused("{1} -0 0", 22);
    clause_refused("{1} -00 0", 22);
    clause_refused("{1} 1 -0", 22);
}

/// W1.3 and W1.4
#[test]
fn comments() {
    says("cat\nc\nc p gcnf 9 9 9\np gcnf 1 2 0\nc x\n{0} 0\nc{0} 0\n{0} 1 0\nc", &[1, 0, 0, 0, 0, 1, 0]);
    clause_refused(" c", 22);
    clause_refused("\tc 1 0", 22);
    clause_refused("C", 22);
    clause_refused("{1} 0 c", 22);
}

/// W1.5: no number wraps.
#[test]
fn huge_numbers() {
    for huge in ["99999999999999999999", "4294967297", "18446744073709551617", "65537", &"9".repeat(6_000)] {
        clause_refused(&format!("{{1}} {huge} 0"), 7);
        clause_refused(&format!("{{1}} -{huge} 0"), 7);
        clause_refused(&format!("{{{huge}}} 0"), 7);
        // It does not end the clause.
        clause_refused(&format!("{{1}} {huge}"), 22);
        for header in [format!("{huge} 0 0"), format!("1 {huge} 0"), format!("1 0 {huge}")] {
            refuses(format!("p gcnf {header}"), 7, 1);
        }
    }
    let zeros = "0".repeat(6_000);
    clause_says(&format!("{{{zeros}}} {zeros}1 {zeros}"), &[0, 1, 0]);
    clause_refused(&format!("{{1}} -{zeros} 0"), 22);
    refuses(format!("p gcnf {zeros} 0 0"), 7, 1);
}

/// W1.6: carriage return, vertical tab, form feed, NUL, and bytes above 127.
#[test]
fn bytes_that_are_no_blanks() {
    refuses("p gcnf 3 1 2\r\n{1} 0\r\n", 22, 1);
    for byte in [b'\r', 0x0b, 0x0c, 0, 128, 0xa0, 255] {
        let line = |before: &[u8], after: &[u8]| [b"p gcnf 3 1 2\n", before, &[byte], after, b"\n"].concat();
        refuses(line(b"", b""), 22, 2);
        refuses(line(b"{1} 1", b"0"), 22, 2);
        refuses(line(b"{1} 1 0", b""), 22, 2);
        refuses(line(b"", b"{1} 1 0"), 22, 2);
        refuses(line(b"{1", b"} 1 0"), 22, 2);
        says(line(b"{1} 0\nc", b" 1"), &[3, 2, 1, 0]);
    }
}

/// W1.7: every line counts for the number.
#[test]
fn lines() {
    refuses("", 22, 0);
    refuses("\n", 22, 0);
    refuses(" \t\n\nc only\nc", 22, 0);
    refuses("\nc\n\np gcnf 3 1 2\n\nc\n{1} 4 0\n", 7, 7);
    refuses("\nc\n\np gcnf 3 2 2\n\nc\n{1} 1 0\n", 21, 4);
}

/// W1.8
#[test]
fn braces() {
    for group in ["{ 1}", "{1 }", "{}", "{-1}", "{+1}", "{1", "1}", "1", "{{1}}", "{1}}", "}1{", "(1)", "{\t1}", "{-0}"]
    {
        clause_refused(&format!("{group} 1 0"), 22);
    }
    clause_says("{0} 1 0", &[0, 1, 0]);
}

/// W1.9 and W1.10
#[test]
fn heads() {
    clause_says("{1} 1 1 0", &[1, 1, 0]);
    clause_says("{1} 1 01 0", &[1, 1, 0]);
    clause_refused("{1} 1 2 0", 20);
    clause_refused("{1} 1 -3 1 2 0", 20);
    clause_says("{1} 1 -1 0", &[1, -1, 1, 0]);
    clause_says("{1} 0", &[1, 0]);
}

/// W1.11
#[test]
fn bodies() {
    let text = |size: usize| format!("p gcnf 40 1 0\n{{0}} {}40 0\n", body(size));
    let plain: Vec<i32> = [40, 0, 0].into_iter().chain((1..=32).map(|variable| -variable)).chain([40, 0]).collect();
    says(text(32), &plain);
    refuses(text(33), 5, 2);
    clause_says("{2} -3 -1 -3 2 -2 -1 0", &[2, -1, -2, -3, 2, 0]);
}

/// W1.12: 22, 7, 20, 6, 5 within a line; between lines the first that is at fault.
#[test]
fn order_within_a_line() {
    clause_refused("{3} 1 2 0 0", 22);
    clause_refused("{3} 1 2 0", 7);
    clause_refused("{1} 4 2 0", 7);
    clause_refused("{1} 1 2 -4 0", 7);
    let full = |last: &str| {
        let clauses = "{1} 0\n".repeat(MOST_CLAUSES);
        refuses_at_last(&format!("p gcnf 40 2048 2\n{clauses}{last}"))
    };
    assert_eq!(full("{1} 1 0 0"), 22);
    assert_eq!(full("{3} 1 2 0"), 7);
    assert_eq!(full("{1} 41 2 0"), 7);
    assert_eq!(full(&format!("{{1}} 1 2 {}0", body(33))), 20);
    assert_eq!(full(&format!("{{1}} {}0", body(33))), 6);
    assert_eq!(full("{1} 1 0"), 6);
    let wide = |literals: &str| format!("p gcnf 40 1 2\n{{1}} {}{literals}\n", body(33));
    refuses(wide("0"), 5, 2);
    refuses(wide("1 2 0"), 20, 2);
    refuses(wide("41 0"), 7, 2);
    refuses(wide(""), 22, 2);
    refuses("p gcnf 3 9 2\n{1} 1 2 0\n{3} 0\nx\n", 20, 2);
    refuses("p gcnf 3 9 2\n{1} 1 0\n{3} 0\nx\n", 7, 3);
}

/// The number of the refusal, which is at the last line.
fn refuses_at_last(text: &str) -> u32 {
    let refusal = plain_of(text).expect_err("the last line is at fault");
    assert_eq!(refusal.place, text.lines().count());
    refusal.number
}

/// W1.13
#[test]
fn ends_of_clauses() {
    for line in ["{1} 1 0 -2 0", "{1} 0 0", "{1} 1", "{1}", "{1} 1 0 {2} 2 0", "{1} 1\n0", "0", "1 0", "{1} - 0"] {
        clause_refused(line, 22);
    }
    for line in ["{1} +1 0", "{1} --1 0", "{1} 1- 0", "{1} a 0", "{1} 1. 0", "{1} 0x1 0", "{1} 1 +0", "{1} {1} 0"] {
        clause_refused(line, 22);
    }
}

/// W1.14 and W1.17
#[test]
fn the_p_line() {
    for line in
        ["p gcnf 3 0", "p gcnf 3 0 2 0", "p gcnf 3 0 +2", "p gcnf 3 -0 2", "p gcnf -3 0 2", "p gcnf", "p", "gcnf"]
    {
        refuses(line, 22, 1);
    }
    for line in ["pgcnf 3 0 2", "P GCNF 3 0 2", "p cnf 3 0 2", "p gcnf3 0 2", "p gcnf 3 0 {2}", "p gcnf 3 0 2 c"] {
        refuses(line, 22, 1);
    }
    for numbers in ["0 0 0", "1025 0 0", "1 0 33", "1 2049 0"] {
        refuses(format!("p gcnf {numbers}\nx"), 7, 1);
    }
    says("p gcnf 1024 0 32", &[1_024, 32]);
    says("p \t gcnf\t1 0 0", &[1, 0]);
    says(" p gcnf 1 0 0\t", &[1, 0]);
    refuses("{1} 0\np gcnf 3 1 2\n", 22, 1);
    refuses("p gcnf 3 1 2\np gcnf 3 1 2\n", 22, 2);
    refuses("p gcnf 3 0 2\n\np gcnf 0 9999 99", 22, 3);
    refuses(format!("p gcnf 1 7 1\n{}", "{1} 0\n".repeat(2_049)), 6, 2_050);
    says(format!("p gcnf 1 2048 1\n{}", "{1} 0\n".repeat(2_048)), &[vec![1, 1], [1, 0].repeat(2_048)].concat());
}

/// A text of clauses with 32 body literals each: 10 + 71 bytes for each.
fn long(said: usize, clauses: usize) -> String {
    format!("p gcnf 32 {said} 0\n{}", format!("{{0}} {}0\n", body(32)).repeat(clauses))
}

/// W1.15
#[test]
fn order_at_the_end() {
    refuses("p gcnf 3 0 2\n{1} 0\n", 21, 1);
    refuses("c\np gcnf 3 2 2\n{1} 0\n", 21, 2);
    refuses(long(923, 923), 1, 0);
    refuses(long(922, 923), 21, 1);
    assert_eq!(from_text(long(923, 923).as_bytes(), &mut []), refused(1, 0));
    assert_eq!(from_text(long(922, 922).as_bytes(), &mut [0; 65_471]), refused(11, 0));
    assert_eq!(from_text(long(922, 922).as_bytes(), &mut [0; 65_472]), Ok(vec![65_472]));
    assert_eq!(from_text(X_TEXT.as_bytes(), &mut [0; 59]), refused(11, 0));
    assert_eq!(from_text(b"p gcnf 3 1 2", &mut []), refused(21, 1));
}

/// W1.16: a text longer than any book may be, read and written.
#[test]
fn long_texts() {
    says(format!("{}{}\n", "c\n".repeat(70_000), "p gcnf 1 0 0"), &[1, 0]);
    says(format!("p gcnf 1 1 0\n{{0}} {}0\n", "-1 ".repeat(70_000)), &[1, 0, 0, -1, 0]);
    let clause = Clause::new(32, 1_024, (993..=1_024).collect());
    let book = Book::new(1_024, 32, vec![clause; 922]).bytes();
    let mut text = vec![0; 200_000];
    let count = 19 + 922 * (12 + 25 * 6 + 7 * 5);
    assert_eq!(to_text(&book, &mut text), Ok(vec![count as u64]));
    assert_eq!(from_text(&text[..count], &mut [0; 65_535]), Ok(vec![book.len() as u64]));
}

/// W1.18
#[test]
fn order_to_text() {
    let book = Book::from_plain(&X).expect("X is a book").bytes();
    assert_eq!(to_text(&book, &mut vec![0; X_TEXT.len() - 1]), refused(11, 0));
    for bytes in [&book[..59], &[], &[0, 0, 0], &vec![0; 65_536]] {
        assert_eq!(to_text(bytes, &mut []), read(bytes, &mut []));
    }
}
