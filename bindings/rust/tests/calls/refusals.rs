//! Every refusal through the safe calls: number, place, and that every lent space stays as it came.
use crate::{assert_untouched, x, MARK};
use badolkhup::{ask, check, explain, from_text, list, read, round, to_text, write};
use badolkhup::{book_of, plain_form, text_of, Counts, Refusal, BOOK_BYTES, WORK_WORDS};
use std::collections::BTreeSet;

/// A book of one clause whose field is given, with 3 variables and 1 group.
fn with_field(field: &[u8]) -> Vec<u8> {
    [&[1, 0, 4, 0, 3, 0, 1], field, &[0, 0, 0]].concat()
}

/// Every call that is lent this book refuses alike and leaves its spaces.
fn assert_book_refused(book: &[u8], number: u32, place: usize) {
    let refusal = Refusal { number, place };
    let (mut numbers, mut out, mut records) = ([MARK.into(); 40], [MARK; 1_024], [MARK.into(); 8]);
    let mut work = [MARK.into(); WORK_WORDS];
    assert_eq!(check(book), Err(refusal));
    assert_eq!(read(book, &mut numbers), Err(refusal));
    assert_eq!(to_text(book, &mut out), Err(refusal));
    assert_eq!(ask(book, 0, &mut out, &mut work), Err(refusal));
    assert_eq!(explain(book, 0, &mut work), Err(refusal));
    assert_eq!(round(book, &mut records, 0, &mut work), Err(refusal));
    assert_eq!(list(book, &mut records, 0, &mut work), Err(refusal));
    assert_untouched(&numbers);
    assert_untouched(&out);
    assert_untouched(&records);
    assert_untouched(&work);
}

fn assert_plain_refused(plain: &[i32], number: u32, place: usize) {
    let mut out = [MARK; 90];
    assert_eq!(write(plain, &mut out), Err(Refusal { number, place }), "{plain:?}");
    assert_untouched(&out);
}

/// The text is refused at a line, or at 0 for what is known only at its end.
fn assert_text_refused(text: &str, number: u32, place: usize) {
    let mut out = [MARK; 90];
    assert_eq!(from_text(text.as_bytes(), &mut out), Err(Refusal { number, place }), "{text}");
    assert_untouched(&out);
}

#[test]
fn of_a_book() {
    assert_book_refused(&vec![0; BOOK_BYTES + 1], 1, 0);
    // Case 13.
    assert_book_refused(&[], 2, 0);
    assert_book_refused(&[0, 0, 0], 4, 0);
    assert_book_refused(&[1, 0, 4, 0, 1, 0, 0], 2, 7);
    assert_book_refused(&[5, 0, 0], 3, 0);
    assert_book_refused(&with_field(&[1, 0, 4, 0, 3, 0, 1]), 4, 7);
    assert_book_refused(&with_field(&[2, 0, 5, 0, 0, 0, 0, 0]), 5, 7);
    assert_book_refused(&with_field(&[2, 0, 4, 0, 2, 0, 0]), 7, 7);
    assert_book_refused(&with_field(&[2, 0, 8, 0, 1, 0, 0, 0, 2, 0, 2]), 8, 7);
    assert_book_refused(&with_field(&[0, 0, 0]), 9, 10);
}

#[test]
fn of_a_plain_form() {
    let body = |length: i32| -> Vec<i32> { (1..=length).map(|v| -v).collect() };
    assert_plain_refused(&[&[40, 0, 0], &body(33)[..]].concat(), 5, 35);
    assert_plain_refused(&[vec![1, 0], [0, 1, 0].repeat(2_049)].concat(), 6, 2 + 3 * 2_048);
    assert_plain_refused(&[3, 1, 2, 0], 7, 2);
    assert_plain_refused(&[3, 1, 1, i32::MIN, 0], 7, 3);
    assert_plain_refused(&[3, 1, 1, -2, -1, 0], 8, 4);
    assert_plain_refused(&[3, 1, 1, 2, -1, 0], 8, 4);
    assert_plain_refused(&[3, 1, 1, 2], 12, 4);
    assert_plain_refused(&[], 12, 0);
    assert_plain_refused(&[3, 1, 1, 2, 2, 0], 13, 4);
    // 923 clauses of 71 bytes would make 65,543.
    let clause = [&[0], &body(32)[..], &[0]].concat();
    assert_plain_refused(&[vec![32, 0], clause.repeat(923)].concat(), 1, 0);
    assert!(book_of(&[vec![32, 0], clause.repeat(922)].concat()).is_ok());
}

#[test]
fn of_a_text() {
    let body = |length: usize| -> String { (1..=length).map(|v| format!("-{v} ")).collect() };
    let text = |line: &str| format!("c\np gcnf 40 1 2\n{line}\n");
    assert_text_refused(&text(&format!("{{0}} {}0", body(33))), 5, 3);
    assert_text_refused(&format!("p gcnf 1 0 0\n{}", "{0} 0\n".repeat(2_049)), 6, 2_050);
    for line in ["{3} 0", "{0} 41 0", "{0} -18446744073709551617 0", "{4294967296} 0"] {
        assert_text_refused(&text(line), 7, 3);
    }
    assert_text_refused("p gcnf 1 2049 0", 7, 1);
    assert_text_refused(&text("{1} 1 -3 2 0"), 20, 3);
    assert_text_refused(&text(""), 21, 2);
    assert_text_refused(&text("{1} 0\n{1} 0"), 21, 2);
    for line in ["{1}2 0", "{ 1} 2 0", "{1} 2", "{1} 2 0 0", "{1} -0 0", "{1} +2 0", " c", "\r", "p gcnf 40 1 2"] {
        assert_text_refused(&text(line), 22, 3);
    }
    assert_text_refused("{1} 0\np gcnf 40 1 2", 22, 1);
    assert_text_refused("c only\n\n", 22, 0);
    assert_text_refused("", 22, 0);
    // 923 clauses of 71 bytes would make 65,543.
    let clauses = |count: usize| format!("p gcnf 32 {count} 0\n{}", format!("{{0}} {}0\n", body(32)).repeat(count));
    assert_text_refused(&clauses(923), 1, 0);
    assert_text_refused(&clauses(922), 11, 0);
    assert!(badolkhup::book_of_text(clauses(922).as_bytes()).is_ok());
}

#[test]
fn of_a_choice() {
    let (mut out, mut work) = ([MARK; 3], [MARK.into(); WORK_WORDS]);
    for (choice, group) in [(32, 6), (1 << 31, 32), (u32::MAX, 6)] {
        let refusal = Refusal { number: 10, place: group };
        assert_eq!(ask(&x(), choice, &mut out, &mut work), Err(refusal));
        assert_eq!(explain(&x(), choice, &mut work), Err(refusal));
    }
    assert_untouched(&out);
    assert_untouched(&work);
}

#[test]
fn of_too_small_a_space() {
    let refusal = Refusal { number: 11, place: 0 };
    let (mut out, mut records, mut work) = ([MARK; 3], [MARK.into(); 4], [MARK.into(); WORK_WORDS]);
    let short = WORK_WORDS - 1;
    let (mut numbers, mut bytes) = ([MARK.into(); 22], [MARK; 59]);
    assert_eq!(read(&x(), &mut numbers), Err(refusal));
    assert_untouched(&numbers);
    assert_eq!(write(&plain_form(&x()).unwrap(), &mut bytes), Err(refusal));
    assert_untouched(&bytes);
    let text = text_of(&x()).unwrap();
    assert_eq!(from_text(&text, &mut bytes), Err(refusal));
    assert_untouched(&bytes);
    let mut bytes = vec![MARK; text.len() - 1];
    assert_eq!(to_text(&x(), &mut bytes), Err(refusal));
    assert_untouched(&bytes);
    assert_eq!(ask(&x(), 0, &mut out[..2], &mut work), Err(refusal));
    assert_eq!(ask(&x(), 0, &mut out, &mut work[..short]), Err(refusal));
    assert_eq!(explain(&x(), 0, &mut work[..short]), Err(refusal));
    assert_eq!(round(&x(), &mut records, 0, &mut work[..short]), Err(refusal));
    assert_eq!(list(&x(), &mut records, 0, &mut []), Err(refusal));
    assert_untouched(&out);
    assert_untouched(&records);
    assert_untouched(&work);
}

#[test]
fn of_records() {
    // Words, count, place: the count first, then the lowest faulty word.
    let cases: [(&[u32], usize, usize); 5] =
        [(&[1, 3, 9], 2, 3), (&[], usize::MAX, 0), (&[1, 32, 7, 0], 2, 1), (&[1, 3, 0, 3], 2, 2), (&[3, 99], 1, 0)];
    for (words, count, place) in cases {
        let (mut records, mut work) = (words.to_vec(), [MARK.into(); WORK_WORDS]);
        let refusal = Refusal { number: 14, place };
        assert_eq!(round(&x(), &mut records, count, &mut work), Err(refusal));
        assert_eq!(list(&x(), &mut records, count, &mut work), Err(refusal));
        assert_eq!(badolkhup::Listing::from_words(&x(), words, count), Err(refusal));
        assert_eq!(records, words);
        assert_untouched(&work);
    }
}

/// Case 14: what passes at each limit, and what is refused behind it.
#[test]
fn at_the_limits() {
    let header = |variables: u16, groups: u16| {
        let ([a, b], [c, d]) = (variables.to_be_bytes(), groups.to_be_bytes());
        vec![1, 0, 4, a, b, c, d, 0, 0, 0]
    };
    assert_eq!(check(&header(1_024, 32)), Ok(Counts { variables: 1_024, groups: 32, clauses: 0 }));
    assert_book_refused(&header(1_025, 0), 7, 0);
    assert_book_refused(&header(0, 0), 7, 0);
    assert_book_refused(&header(1, 33), 7, 0);
    let clause =
        |length: u8| [vec![2, 0, length, 0, 0, 0, 0], (1..=length / 2 - 2).flat_map(|v| [0, v]).collect()].concat();
    let book = |clauses: &[u8]| [&[1, 0, 4, 0, 40, 0, 0], clauses, &[0, 0, 0]].concat();
    assert_eq!(check(&book(&clause(68))), Ok(Counts { variables: 40, groups: 0, clauses: 1 }));
    assert_book_refused(&book(&clause(70)), 5, 7);
    assert_eq!(check(&book(&clause(4).repeat(2_048))), Ok(Counts { variables: 40, groups: 0, clauses: 2_048 }));
    assert_book_refused(&book(&clause(4).repeat(2_049)), 6, 7 + 7 * 2_048);
}

#[test]
fn each_has_a_sentence_of_its_own() {
    let sentence = |number| Refusal { number, place: 0 }.to_string().split_once(": ").unwrap().1.to_owned();
    let sentences: BTreeSet<String> = (0..=14).chain(20..=22).map(sentence).collect();
    // 0 stands for what is no refusal.
    assert_eq!(sentences.len(), 18);
}
