//! The cases of document 01.
use crate::{assert_untouched, x, MARK, X_RECORDS};
use badolkhup::{ask, check, explain, list, read, round, write, WORK_WORDS};
use badolkhup::{book_of, forced, Asked, Counts, Explained, Listed};

const X: [i32; 23] = [3, 5, 0, -3, 0, 1, 1, 0, 2, -1, 3, 0, 3, 2, 0, 4, -2, 3, 0, 5, -1, 2, 0];

/// Working space with three words more than needed.
fn work() -> Vec<u16> {
    vec![MARK.into(); WORK_WORDS + 3]
}

fn assert_cleared(work: &[u16]) {
    assert!(work[..WORK_WORDS].iter().all(|&word| word == 0));
    assert_untouched(&work[WORK_WORDS..]);
}

/// A listing begun empty in so many words: the answer and the words, of which those past the records are seen to stay.
fn listed_in(book: &[u8], words: usize) -> (Listed, Vec<u32>) {
    let (mut records, mut work) = (vec![MARK.into(); words], work());
    let listed = list(book, &mut records, 0, &mut work).unwrap();
    let (Listed::Complete { records: count } | Listed::Stopped { records: count }) = listed;
    assert_untouched(&records[2 * count..]);
    assert_cleared(&work);
    records.truncate(2 * count);
    (listed, records)
}

#[test]
fn book_x_in_bytes() {
    let stored = x();
    assert_eq!(stored.len(), 60);
    let mut out = [MARK; 62];
    assert_eq!(write(&X, &mut out), Ok(60));
    assert_eq!((&out[..60], &out[60..]), (&stored[..], &[MARK; 2][..]));
    assert_eq!(check(&stored), Ok(Counts { variables: 3, groups: 5, clauses: 6 }));
    let mut out = [MARK.into(); 25];
    assert_eq!(read(&stored, &mut out), Ok(23));
    assert_eq!((&out[..23], &out[23..]), (&X[..], &[MARK.into(); 2][..]));
}

#[test]
fn cases_1_and_8_to_11() {
    let cases: [(&[i32], &[u32]); 5] = [
        (&X, &X_RECORDS),
        (&[&[3, 4], &X[2..19]].concat(), &[1, 3, 1, 12, 2, 5, 2, 6, 2, 9, 2, 10]),
        (&[1, 0], &[2, 0]),
        (&[1, 0, 0, 0], &[1, 0]),
        (&[2, 2, 1, 1, 0, 1, 2, 0, 2, -1, -2, 0], &[1, 3, 2, 1, 2, 2]),
    ];
    for (plain, records) in cases {
        let complete = Listed::Complete { records: records.len() / 2 };
        assert_eq!(listed_in(&book_of(plain).unwrap(), 32), (complete, records.to_vec()), "{plain:?}");
    }
}

#[test]
fn cases_2_to_5_explained() {
    let cases = [(31, Some(3)), (28, Some(12)), (25, Some(25)), (26, None)];
    for (choice, explanation) in cases {
        let expected = explanation.map_or(Explained::Consistent, |groups| Explained::Explanation { groups });
        let mut work = work();
        assert_eq!(explain(&x(), choice, &mut work), Ok(expected), "choice {choice}");
        assert_cleared(&work);
    }
}

#[test]
fn the_empty_explanation_is_no_consistency() {
    let core_inconsistent = book_of(&[1, 1, 0, 0]).unwrap();
    let expected = Ok(Explained::Explanation { groups: 0 });
    assert_eq!(explain(&core_inconsistent, 0, &mut work()), expected);
    assert_eq!(explain(&core_inconsistent, 1, &mut work()), expected);
}

#[test]
fn cases_6_and_7_asked() {
    let contradiction = Asked::Contradiction { clause: 1 };
    for (choice, asked, bytes) in [(21, Asked::Consistent, [1, 1, 0]), (31, contradiction, [1, 1, 1])] {
        let (mut out, mut work) = ([MARK; 5], work());
        assert_eq!(ask(&x(), choice, &mut out, &mut work), Ok(asked), "choice {choice}");
        assert_eq!((&out[..3], &out[3..]), (&bytes[..], &[MARK; 2][..]));
        assert_cleared(&work);
    }
    assert_eq!(forced(&x(), 31), Ok((contradiction, vec![1, 2, 3])));
}

/// Case 12 at every room from none to past the end.
#[test]
fn every_room() {
    for words in 0..=20 {
        let count = (words / 2).min(7);
        let listed = if count == 7 { Listed::Complete { records: 7 } } else { Listed::Stopped { records: count } };
        assert_eq!(listed_in(&x(), words), (listed, X_RECORDS[..2 * count].to_vec()), "{words} words");
    }
}

#[test]
fn continued_at_every_cut() {
    for cut in 0..=7 {
        let (_, mut records) = listed_in(&x(), 2 * cut);
        records.resize(17, MARK.into());
        let mut work = work();
        assert_eq!(list(&x(), &mut records, cut, &mut work), Ok(Listed::Complete { records: 7 }), "cut {cut}");
        assert_eq!((&records[..14], &records[14..]), (&X_RECORDS[..], &[MARK.into(); 3][..]));
        assert_cleared(&work);
    }
}

#[test]
fn round_by_round() {
    let mut records = vec![MARK.into(); 17];
    for count in 0..8 {
        let now = (count + 1).min(7);
        let listed = if now == 7 { Listed::Complete { records: 7 } } else { Listed::Stopped { records: now } };
        let mut work = work();
        assert_eq!(round(&x(), &mut records, count.min(7), &mut work), Ok(listed), "round {count}");
        assert_eq!(records[..2 * now], X_RECORDS[..2 * now]);
        assert_untouched(&records[2 * now..]);
        assert_cleared(&work);
    }
    // Where the room is full a round still tells whether a seed remains.
    let mut records = X_RECORDS;
    assert_eq!(round(&x(), &mut records[..6], 3, &mut work()), Ok(Listed::Stopped { records: 3 }));
    assert_eq!(round(&x(), &mut records, 7, &mut work()), Ok(Listed::Complete { records: 7 }));
    assert_eq!(records, X_RECORDS);
}
