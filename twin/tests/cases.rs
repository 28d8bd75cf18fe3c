//! Document 01's cases 1 to 14.
use twin::book::{Book, Clause};
use twin::calls::{ask, check, explain, list, round, write, WORK_WORDS};
use twin::definitions::Defined;
use twin::{Answer, Refusal};

const X: [i32; 23] = [3, 5, 0, -3, 0, 1, 1, 0, 2, -1, 3, 0, 3, 2, 0, 4, -2, 3, 0, 5, -1, 2, 0];

fn x() -> Vec<u8> {
    bytes(&X)
}

fn bytes(plain: &[i32]) -> Vec<u8> {
    Book::from_plain(plain).expect("the form of a case is right").bytes()
}

fn refused(number: u32, place: usize) -> Answer {
    Err(Refusal { number, place })
}

fn set(groups: &[u32]) -> u32 {
    groups.iter().map(|group| 1 << (group - 1)).sum()
}

/// The answer and the words of a listing begun empty.
fn listed(book: &[u8], words: usize) -> (Answer, Vec<u32>) {
    let mut records = vec![99; words];
    let answer = list(book, &mut records, 0, &mut [7; WORK_WORDS]);
    (answer, records)
}

/// A listing with room to spare says these records in this order, complete, and they are the sets of the definitions.
fn lists(book: &[u8], expected: &[(u32, &[u32])]) {
    let mut words: Vec<u32> = expected.iter().flat_map(|(kind, groups)| [*kind, set(groups)]).collect();
    words.extend([99, 99, 99]);
    assert_eq!(listed(book, words.len()), (Ok(vec![expected.len() as u64, 1]), words));
    let sets = |kind: u32| {
        let mut sets: Vec<u32> =
            expected.iter().filter(|record| record.0 == kind).map(|record| set(record.1)).collect();
        sets.sort();
        sets
    };
    let defined = Defined::of(&Book::read(book).expect("the book of a case is right"));
    assert_eq!(defined, Defined { explanations: sets(1), repairs: sets(2) });
}

#[test]
fn case_1() {
    assert_eq!(x().len(), 60);
    lists(
        &x(),
        &[(1, &[1, 2]), (1, &[3, 4]), (2, &[1, 3]), (1, &[1, 4, 5]), (2, &[1, 4]), (2, &[2, 4]), (2, &[2, 3, 5])],
    );
}

#[test]
fn cases_2_to_5() {
    let explained = |choice: u32| explain(&x(), choice, &mut [7; WORK_WORDS]);
    assert_eq!(explained(31), Ok(vec![3]));
    assert_eq!(explained(28), Ok(vec![12]));
    assert_eq!(explained(25), Ok(vec![25]));
    assert_eq!(explained(26), Ok(vec![]));
}

#[test]
fn cases_6_and_7() {
    let mut forced = [9; 4];
    assert_eq!(ask(&x(), 21, &mut forced, &mut [7; WORK_WORDS]), Ok(vec![]));
    assert_eq!(forced, [1, 1, 0, 9]);
    assert_eq!(ask(&x(), 31, &mut forced, &mut [7; WORK_WORDS]), Ok(vec![1]));
    assert_eq!(forced, [1, 1, 1, 9]);
}

#[test]
fn case_8() {
    let mut plain = X[..19].to_vec();
    plain[1] = 4;
    lists(&bytes(&plain), &[(1, &[1, 2]), (1, &[3, 4]), (2, &[1, 3]), (2, &[2, 3]), (2, &[1, 4]), (2, &[2, 4])]);
}

#[test]
fn cases_9_to_11() {
    lists(&bytes(&[1, 0]), &[(2, &[])]);
    lists(&bytes(&[1, 0, 0, 0]), &[(1, &[])]);
    lists(&bytes(&[2, 2, 1, 1, 0, 1, 2, 0, 2, -1, -2, 0]), &[(1, &[1, 2]), (2, &[1]), (2, &[2])]);
}

#[test]
fn case_12() {
    assert_eq!(listed(&x(), 6), (Ok(vec![3, 0]), vec![1, 3, 1, 12, 2, 5]));
    assert_eq!(listed(&x(), 14).0, Ok(vec![7, 1]));
    assert_eq!(listed(&x(), 15).0, Ok(vec![7, 1]));
    assert_eq!(listed(&x(), 15).1[14], 99);
    assert_eq!(listed(&x(), 0), (Ok(vec![0, 0]), vec![]));
}

#[test]
fn case_12_by_rounds() {
    let mut records = [99; 14];
    for count in 0..7 {
        let answer = round(&x(), &mut records, count, &mut [7; WORK_WORDS]);
        assert_eq!(answer, Ok(vec![count as u64 + 1, u64::from(count == 6)]));
    }
    assert_eq!(records.to_vec(), listed(&x(), 14).1);
}

#[test]
fn case_13() {
    assert_eq!(check(&[]), refused(2, 0));
    assert_eq!(check(&[0, 0, 0]), refused(4, 0));
    assert_eq!(check(&[1, 0, 4, 0, 1, 0, 0]), refused(2, 7));
    assert_eq!(ask(&x(), 32, &mut [], &mut []), refused(10, 6));
    assert_eq!(explain(&x(), 32, &mut []), refused(10, 6));
}

#[test]
fn case_14() {
    let book = |variables: usize, groups: usize, clauses: usize, body: usize| {
        let clause = Clause::new(0, 1, (1..=body).collect());
        check(&Book::new(variables, groups, vec![clause; clauses]).bytes())
    };
    assert_eq!(book(1, 32, 0, 0), Ok(vec![1, 32, 0]));
    assert_eq!(book(1, 33, 0, 0), refused(7, 0));
    assert_eq!(book(1_024, 0, 0, 0), Ok(vec![1_024, 0, 0]));
    assert_eq!(book(1_025, 0, 0, 0), refused(7, 0));
    assert_eq!(book(40, 0, 1, 32), Ok(vec![40, 0, 1]));
    assert_eq!(book(40, 0, 1, 33), refused(5, 7));
    assert_eq!(book(1, 0, 2_048, 0), Ok(vec![1, 0, 2_048]));
    assert_eq!(book(1, 0, 2_049, 0), refused(6, 7 + 7 * 2_048));
}

/// The examples in docs/DECISIONS.md of how open points are read.
#[test]
fn readings() {
    assert_eq!(check(&vec![0; 65_536]), refused(1, 0));
    assert_eq!(check(&vec![0; 65_535]), refused(4, 0));
    assert_eq!(check(&[5, 0, 1]), refused(2, 0));
    assert_eq!(check(&[5, 0, 0]), refused(3, 0));
    assert_eq!(check(&[0, 0, 1, 7]), refused(4, 0));
    let clause = Clause::new(0, 0, vec![2, 1, 4]);
    assert_eq!(check(&Book::new(3, 0, vec![clause]).bytes()), refused(7, 7));
    let clause = Clause::new(0, 0, vec![2, 2]);
    assert_eq!(check(&Book::new(3, 0, vec![clause]).bytes()), refused(8, 7));
    assert_eq!(check(&[1, 0, 4, 0, 1, 0, 0, 0, 0, 0, 0, 0, 0]), refused(9, 10));
    assert_eq!(ask(&x(), 0x50, &mut [], &mut []), refused(10, 7));
    assert_eq!(ask(&x(), 0, &mut [0; 3], &mut [7; WORK_WORDS - 1]), refused(11, 0));
    assert_eq!(ask(&x(), 0, &mut [0; 2], &mut [7; WORK_WORDS]), refused(11, 0));
}

/// The same of plain forms and of records.
#[test]
fn readings_of_numbers() {
    let written = |plain: &[i32]| write(plain, &mut [0; 99]);
    assert_eq!(written(&[]), refused(12, 0));
    assert_eq!(written(&[5]), refused(12, 1));
    assert_eq!(written(&[0]), refused(7, 0));
    assert_eq!(written(&[5, 99]), refused(7, 1));
    assert_eq!(written(&[3, 0, 0, -2, -1, -4, 0]), refused(8, 4));
    assert_eq!(written(&[3, 0, 0, i32::MIN]), refused(7, 3));
    assert_eq!(written(&[3, 0, 0, 1, -2, 0]), refused(8, 4));
    assert_eq!(written(&[3, 0, 0, 1, 1, 0]), refused(13, 4));
    let body_of = |size: i32| [vec![40, 0, 0], (1..=size).map(|variable| -variable).collect(), vec![1, 0]].concat();
    assert_eq!(written(&body_of(32)), Ok(vec![81]));
    assert_eq!(written(&body_of(33)), refused(5, 35));
    let records = |words: &mut [u32]| round(&x(), words, 2, &mut [7; WORK_WORDS]);
    assert_eq!(records(&mut [0; 3]), refused(14, 3));
    assert_eq!(records(&mut [1, 32, 7, 0]), refused(14, 1));
    let book = bytes(&[4, 4, 1, 1, 0, 2, -1, 2, 0, 3, -2, 0, 4, 0]);
    assert_eq!(explain(&book, 15, &mut [7; WORK_WORDS]), Ok(vec![7]));
}

/// The lowest unknown tag, refused before the lack of a header; and a second head that is another variable.
#[test]
fn beside_the_readings() {
    assert_eq!(check(&[3, 0, 0]), refused(3, 0));
    assert_eq!(write(&[3, 0, 0, 1, 2, 0], &mut [0; 99]), refused(13, 4));
}
