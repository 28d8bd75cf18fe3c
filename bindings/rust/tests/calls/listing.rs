//! Listings that keep their spaces, and spaces that the crate finds.
use crate::{x, X_RECORDS};
use badolkhup::{book_of, plain_form, Found, Groups, Listed, Listing, Record, BODY, BOOK_BYTES, CLAUSES};

fn sets(numbers: &[u32]) -> Vec<Groups> {
    numbers.iter().map(|&number| Groups::from(number)).collect()
}

#[test]
fn in_steps_of_every_size() {
    for step in 1..=9 {
        let mut listing = Listing::new(&x()).unwrap();
        let mut count = 0;
        while !listing.is_complete() {
            count = (count + step).min(7);
            let listed = if count == 7 { Listed::Complete { records: 7 } } else { Listed::Stopped { records: count } };
            assert_eq!(listing.extend(step), listed, "step {step}");
            assert_eq!((listing.count(), listing.words()), (count, &X_RECORDS[..2 * count]));
        }
        assert_eq!(listing.extend(step), Listed::Complete { records: 7 });
        assert_eq!(listing.words(), X_RECORDS);
    }
}

/// More than the memory that a program can have, and more than a number can say.
#[test]
fn room_that_cannot_be_had() {
    let mut listing = Listing::new(&x()).unwrap();
    for (step, more) in [1 << 48, usize::MAX / 2, usize::MAX].into_iter().enumerate() {
        let stopped = std::panic::catch_unwind(std::panic::AssertUnwindSafe(|| listing.extend(more)));
        let text = *stopped.expect_err("there was room").downcast::<String>().unwrap();
        assert!(text.contains("cannot be had"), "{text}");
        assert_eq!(listing.words(), &X_RECORDS[..2 * step]);
        assert_eq!(listing.extend(1), Listed::Stopped { records: step + 1 });
    }
    assert_eq!(listing.extend(4), Listed::Complete { records: 7 });
    assert_eq!(listing.words(), X_RECORDS);
}

#[test]
fn from_stored_words_at_every_cut() {
    for cut in 0..=7 {
        // Words behind the count are no records, and are not kept.
        let mut listing = Listing::from_words(&x(), &X_RECORDS, cut).unwrap();
        assert_eq!((listing.is_complete(), listing.words()), (cut == 7, &X_RECORDS[..2 * cut]), "cut {cut}");
        assert_eq!(listing.extend(7), Listed::Complete { records: 7 });
        assert_eq!(listing.words(), X_RECORDS);
    }
}

#[test]
fn what_is_found_tells_whether_it_is_whole() {
    let mut listing = Listing::new(&x()).unwrap();
    assert!(!listing.is_complete());
    assert_eq!(listing.repairs(), Found::Stopped(vec![]));
    assert_eq!(listing.extend(0), Listed::Stopped { records: 0 });
    let _ = listing.extend(6);
    assert_eq!(listing.explanations(), Found::Stopped(sets(&[3, 12, 25])));
    assert_eq!(listing.repairs(), Found::Stopped(sets(&[5, 9, 10])));
    let _ = listing.extend(1);
    assert_eq!(listing.explanations(), Found::Complete(sets(&[3, 12, 25])));
    assert_eq!(listing.repairs(), Found::Complete(sets(&[5, 9, 10, 22])));
    let Found::Complete(records) = listing.records() else { panic!("stopped") };
    assert_eq!(records.len(), 7);
    assert_eq!(records[3], Record::Explanation(Groups::from(25)));
    assert_eq!(records[6].to_string(), "repair 2 3 5");
}

#[test]
fn nothing_wrong_and_nothing_to_cure() {
    let whole = |plain: &[i32]| {
        let mut listing = Listing::new(&book_of(plain).unwrap()).unwrap();
        assert_eq!(listing.extend(1), Listed::Complete { records: 1 });
        (listing.explanations(), listing.repairs())
    };
    assert_eq!(whole(&[1, 0]), (Found::Complete(vec![]), Found::Complete(sets(&[0]))));
    assert_eq!(whole(&[1, 0, 0, 0]), (Found::Complete(sets(&[0])), Found::Complete(vec![])));
}

#[test]
fn groups_at_their_ends() {
    assert_eq!(Groups::of([32, 1]), Some(Groups::from(0x8000_0001)));
    assert_eq!((Groups::of([0]), Groups::of([33]), Groups::of([])), (None, None, Some(Groups::default())));
    let all = Groups::from(u32::MAX);
    assert_eq!((all.len(), all.iter().min(), all.iter().max()), (32, Some(1), Some(32)));
    assert!(all.contains(32) && !all.contains(0) && !all.contains(33));
}

/// The length of the longest plain form of a book with so many clauses, each with a head.
fn longest_with(clauses: usize) -> usize {
    let in_bodies = ((BOOK_BYTES - 10 - 7 * clauses) / 2).min(BODY * clauses);
    2 + 3 * clauses + in_bodies
}

/// docs/INTEGRATING.md names the length of the longest plain form: 923 clauses, all but 4 of their body places filled.
#[test]
fn the_longest_plain_form() {
    assert_eq!((0..=CLAUSES).map(longest_with).max(), Some(32_303));
    let clause = |body: i32| (1..=body).map(|v| -v).chain([1, 0]);
    let bodies = [32; 919].into_iter().chain([31; 4]);
    let plain: Vec<i32> =
        [32, 0].into_iter().chain(bodies.flat_map(|body| std::iter::once(0).chain(clause(body)))).collect();
    assert_eq!(plain.len(), 32_303);
    let book = book_of(&plain).unwrap();
    assert_eq!(book.len(), BOOK_BYTES);
    assert_eq!(plain_form(&book), Ok(plain));
}

#[test]
fn forms_that_take_most_bytes_a_number() {
    for clauses in [0, 1, 2, CLAUSES] {
        let plain = [vec![1, 0], [0, 0].repeat(clauses)].concat();
        let book = book_of(&plain).unwrap();
        assert_eq!(book.len(), 10 + 7 * clauses);
        assert_eq!(plain_form(&book), Ok(plain));
    }
}
