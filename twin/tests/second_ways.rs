//! What stands here in two ways agrees: consistent by closure and by assignments, the smallest explanation and the seed by trial and by a search.
use twin::book::{Book, Clause};
use twin::explaining::{inconsistent, smallest_by_leaving_out, smallest_by_trial};
use twin::random::Random;
use twin::rounds::{allowed_by_trial, seed_by_search, Record};

fn random_book(random: &mut Random, variables: usize, groups: usize) -> Book {
    let clauses = (0..random.below(24)).map(|_| {
        let odds = random.between(2, 9);
        Clause::new(
            random.below(groups + 1),
            if random.once_in(3) { 0 } else { random.between(1, variables) },
            (1..=variables).filter(|_| random.once_in(odds)).collect(),
        )
    });
    Book::new(variables, groups, clauses.collect())
}

fn random_records(random: &mut Random, groups: usize) -> Vec<Record> {
    let set = |random: &mut Random| (random.next() & random.next()) as u32 & ((1 << groups) - 1);
    (0..random.below(12)).map(|_| Record { kind: random.between(1, 2) as u32, set: set(random) }).collect()
}

#[test]
fn closure_and_assignments() {
    let mut met = [0, 0];
    for case in 0..2_000 {
        let mut random = Random::new(1, case);
        let variables = if case % 100 == 0 { 12 } else { random.between(1, 7) };
        let book = random_book(&mut random, variables, 3);
        for choice in 0..8 {
            assert_eq!(book.consistent(choice), book.satisfiable(choice), "case {case}, choice {choice}: {book:?}");
            met[usize::from(book.consistent(choice))] += 1;
        }
    }
    assert!(met[0] > 1_000 && met[1] > 1_000, "{met:?}");
}

#[test]
fn smallest_explanation() {
    let mut met = [0, 0];
    for case in 0..3_000 {
        let mut random = Random::new(2, case);
        let book = random_book(&mut random, 5, 8);
        let choice = (random.next() | random.next()) as u32 & 255;
        let tried = smallest_by_trial(&book, choice);
        assert_eq!(tried, smallest_by_leaving_out(&book, choice), "case {case}, choice {choice}: {book:?}");
        let table = inconsistent(&book).expect("eight groups are few");
        assert_eq!(tried, table.into_iter().find(|set| set & !choice == 0), "case {case}, choice {choice}: {book:?}");
        met[usize::from(tried.is_some_and(|set| set.count_ones() > 1))] += 1;
    }
    assert!(met[1] > 200, "{met:?}");
}

#[test]
fn seed() {
    let mut met = [0, 0];
    for case in 0..5_000 {
        let mut random = Random::new(3, case);
        let groups = random.between(0, 9);
        let book = random_book(&mut random, 3, groups);
        let records = random_records(&mut random, groups);
        let tried = allowed_by_trial(&book, &records).expect("nine groups are few").first().copied();
        let literal = (0..=book.all_groups()).rev().find(|choice| records.iter().all(|record| record.allows(*choice)));
        assert_eq!(tried, literal, "case {case}: {book:?}, {records:?}");
        assert_eq!(tried, seed_by_search(&book, &records), "case {case}: {book:?}, {records:?}");
        met[usize::from(tried.is_some())] += 1;
    }
    assert!(met[0] > 500 && met[1] > 500, "{met:?}");
}
