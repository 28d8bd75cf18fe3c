//! Against a listing that tries all choices.

use super::list;
use crate::book::{Book, Clause};
use crate::random::Random;

fn consistent(book: &Book, choice: u32) -> bool {
    let in_force = |clause: &&Clause| clause.group == 0 || choice >> (clause.group - 1) & 1 == 1;
    let mut forced = vec![false; book.variables + 1];
    for _ in 0..=book.variables {
        for clause in book.clauses.iter().filter(in_force) {
            if clause.body.iter().all(|&variable| forced[variable]) {
                forced[clause.head] = true;
            }
        }
    }
    !forced[0]
}

/// The round rule, word for word, over all choices.
fn by_trying(book: &Book, room: usize) -> (Vec<(u32, u32)>, bool) {
    let choices = 1u32 << book.groups;
    let fine: Vec<bool> = (0..choices).map(|choice| consistent(book, choice)).collect();
    let mut records: Vec<(u32, u32)> = Vec::new();
    loop {
        let allowed = |choice: &u32| {
            records.iter().all(|&(kind, set)| if kind == 1 { choice & set != set } else { choice & set != 0 })
        };
        let Some(seed) = (0..choices).rev().find(allowed) else { return (records, true) };
        if records.len() == room {
            return (records, false);
        }
        let inconsistent = (0..choices).find(|&choice| choice & !seed == 0 && !fine[choice as usize]);
        records.push(inconsistent.map_or((2, choices - 1 - seed), |explanation| (1, explanation)));
    }
}

/// The core has few clauses, and seldom a false one: else most books are broken by it.
fn clause(random: &mut Random, variables: usize, groups: usize) -> Clause {
    let goal = random.once_in(4);
    let least = usize::from(goal && !random.once_in(20));
    let mut body: Vec<usize> = (0..least + random.below(3)).map(|_| random.between(1, variables)).collect();
    body.sort();
    body.dedup();
    let group = if random.once_in(5) || groups == 0 { 0 } else { random.between(1, groups) };
    Clause::new(group, if goal { 0 } else { random.between(1, variables) }, body)
}

#[test]
fn random_books_list_as_all_choices_do() {
    let (mut explanations, mut repairs, mut stopped) = (0, 0, 0);
    for case in 0..6000 {
        let mut random = Random::new(5, case);
        let (variables, groups) = (random.between(1, 9), random.below(10));
        let clauses = (0..random.below(40)).map(|_| clause(&mut random, variables, groups)).collect();
        let book = Book::new(variables, groups, clauses);
        let room = if random.once_in(3) { random.below(8) } else { 1000 };
        let answer = list(&book.bytes(), room);
        assert_eq!(answer, by_trying(&book, room), "case {case}: {book:?}");
        explanations += answer.0.iter().filter(|record| record.0 == 1).count();
        repairs += answer.0.iter().filter(|record| record.0 == 2).count();
        stopped += usize::from(!answer.1);
    }
    assert!(explanations > 5000 && repairs > 5000 && stopped > 500, "{explanations} {repairs} {stopped}");
}

#[test]
fn book_x() {
    let rows: [(usize, usize, &[usize]); 6] =
        [(0, 0, &[3]), (1, 1, &[]), (2, 3, &[1]), (3, 2, &[]), (4, 3, &[2]), (5, 2, &[1])];
    let clauses = rows.map(|(group, head, body)| Clause::new(group, head, body.to_vec()));
    let bytes = Book::new(3, 5, clauses.to_vec()).bytes();
    let records = vec![(1, 3), (1, 12), (2, 5), (1, 25), (2, 9), (2, 10), (2, 22)];
    assert_eq!(list(&bytes, 7), (records.clone(), true));
    assert_eq!(list(&bytes, 6), (records[..6].to_vec(), false));
}

#[test]
fn all_32_groups_in_one_explanation() {
    let mut clauses: Vec<Clause> = (1..=32).map(|group| Clause::new(group, group, vec![])).collect();
    clauses.push(Clause::new(0, 0, (1..=32).collect()));
    let (records, complete) = list(&Book::new(32, 32, clauses).bytes(), 100);
    let repairs: Vec<(u32, u32)> = (0..32).map(|group| (2, 1 << group)).collect();
    assert_eq!((&records[0], &records[1..], complete), (&(1, u32::MAX), &repairs[..], true));
}
