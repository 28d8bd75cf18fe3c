//! Engines with one error each, among them those that look right: the run must meet each error, and none in an engine that has none.
mod texts;

use crate::input::{Call, Input};
use crate::run::run;
use crate::sides::{by_twin, Side};
use std::collections::BTreeSet;
use twin::book::{Book, Clause};
use twin::calls::WORK_WORDS;
use twin::explaining::{choices_within, smallest, FEW_GROUPS};
use twin::rounds::{EXPLANATION, REPAIR};
use twin::{Answer, Refusal};

const SEED: u64 = 1;
const CASES: u64 = 20_000;

#[test]
fn none_where_there_is_none() {
    let found = run(right, SEED, 0..CASES, 2);
    assert_eq!(found.difference, None);
    assert_eq!(found.tally.missing(), Vec::<String>::new());
}

#[test]
fn each_error_is_met() {
    let unmet: Vec<&str> = ERRORS
        .iter()
        .chain(&texts::ERRORS)
        .filter(|error| run(error.1, SEED, 0..CASES, 2).difference.is_none())
        .map(|error| error.0)
        .collect();
    assert_eq!(unmet, Vec::<&str>::new());
}

#[test]
fn a_difference_does_not_depend_on_threads() {
    let found = |threads: u64| run(largest_broken_goal, SEED, 0..CASES, threads).difference.expect("the error is met");
    assert_eq!(found(1), found(3));
    assert!(found(1).1.contains("call ask"));
}

const ERRORS: [(&str, Side); 29] = [
    ("8 before 7", order_of_7_and_8),
    ("9 one byte late", place_of_9),
    ("10 and 14 after 11", order_of_11),
    ("14 looks at all kinds before the sets", kinds_before_sets),
    ("twice the count in 64 bits", count_wraps),
    ("2,048 clauses refused", one_clause_too_few),
    ("65,535 bytes refused", one_byte_too_few),
    ("a body of 32 refused", one_literal_too_few),
    ("the least number taken for a small one", least_number),
    ("12 before a bad header number", header_after_12),
    ("numbers out written before a refusal", written_before_refusal),
    ("working space not cleared", work_kept),
    ("working space cleared to its end", work_cleared_whole),
    ("a store behind the bytes lent", store_behind),
    ("the book changed", book_changed),
    ("bytes behind the variables cleared", later_bytes_cleared),
    ("the spare word cleared", spare_word_cleared),
    ("forced variables missing past a broken goal", forced_halts),
    ("the highest broken goal", largest_broken_goal),
    ("an empty explanation taken for consistent", empty_is_consistent),
    ("the explanation with the fewest groups", fewest_groups),
    ("complete because the room is full", complete_when_full),
    ("the last round says stopped", late_complete),
    ("a round that writes everything", round_lists),
    ("a repair with groups that are not there", repair_beyond_groups),
    ("an inconsistent seed excluded alone", seed_alone),
    ("the core removable", core_removable),
    ("one clause of a group instead of the group", one_clause_of_a_group),
    ("the last record overlooked", last_record_overlooked),
];

/// The engine with no error: the twin, and its fast listing where the twin would take too long.
fn right(input: &mut Input) -> Answer {
    match Book::read(input.book.part()) {
        Ok(book) if matches!(input.call, Call::Round | Call::List) && book.used_groups().count_ones() > FEW_GROUPS => {
            let room = if input.call == Call::Round { input.count + 1 } else { input.records.part().len() / 2 };
            let (records, complete) = twin::fast::list(input.book.part(), room);
            let words: Vec<u32> = records.iter().flat_map(|record| [record.0, record.1]).collect();
            input.records.part_mut()[..words.len()].copy_from_slice(&words);
            input.work.part_mut()[..WORK_WORDS].fill(0);
            Ok(vec![records.len() as u64, u64::from(complete)])
        }
        _ => by_twin(input),
    }
}

fn refused(number: u32, place: usize) -> Answer {
    Err(Refusal { number, place })
}

/// The twin's answer with some refusals turned into others.
fn other_refusal(input: &mut Input, other: impl Fn(&Input, Refusal) -> Option<Answer>) -> Answer {
    let answer = right(input);
    match answer {
        Err(refusal) => other(input, refusal).unwrap_or(answer),
        _ => answer,
    }
}

/// The twin over a changed input, with the spaces and the answer that it gives there.
fn with_book(input: &mut Input, change: impl FnOnce(&mut Book)) -> Answer {
    let Ok(mut book) = Book::read(input.book.part()) else {
        return right(input);
    };
    if matches!(input.call, Call::Check | Call::Read | Call::Write | Call::ToText) {
        return right(input);
    }
    change(&mut book);
    let given = input.book.clone();
    input.book = crate::input::Lent::of(&mut twin::random::Random::new(0, 0), &book.bytes());
    let answer = right(input);
    input.book = given;
    answer
}

fn order_of_7_and_8(input: &mut Input) -> Answer {
    other_refusal(input, |input, refusal| {
        let field = input.book.part().get(refusal.place + 7..)?;
        let length = usize::from(input.book.part()[refusal.place + 2]).checked_sub(4)?;
        let body: Vec<&[u8]> = field.get(..length)?.chunks(2).collect();
        (refusal.number == 7 && body.windows(2).any(|two| two[0] >= two[1])).then(|| refused(8, refusal.place))
    })
}

fn place_of_9(input: &mut Input) -> Answer {
    other_refusal(input, |_, refusal| (refusal.number == 9).then(|| refused(9, refusal.place + 1)))
}

fn order_of_11(input: &mut Input) -> Answer {
    other_refusal(input, |input, refusal| {
        let late = matches!(refusal.number, 10 | 14) && input.work.part().len() < WORK_WORDS;
        late.then(|| refused(11, 0))
    })
}

fn kinds_before_sets(input: &mut Input) -> Answer {
    other_refusal(input, |input, refusal| {
        let records = input.records.part().get(..input.count.checked_mul(2)?)?;
        let kind = records.iter().step_by(2).position(|kind| !(1..=2).contains(kind))?;
        (refusal.number == 14).then(|| refused(14, 2 * kind))
    })
}

fn count_wraps(input: &mut Input) -> Answer {
    let wrapped = input.count.wrapping_mul(2) / 2;
    input.count = if 2 * wrapped <= input.records.part().len() { wrapped } else { input.count };
    right(input)
}

fn one_clause_too_few(input: &mut Input) -> Answer {
    let last = Book::read(input.book.part()).ok().filter(|book| book.clauses.len() == 2_048);
    match last {
        Some(book) => refused(6, book.bytes().len() - 10 - 2 * book.clauses[2_047].body.len()),
        None => right(input),
    }
}

fn one_byte_too_few(input: &mut Input) -> Answer {
    if input.book.part().len() == 65_535 {
        return refused(1, 0);
    }
    right(input)
}

fn one_literal_too_few(input: &mut Input) -> Answer {
    let full = |clause: &Clause| clause.body.len() == 32;
    match Book::from_plain(input.plain.part()) {
        Ok(book) if input.call == Call::Write && book.clauses.iter().any(full) => refused(5, 33),
        _ => right(input),
    }
}

fn least_number(input: &mut Input) -> Answer {
    other_refusal(input, |input, refusal| {
        let least = input.call == Call::Write && refusal.number == 7 && input.plain.part()[refusal.place] == i32::MIN;
        least.then(|| refused(8, refusal.place))
    })
}

fn header_after_12(input: &mut Input) -> Answer {
    let short = input.call == Call::Write && input.plain.part().len() == 1;
    if short {
        refused(12, 1)
    } else {
        right(input)
    }
}

fn written_before_refusal(input: &mut Input) -> Answer {
    let answer = right(input);
    if let (Err(Refusal { number: 11, .. }), Some(first)) = (&answer, input.numbers.part_mut().first_mut()) {
        *first = 1;
    }
    answer
}

/// The twin with an error in what it leaves, where it answers.
fn other_spaces(input: &mut Input, change: impl FnOnce(&Input, &mut Input, &mut Vec<u64>)) -> Answer {
    let before = input.clone();
    let mut values = right(input)?;
    change(&before, input, &mut values);
    Ok(values)
}

fn work_kept(input: &mut Input) -> Answer {
    other_spaces(input, |before, after, _| after.work = before.work.clone())
}

fn work_cleared_whole(input: &mut Input) -> Answer {
    other_spaces(input, |_, after, _| after.work.part_mut().fill(0))
}

fn store_behind(input: &mut Input) -> Answer {
    other_spaces(input, |_, after, _| *after.bytes.behind() ^= 1)
}

fn book_changed(input: &mut Input) -> Answer {
    other_spaces(input, |_, after, _| after.book.part_mut().iter_mut().take(1).for_each(|byte| *byte ^= 1))
}

fn later_bytes_cleared(input: &mut Input) -> Answer {
    other_spaces(input, |_, after, _| {
        if after.call == Call::Ask {
            let variables = Book::read(after.book.part()).expect("the call answered").variables;
            after.bytes.part_mut()[variables..].fill(0);
        }
    })
}

fn spare_word_cleared(input: &mut Input) -> Answer {
    other_spaces(input, |_, after, _| {
        after.records.part_mut().chunks_mut(2).filter(|two| two.len() == 1).for_each(|one| one[0] = 0)
    })
}

fn forced_halts(input: &mut Input) -> Answer {
    other_spaces(input, |_, after, values| {
        if after.call != Call::Ask || values.is_empty() {
            return;
        }
        let book = Book::read(after.book.part()).expect("the call answered");
        let mut forced = vec![false; book.variables + 1];
        let whole = |clause: &Clause, forced: &[bool]| {
            clause.in_force(after.choice) && clause.body.iter().all(|variable| forced[*variable])
        };
        while !book.clauses.iter().any(|clause| clause.head == 0 && whole(clause, &forced)) {
            let next =
                book.clauses.iter().find(|clause| clause.head > 0 && !forced[clause.head] && whole(clause, &forced));
            forced[next.expect("a goal is broken in the end").head] = true;
        }
        let bytes: Vec<u8> = forced[1..].iter().map(|forced| u8::from(*forced)).collect();
        after.bytes.part_mut()[..bytes.len()].copy_from_slice(&bytes);
    })
}

fn largest_broken_goal(input: &mut Input) -> Answer {
    other_spaces(input, |_, after, values| {
        if after.call == Call::Ask && !values.is_empty() {
            let book = Book::read(after.book.part()).expect("the call answered");
            let forced = book.forced(after.choice);
            let broken = |clause: &Clause| {
                clause.head == 0
                    && clause.in_force(after.choice)
                    && clause.body.iter().all(|variable| forced[*variable])
            };
            values[0] = book.clauses.iter().rposition(broken).expect("a goal is broken") as u64 + 1;
        }
    })
}

fn empty_is_consistent(input: &mut Input) -> Answer {
    let answer = right(input);
    if input.call == Call::Explain && answer == Ok(vec![0]) {
        Ok(vec![])
    } else {
        answer
    }
}

fn fewest_groups(input: &mut Input) -> Answer {
    other_spaces(input, |_, after, values| {
        if after.call == Call::Explain && !values.is_empty() {
            let book = Book::read(after.book.part()).expect("the call answered");
            let inconsistent =
                choices_within(after.choice & book.used_groups()).filter(|choice| !book.consistent(*choice));
            values[0] = inconsistent.min_by_key(|choice| (choice.count_ones(), *choice)).map_or(values[0], u64::from);
        }
    })
}

/// The twin with an error in the answer of a round or a listing.
fn other_listing(input: &mut Input, change: impl FnOnce(&Input, &mut Input, &mut Vec<u64>)) -> Answer {
    other_spaces(input, |before, after, values| {
        if matches!(before.call, Call::Round | Call::List) {
            change(before, after, values);
        }
    })
}

fn complete_when_full(input: &mut Input) -> Answer {
    other_listing(input, |_, after, values| {
        values[1] |= u64::from(values[0] as usize == after.records.part().len() / 2)
    })
}

fn late_complete(input: &mut Input) -> Answer {
    other_listing(input, |before, _, values| {
        values[1] &= u64::from(before.call == Call::List || values[0] == before.count as u64)
    })
}

fn round_lists(input: &mut Input) -> Answer {
    let call = input.call;
    input.call = if call == Call::Round { Call::List } else { call };
    let answer = right(input);
    input.call = call;
    answer
}

fn repair_beyond_groups(input: &mut Input) -> Answer {
    other_listing(input, |before, after, values| {
        let lacking = !Book::read(after.book.part()).expect("the call answered").all_groups();
        let new = &mut after.records.part_mut()[2 * before.count..2 * values[0] as usize];
        new.chunks_mut(2).filter(|record| record[0] == REPAIR).for_each(|record| record[1] |= lacking);
    })
}

fn seed_alone(input: &mut Input) -> Answer {
    other_listing(input, |before, after, values| {
        let book = Book::read(after.book.part()).expect("the call answered");
        if before.count > 0 || book.groups > 8 || before.call == Call::Round {
            return;
        }
        let room = after.records.part().len() / 2;
        let mut left: BTreeSet<u32> = (0..=book.all_groups()).collect();
        let mut count = 0;
        while let (Some(seed), true) = (left.last().copied(), count < room) {
            let explanation = smallest(&book, seed);
            let repair = book.all_groups() & !seed;
            left.retain(|choice| if explanation.is_some() { *choice != seed } else { choice & repair != 0 });
            let record = explanation.map_or([REPAIR, repair], |set| [EXPLANATION, set]);
            after.records.part_mut()[2 * count..2 * count + 2].copy_from_slice(&record);
            count += 1;
        }
        *values = vec![count as u64, u64::from(left.is_empty())];
    })
}

fn core_removable(input: &mut Input) -> Answer {
    let Ok(Book { groups: 0..10, .. }) = Book::read(input.book.part()) else {
        return right(input);
    };
    with_book(input, |book| {
        book.groups += 1;
        let last = book.groups;
        book.clauses.iter_mut().filter(|clause| clause.group == 0).for_each(|clause| clause.group = last);
    })
}

fn one_clause_of_a_group(input: &mut Input) -> Answer {
    with_book(input, |book| {
        let mut met = BTreeSet::new();
        book.clauses.retain(|clause| clause.group == 0 || met.insert(clause.group));
    })
}

fn last_record_overlooked(input: &mut Input) -> Answer {
    if input.call != Call::Round || input.count == 0 || right(&mut input.clone()).is_err() {
        return right(input);
    }
    input.count -= 1;
    let kept = input.records.clone();
    let mut answer = right(input);
    input.records = kept;
    input.count += 1;
    if let Ok(values) = &mut answer {
        values[0] = input.count as u64;
    }
    answer
}
