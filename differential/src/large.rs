//! Books with more groups than the twin can try all choices of: against the twin's fast listing, and against what is known of pairs.
use crate::books;
use crate::input::{Call, Input, Lent};
use crate::sequences::Steps;
use crate::sides::{compare, compare_with};
use twin::book::{Book, Clause, MOST_GROUPS};
use twin::calls::WORK_WORDS;
use twin::explaining::FEW_GROUPS;
use twin::rounds::{EXPLANATION, REPAIR};

/// Records in their order, and whether they are all.
type Listed = (Vec<(u32, u32)>, bool);

pub fn any(steps: &mut Steps) -> Result<(), String> {
    match steps.random.below(8) {
        0 => pairs(steps),
        1..4 => asked(steps),
        4 => round(steps),
        _ => {
            let book = many_groups(steps);
            let room = steps.random.below(400);
            listing(steps, &book, Call::List, room, twin::fast::list(&book.bytes(), room))
        }
    }
}

fn many_groups(steps: &mut Steps) -> Book {
    let groups = steps.random.between(FEW_GROUPS as usize + 1, MOST_GROUPS);
    books::of_groups(steps.random, groups)
}

/// Asking and explaining try no choices one by one if there are many.
fn asked(steps: &mut Steps) -> Result<(), String> {
    let book = many_groups(steps);
    let call = steps.random.pick(&[Call::Ask, Call::Explain]);
    let mut input = Input::new(steps.random, call, &book.bytes());
    input.bytes = Lent::new(steps.random, &[], book.variables);
    input.work = Lent::new(steps.random, &[], WORK_WORDS);
    input.choice = (steps.random.next() | steps.random.next()) as u32 & book.all_groups();
    compare(steps.engine, &input, steps.tally).map(|_| ())
}

/// One round somewhere in a listing.
fn round(steps: &mut Steps) -> Result<(), String> {
    let book = many_groups(steps);
    let room = steps.random.between(1, 200);
    let known = twin::fast::list(&book.bytes(), room);
    listing(steps, &book, Call::Round, known.0.len(), known)
}

/// The engine's listing in a room against one that is known: from its beginning, or the round that writes the last of it.
fn listing(steps: &mut Steps, book: &Book, call: Call, room: usize, known: Listed) -> Result<(), String> {
    let words: Vec<u32> = known.0.iter().flat_map(|record| [record.0, record.1]).collect();
    let mut input = Input::new(steps.random, call, &book.bytes());
    input.count = if call == Call::Round { known.0.len() - 1 } else { 0 };
    input.records = Lent::new(steps.random, &words[..2 * input.count], 2 * room + 1);
    input.work = Lent::new(steps.random, &[], WORK_WORDS + 1);
    let mut expected = input.clone();
    expected.records.part_mut()[..words.len()].copy_from_slice(&words);
    expected.work.part_mut()[..WORK_WORDS].fill(0);
    let answer = Ok(vec![known.0.len() as u64, u64::from(known.1)]);
    compare_with(steps.engine, &input, (answer, expected), steps.tally).map(|_| ())
}

/// Disjoint pairs: each is an explanation, and each way to take one group of every pair a repair. The explanations come first, since a seed has both groups of a
/// pair that is not listed; both kinds come in rising order, the repairs since seeds fall.
fn pairs(steps: &mut Steps) -> Result<(), String> {
    // At times more records than an engine can keep a list of beside tables of a book at the limits.
    let long = steps.random.below(16) == 0;
    let pairs = if long { steps.random.between(11, 13) } else { steps.random.between(7, 16) };
    let book = books::paired(steps.random, pairs);
    let single = |clause: &Clause| 1u32 << (clause.group - 1);
    let mut explanations: Vec<u32> = book.clauses.chunks(2).map(|pair| single(&pair[0]) | single(&pair[1])).collect();
    let mut repairs = vec![0];
    for pair in book.clauses.chunks(2) {
        repairs = repairs.iter().flat_map(|set| [set | single(&pair[0]), set | single(&pair[1])]).collect();
    }
    explanations.sort_unstable();
    repairs.sort_unstable();
    let all = explanations.len() + repairs.len();
    let room = if long { steps.random.between(1_500, 4_096) } else { steps.random.below(600) }.min(all + 3);
    let records =
        explanations.into_iter().map(|set| (EXPLANATION, set)).chain(repairs.into_iter().map(|set| (REPAIR, set)));
    let book = if long { books::filled(&book) } else { book };
    listing(steps, &book, Call::List, room, (records.take(room).collect(), room >= all))
}
