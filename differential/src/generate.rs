//! One input made from random numbers: a call, a book, a plain form or a text, and lent spaces of many sizes.
use crate::input::{Call, Input, Lent, CALLS};
use crate::{books, damage, text_damage, texts};
use twin::book::Book;
use twin::calls::WORK_WORDS;
use twin::explaining::FEW_GROUPS;
use twin::random::Random;
use twin::rounds::{open_groups, Record, Rounds, EXPLANATION, REPAIR};

pub fn input(random: &mut Random) -> Input {
    let call = random.pick(&CALLS);
    let book = books::any(random);
    let damaged = random.once_in(3);
    match call {
        Call::Write => return write(random, &book, damaged),
        Call::FromText => return from_text(random, &book, damaged),
        _ => {}
    }
    let bytes = if damaged { damage::bytes(random, &book) } else { book.bytes() };
    let mut input = Input::new(random, call, &bytes);
    input.choice = choice(random, &book);
    match call {
        Call::Read => input.numbers = space(random, book.plain().len()),
        Call::ToText => input.bytes = space(random, book.text().len()),
        Call::Ask => input.bytes = space(random, book.variables),
        Call::Round | Call::List => (input.records, input.count) = records(random, &book),
        _ => {}
    }
    if !matches!(call, Call::Check | Call::Read | Call::ToText) {
        input.work = work(random);
    }
    input
}

fn write(random: &mut Random, book: &Book, damaged: bool) -> Input {
    let plain = if damaged { damage::plain(random, book) } else { book.plain() };
    let mut input = Input::new(random, Call::Write, &[]);
    input.plain = Lent::of(random, &plain);
    input.bytes = space(random, book.bytes().len());
    input
}

fn from_text(random: &mut Random, book: &Book, damaged: bool) -> Input {
    let damaged = damaged || random.once_in(4);
    let text = if damaged { text_damage::text(random, book) } else { texts::any(random, book) };
    let mut input = Input::new(random, Call::FromText, &[]);
    input.text = Lent::of(random, &text);
    input.bytes = space(random, book.bytes().len());
    input
}

/// A space of the size that is needed, larger, or at times too small.
fn space<T: crate::input::Junk>(random: &mut Random, needed: usize) -> Lent<T> {
    let length = match random.below(12) {
        0 => needed.saturating_sub(1),
        1 => random.below(needed + 1),
        2 => 0,
        3..7 => needed + random.between(1, 20),
        _ => needed,
    };
    Lent::new(random, &[], length)
}

fn work(random: &mut Random) -> Lent<u16> {
    let length = match random.below(24) {
        0 => WORK_WORDS - 1,
        1 => random.pick(&[0, 1, 4_096]),
        2..12 => WORK_WORDS + random.between(1, 40),
        _ => WORK_WORDS,
    };
    Lent::new(random, &[], length)
}

fn choice(random: &mut Random, book: &Book) -> u32 {
    let all = book.all_groups();
    match random.below(10) {
        0 => 0,
        1..4 => all,
        4..6 => (random.next() | random.next()) as u32 & all,
        6..8 => random.next() as u32 & all,
        8 => random.next() as u32,
        _ => all & random.next() as u32 | 1 << random.below(32),
    }
}

/// Room and records in it with the count that the caller names.
fn records(random: &mut Random, book: &Book) -> (Lent<u32>, usize) {
    let listed = listed(random, book);
    let count = if random.once_in(10) { random.below(listed.len() + 1) } else { listed.len() };
    let more = match random.below(10) {
        0..2 => 0,
        2..4 => 1,
        4..8 => random.below(12),
        _ => random.below(400),
    };
    // Beyond few groups the twin searches for each seed anew, and each record makes the search longer.
    let more = match open_groups(book, &listed).count_ones() {
        0..=FEW_GROUPS => more,
        13..=20 => more.min(4),
        _ => more.min(1),
    };
    let mut words: Vec<u32> = listed.iter().flat_map(|record| [record.kind, record.set]).collect();
    let length = 2 * (count + more) + usize::from(random.once_in(3));
    words.truncate(length);
    match random.below(16) {
        0 => break_words(random, &mut words, book),
        1 => return (Lent::new(random, &words, length), too_many(random, length / 2)),
        _ => {}
    }
    (Lent::new(random, &words, length), count)
}

/// A count beyond the whole records in the space, also such that twice the count is a small number in 64 bits.
fn too_many(random: &mut Random, room: usize) -> usize {
    let beyond = room + 1 + random.below(3);
    random.pick(&[room + 1, beyond, usize::MAX, usize::MAX / 2 + 1, usize::MAX / 2 + beyond, 1 << 32])
}

/// A kind that is none, or a group that the book lacks, in some of the words.
fn break_words(random: &mut Random, words: &mut [u32], book: &Book) {
    let lacking = !book.all_groups();
    for _ in 0..random.between(1, 3) {
        if words.is_empty() {
            return;
        }
        let at = random.below(words.len());
        if at % 2 == 0 {
            words[at] = random.pick(&[0, 3, u32::MAX, 1 << 16 | 1]);
        } else if lacking != 0 {
            words[at] |= 1 << (32 - random.between(1, lacking.count_ones() as usize));
        }
    }
}

/// Records that are there already: none, a beginning of the book's own listing, another book's, or anybody's.
fn listed(random: &mut Random, book: &Book) -> Vec<Record> {
    match random.below(12) {
        0..4 => vec![],
        4..8 => {
            let most = random.pick(&[3, 30, 5_000]);
            beginning(book, random.between(1, most))
        }
        8 => {
            let other = Book { groups: book.groups, ..books::few(random) };
            let fits = other.clauses.iter().all(|clause| clause.group <= other.groups);
            if fits {
                beginning(&other, random.between(1, 20))
            } else {
                foreign(random, book)
            }
        }
        _ => foreign(random, book),
    }
}

/// The first records of the book's listing.
fn beginning(book: &Book, most: usize) -> Vec<Record> {
    let mut rounds = Rounds::new(book, &[]);
    for _ in 0..most {
        if rounds.round().is_none() {
            break;
        }
    }
    rounds.records().to_vec()
}

/// Well-formed records of no book: repeated ones and empty sets among them. Where there are more groups than the twin can try all choices of, explanations either
/// keep to a few groups or have many, so that a search for the seed ends soon.
fn foreign(random: &mut Random, book: &Book) -> Vec<Record> {
    let all = book.all_groups();
    let dense = random.once_in(3);
    let mask = if book.groups <= 12 || dense { all } else { few_groups(random, book) };
    let mut records = Vec::new();
    for _ in 0..random.between(1, 10) {
        let kind = random.pick(&[EXPLANATION, REPAIR]);
        let groups = if kind == REPAIR { all } else { mask };
        records.push(Record { kind, set: foreign_set(random, groups, dense) });
        if random.once_in(8) {
            records.push(random.pick(&records));
        }
    }
    records
}

/// Some of the groups: many, or one or a few; seldom none.
fn foreign_set(random: &mut Random, groups: u32, dense: bool) -> u32 {
    let bits = match random.below(40) {
        0 => return 0,
        _ if dense => random.next() | random.next(),
        1..12 => 0,
        12..25 => random.next() & random.next() & random.next(),
        _ => random.next() & random.next(),
    };
    let one = (0..32)
        .map(|bit| 1 << bit)
        .filter(|single| groups & single != 0)
        .nth(random.below(groups.count_ones().max(1) as usize));
    match bits as u32 & groups {
        0 => one.unwrap_or(0),
        set => set,
    }
}

/// The groups with clauses and others, up to twelve.
fn few_groups(random: &mut Random, book: &Book) -> u32 {
    let mut groups = book.used_groups();
    while groups.count_ones() < 12 {
        groups |= 1 << random.below(book.groups);
    }
    groups
}
