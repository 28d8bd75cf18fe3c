//! The round rule.
use crate::book::Book;
use crate::explaining::{choices_within, inconsistent, smallest, FEW_GROUPS};

pub const EXPLANATION: u32 = 1;
pub const REPAIR: u32 = 2;

#[derive(Debug, Clone, Copy, PartialEq, Eq)]
pub struct Record {
    pub kind: u32,
    pub set: u32,
}

impl Record {
    /// Whether the record leaves the choice as a seed: it contains no listed explanation and shares a group with every listed repair.
    pub fn allows(&self, choice: u32) -> bool {
        if self.kind == EXPLANATION {
            choice & self.set != self.set
        } else {
            choice & self.set != 0
        }
    }
}

/// The choices that are still allowed, the largest first, of few groups; of more the seed is searched for anew in each round.
enum Left {
    Choices(Vec<u32>),
    Search,
}

/// A listing of a book, from the records that are there already.
pub struct Rounds<'a> {
    book: &'a Book,
    records: Vec<Record>,
    left: Left,
    inconsistent: Option<Vec<u32>>,
}

impl<'a> Rounds<'a> {
    pub fn new(book: &'a Book, listed: &[Record]) -> Rounds<'a> {
        let left = match allowed_by_trial(book, listed) {
            Some(choices) => Left::Choices(choices),
            None => Left::Search,
        };
        Rounds { book, records: listed.to_vec(), left, inconsistent: inconsistent(book) }
    }

    /// The largest number among choices that all records allow.
    pub fn seed(&self) -> Option<u32> {
        match &self.left {
            Left::Choices(choices) => choices.first().copied(),
            Left::Search => seed_by_search(self.book, &self.records),
        }
    }

    /// The record of one round, if a seed remains.
    pub fn round(&mut self) -> Option<Record> {
        let seed = self.seed()?;
        let explanation = match &self.inconsistent {
            Some(choices) => choices.iter().copied().find(|choice| choice & !seed == 0),
            None => smallest(self.book, seed),
        };
        let record = match explanation {
            Some(set) => Record { kind: EXPLANATION, set },
            None => Record { kind: REPAIR, set: self.book.all_groups() & !seed },
        };
        self.records.push(record);
        if let Left::Choices(choices) = &mut self.left {
            choices.retain(|choice| record.allows(*choice));
        }
        Some(record)
    }

    pub fn records(&self) -> &[Record] {
        &self.records
    }
}

/// The groups that a seed may lack. A group with no clause and in no listed explanation is in every seed of the listing, since an allowed choice with it added is
/// allowed and larger; no explanation that is added later has it either.
pub fn open_groups(book: &Book, records: &[Record]) -> u32 {
    let explanations = records.iter().filter(|record| record.kind == EXPLANATION);
    explanations.fold(book.used_groups(), |groups, record| groups | record.set)
}

/// All choices that the records allow, the largest first, if the groups are few enough to try them.
pub fn allowed_by_trial(book: &Book, records: &[Record]) -> Option<Vec<u32>> {
    let open = open_groups(book, records);
    if open.count_ones() > FEW_GROUPS {
        return None;
    }
    let mut choices: Vec<u32> = choices_within(open).map(|choice| book.all_groups() & !open | choice).collect();
    choices.retain(|choice| records.iter().all(|record| record.allows(*choice)));
    choices.reverse();
    Some(choices)
}

/// The seed by deciding the highest undecided group each time, with it first.
pub fn seed_by_search(book: &Book, records: &[Record]) -> Option<u32> {
    let open = open_groups(book, records);
    search(open, book.all_groups() & !open, records)
}

fn search(undecided: u32, choice: u32, records: &[Record]) -> Option<u32> {
    let explained = |record: &Record| record.kind == EXPLANATION && choice & record.set == record.set;
    let missed = |record: &Record| record.kind == REPAIR && (choice | undecided) & record.set == 0;
    if records.iter().any(|record| explained(record) || missed(record)) {
        return None;
    }
    if undecided == 0 {
        return Some(choice);
    }
    let highest = 1 << undecided.ilog2();
    let rest = undecided & !highest;
    search(rest, choice | highest, records).or_else(|| search(rest, choice, records))
}
