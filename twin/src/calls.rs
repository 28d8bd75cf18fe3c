//! The nine calls with their lent spaces.
use crate::book::Book;
use crate::explaining::smallest;
use crate::rounds::{Record, Rounds, EXPLANATION, REPAIR};
use crate::{refuse_if, Answer, Refusal};

/// Words of working space that a call asks for and clears.
pub const WORK_WORDS: usize = 8_192;

pub fn check(book: &[u8]) -> Answer {
    let book = Book::read(book)?;
    Ok(vec![book.variables as u64, book.groups as u64, book.clauses.len() as u64])
}

pub fn read(book: &[u8], out: &mut [i32]) -> Answer {
    lay(&Book::read(book)?.plain(), out)
}

pub fn write(plain: &[i32], out: &mut [u8]) -> Answer {
    lay(&Book::from_plain(plain)?.bytes(), out)
}

pub fn from_text(text: &[u8], out: &mut [u8]) -> Answer {
    lay(&Book::from_text(text)?.bytes(), out)
}

pub fn to_text(book: &[u8], out: &mut [u8]) -> Answer {
    lay(&Book::read(book)?.text(), out)
}

pub fn ask(book: &[u8], choice: u32, out: &mut [u8], work: &mut [u16]) -> Answer {
    let book = Book::read(book)?;
    groups_there(&book, choice)?;
    refuse_if(out.len() < book.variables || work.len() < WORK_WORDS, 11, 0)?;
    let forced = book.forced(choice);
    for variable in 1..=book.variables {
        out[variable - 1] = u8::from(forced[variable]);
    }
    clear(work);
    Ok(book.broken_goal(choice).map(|clause| clause as u64).into_iter().collect())
}

pub fn explain(book: &[u8], choice: u32, work: &mut [u16]) -> Answer {
    let book = Book::read(book)?;
    groups_there(&book, choice)?;
    refuse_if(work.len() < WORK_WORDS, 11, 0)?;
    clear(work);
    Ok(smallest(&book, choice).map(u64::from).into_iter().collect())
}

pub fn round(book: &[u8], records: &mut [u32], count: usize, work: &mut [u16]) -> Answer {
    rounds(book, records, count, work, 1)
}

pub fn list(book: &[u8], records: &mut [u32], count: usize, work: &mut [u16]) -> Answer {
    rounds(book, records, count, work, usize::MAX)
}

/// At most so many rounds, as far as the room goes.
fn rounds(book: &[u8], words: &mut [u32], count: usize, work: &mut [u16], most: usize) -> Answer {
    let book = Book::read(book)?;
    let listed = records_there(&book, words, count)?;
    refuse_if(work.len() < WORK_WORDS, 11, 0)?;
    let room = words.len() / 2 - count;
    let mut rounds = Rounds::new(&book, &listed);
    for _ in 0..room.min(most) {
        let Some(record) = rounds.round() else { break };
        let at = 2 * (rounds.records().len() - 1);
        words[at] = record.kind;
        words[at + 1] = record.set;
    }
    clear(work);
    Ok(vec![rounds.records().len() as u64, u64::from(rounds.seed().is_none())])
}

/// Refusal 10.
fn groups_there(book: &Book, choice: u32) -> Result<(), Refusal> {
    let lowest = (choice & !book.all_groups()).trailing_zeros() as usize + 1;
    refuse_if(choice & !book.all_groups() != 0, 10, lowest)
}

/// Refusal 14, and the records where there is none.
fn records_there(book: &Book, words: &[u32], count: usize) -> Result<Vec<Record>, Refusal> {
    refuse_if(count > words.len() / 2, 14, words.len())?;
    let mut records = Vec::new();
    for index in 0..count {
        let (kind, set) = (words[2 * index], words[2 * index + 1]);
        refuse_if(kind != EXPLANATION && kind != REPAIR, 14, 2 * index)?;
        refuse_if(set & !book.all_groups() != 0, 14, 2 * index + 1)?;
        records.push(Record { kind, set });
    }
    Ok(records)
}

/// Refusal 11, or the values at the beginning of the space and how many they are.
fn lay<T: Copy>(values: &[T], out: &mut [T]) -> Answer {
    refuse_if(out.len() < values.len(), 11, 0)?;
    out[..values.len()].copy_from_slice(values);
    Ok(vec![values.len() as u64])
}

fn clear(work: &mut [u16]) {
    work[..WORK_WORDS].fill(0);
}
