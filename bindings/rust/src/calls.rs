//! The calls, each over the spaces that it is lent.
#![forbid(unsafe_code)]
use crate::answers::{Asked, Counts, Explained, Listed};
use crate::limits::BOOK_BYTES;
use crate::raw;
use crate::refusal::Refusal;

/// Checks a book: whether the bytes are a rule book, and its counts.
///
/// ```
/// let book = std::fs::read("../../examples/x.book").unwrap();
/// let counts = badolkhup::check(&book).unwrap();
/// assert_eq!((counts.variables, counts.groups, counts.clauses), (3, 5, 6));
/// ```
///
/// # Errors
/// Refusals 1 to 9.
pub fn check(book: &[u8]) -> Result<Counts, Refusal> {
    raw::check(book).counts()
}

/// Reads a book to its plain form: variables, groups, then for each clause its group, its body as negative numbers, its head if any, and 0.
/// Gives how many numbers were written.
///
/// Afterwards `out` begins with the plain form; what follows in it stays. [`plain_form`](crate::plain_form) finds the space itself.
///
/// ```
/// let book = std::fs::read("../../examples/x.book").unwrap();
/// let mut out = [77; 25];
/// assert_eq!(badolkhup::read(&book, &mut out), Ok(23));
/// assert_eq!(out[..12], [3, 5, 0, -3, 0, 1, 1, 0, 2, -1, 3, 0]);
/// assert_eq!(out[23..], [77, 77]);
/// ```
///
/// # Errors
/// Refusals 1 to 9; 11 where `out` is shorter than the plain form.
pub fn read(book: &[u8], out: &mut [i32]) -> Result<usize, Refusal> {
    raw::read(book, out).written(out.len())
}

/// Writes a plain form as a book. Gives how many bytes were written: 10, and for each clause 7 and 2 for each variable of its body.
///
/// Afterwards `out` begins with the book; what follows in it stays. [`book_of`](crate::book_of) finds the space itself.
///
/// ```
/// let mut out = [9; 24];
/// // One variable, one group; clause 1: variable 1 must not be true; clause 2, of group 1: it is.
/// assert_eq!(badolkhup::write(&[1, 1, 0, -1, 0, 1, 1, 0], &mut out), Err(badolkhup::Refusal { number: 11, place: 0 }));
/// let mut out = [9; 27];
/// assert_eq!(badolkhup::write(&[1, 1, 0, -1, 0, 1, 1, 0], &mut out), Ok(26));
/// assert_eq!(out[23..], [0, 0, 0, 9]);
/// ```
///
/// # Errors
/// Refusals 5 to 8, 12 and 13 of the plain form; then 1 where the book would be too long and 11 where `out` is shorter than it.
pub fn write(plain: &[i32], out: &mut [u8]) -> Result<usize, Refusal> {
    raw::write(plain, out).written(out.len().min(BOOK_BYTES))
}

/// Turns group CNF text into a book. Gives how many bytes were written: 10, and for each clause 7 and 2 for each variable of its body.
///
/// Lines are comments, which begin with `c`, blank, or, with blanks and tabs around and between words, the line `p gcnf` with variables, clauses and groups,
/// and behind it one clause a line: its group in braces, literals in any order, also repeated, and 0.
///
/// Afterwards `out` begins with the book, in which each literal stands once; what follows in it stays. [`book_of_text`](crate::book_of_text) finds the space
/// itself.
///
/// ```
/// let mut out = [9; 27];
/// assert_eq!(badolkhup::from_text(b"c one clause\np gcnf 2 1 1\n{1} 2 -1 -1 0\n", &mut out), Ok(19));
/// assert_eq!(out[7..20], [2, 0, 6, 0, 1, 0, 2, 0, 1, 0, 0, 0, 9]);
/// assert_eq!(badolkhup::from_text(b"{1} 2 0\n", &mut out), Err(badolkhup::Refusal { number: 22, place: 1 }));
/// ```
///
/// # Errors
/// Refusals 22, 7, 20, 6 and 5 of a line, at its number from 1; then 22 at 0 where there is no `p` line, 21 where its count of clauses is wrong, 1 where the
/// book would be too long and 11 where `out` is shorter than it.
pub fn from_text(text: &[u8], out: &mut [u8]) -> Result<usize, Refusal> {
    raw::from_text(text, out).written(out.len().min(BOOK_BYTES))
}

/// Writes a book as group CNF text: the `p` line, then a line for each clause with its group in braces, its body, its head if any, and 0. Gives how many bytes
/// were written.
///
/// Afterwards `out` begins with the text; what follows in it stays. [`from_text`] turns it into the same book again. [`text_of`](crate::text_of) finds the
/// space itself.
///
/// ```
/// let book = std::fs::read("../../examples/x.book").unwrap();
/// let mut out = [b'.'; 80];
/// assert_eq!(badolkhup::to_text(&book, &mut out), Ok(71));
/// assert!(out.starts_with(b"p gcnf 3 6 5\n{0} -3 0\n{1} 1 0\n{2} -1 3 0\n"));
/// assert_eq!(out[70..], *b"\n.........");
/// ```
///
/// # Errors
/// Refusals 1 to 9; 11 where `out` is shorter than the text.
pub fn to_text(book: &[u8], out: &mut [u8]) -> Result<usize, Refusal> {
    raw::to_text(book, out).written(out.len())
}

/// Asks whether a choice is consistent, and which variables it forces. In `choice`, group g adds 2^(g−1); the core is in force in every choice.
///
/// `out` has at least one byte for each variable, `work` at least [`WORK_WORDS`](crate::WORK_WORDS) words. Afterwards, in both answers, the first bytes of `out` tell for each
/// variable 1 if it is forced and else 0, the first [`WORK_WORDS`](crate::WORK_WORDS) words of `work` are zero, and the rest of both stays.
/// [`forced`](crate::forced) finds the spaces itself.
///
/// ```
/// use badolkhup::{ask, Asked, WORK_WORDS};
/// let book = std::fs::read("../../examples/x.book").unwrap();
/// let (mut out, mut work) = ([7; 4], [0; WORK_WORDS]);
/// assert_eq!(ask(&book, 0b10101, &mut out, &mut work), Ok(Asked::Consistent));
/// assert_eq!(out, [1, 1, 0, 7]);
/// assert_eq!(ask(&book, 0b11111, &mut out, &mut work), Ok(Asked::Contradiction { clause: 1 }));
/// assert_eq!(out, [1, 1, 1, 7]);
/// ```
///
/// # Errors
/// Refusals 1 to 9; 10 where the choice names a group that the book lacks; 11 where `out` or `work` is too small.
pub fn ask(book: &[u8], choice: u32, out: &mut [u8], work: &mut [u16]) -> Result<Asked, Refusal> {
    raw::ask(book, choice, out, work).asked()
}

/// Explains a choice: it is consistent, or the smallest explanation within it.
///
/// `work` has at least [`WORK_WORDS`](crate::WORK_WORDS) words. Afterwards its first [`WORK_WORDS`](crate::WORK_WORDS) words are zero and the rest stays.
///
/// ```
/// use badolkhup::{explain, Explained, WORK_WORDS};
/// let book = std::fs::read("../../examples/x.book").unwrap();
/// let mut work = [0; WORK_WORDS];
/// assert_eq!(explain(&book, 28, &mut work), Ok(Explained::Explanation { groups: 12 }));
/// assert_eq!(explain(&book, 26, &mut work), Ok(Explained::Consistent));
/// ```
///
/// # Errors
/// Refusals 1 to 9; 10 where the choice names a group that the book lacks; 11 where `work` is too small.
pub fn explain(book: &[u8], choice: u32, work: &mut [u16]) -> Result<Explained, Refusal> {
    raw::explain(book, choice, work).explained(choice)
}

/// One round: adds the next record to the `count` that stand in `records`, if one and room remain.
///
/// Spaces and refusals are those of [`list`]; complete is said exactly where no seed remains after the call, so also by the round that writes the last record.
///
/// ```
/// use badolkhup::{round, Listed, WORK_WORDS};
/// let book = std::fs::read("../../examples/x.book").unwrap();
/// let (mut records, mut work) = ([0; 14], [0; WORK_WORDS]);
/// assert_eq!(round(&book, &mut records, 0, &mut work), Ok(Listed::Stopped { records: 1 }));
/// assert_eq!(records[..4], [1, 3, 0, 0]);
/// ```
///
/// # Errors
/// Those of [`list`].
pub fn round(book: &[u8], records: &mut [u32], count: usize, work: &mut [u16]) -> Result<Listed, Refusal> {
    let most = (records.len() / 2).min(count.saturating_add(1));
    raw::round(book, records, count, work).listed(count, most)
}

/// A listing to the end of the room: adds records to the `count` that stand in `records`.
///
/// Two words are a record: its kind ([`EXPLANATION`](crate::EXPLANATION) or [`REPAIR`](crate::REPAIR)) and its set, in which group g adds 2^(g−1).
/// `work` has at least [`WORK_WORDS`](crate::WORK_WORDS) words.
///
/// Afterwards the first words of `records` are the records that the answer counts: those that were there, as they were, and the new ones. A spare odd
/// word and all unused words stay. The first [`WORK_WORDS`](crate::WORK_WORDS) words of `work` are zero and the rest stays.
///
/// To continue, hand over the same words in a larger space, with the count of the answer. What was written in less room stands in front in more.
/// [`Listing`](crate::Listing) keeps the spaces itself.
///
/// ```
/// use badolkhup::{list, Listed, WORK_WORDS};
/// let book = std::fs::read("../../examples/x.book").unwrap();
/// let (mut records, mut work) = ([0; 15], [0; WORK_WORDS]);
/// assert_eq!(list(&book, &mut records[..6], 0, &mut work), Ok(Listed::Stopped { records: 3 }));
/// assert_eq!(records[..6], [1, 3, 1, 12, 2, 5]);
/// assert_eq!(list(&book, &mut records, 3, &mut work), Ok(Listed::Complete { records: 7 }));
/// assert_eq!(records[6..], [1, 25, 2, 9, 2, 10, 2, 22, 0]);
/// ```
///
/// # Errors
/// Refusals 1 to 9; 14 where `count` exceeds the whole records in the space or one of them is broken; 11 where `work` is too small.
pub fn list(book: &[u8], records: &mut [u32], count: usize, work: &mut [u16]) -> Result<Listed, Refusal> {
    raw::list(book, records, count, work).listed(count, records.len() / 2)
}
