//! Refusals: their numbers, their places, and a sentence for each.
#![forbid(unsafe_code)]
use std::error::Error;
use std::fmt;

/// Why a call did not answer. It left every lent space as it came.
///
/// | `number` | Condition | `place` |
/// |---|---|---|
/// | 1 | the book is longer than 65,535 bytes, or would be when written | 0 |
/// | 2 | a field is due and fewer than 3 bytes remain, or its length runs past the end | the field's first byte |
/// | 3 | unknown tag | the field's first byte |
/// | 4 | the first field is no header, or a header comes later | the field's first byte |
/// | 5 | a field has a wrong length; writing: a clause has a 33rd body literal; text: 33 different ones | the field's first byte; index of the literal; the line |
/// | 6 | there is a clause 2,049 | the field's first byte; index of its group; the line |
/// | 7 | a number is outside its limit or the header's counts | the field's first byte; index of the number; the line |
/// | 8 | a body does not strictly rise; writing: also a negative after the head | the field's first byte; index of the number |
/// | 9 | bytes follow the end | the first of them |
/// | 10 | the choice names a group that the book lacks | the lowest such group |
/// | 11 | a lent space is too small (never the room for records) | 0 |
/// | 12 | a plain form ends before its 0, or has under two numbers | its length |
/// | 13 | a clause has a second positive literal | index of the literal |
/// | 14 | the count exceeds the whole records in the space, or a record is broken | words in the space; index of the lowest faulty word |
/// | 20 | text: a clause has two different positive literals | the line |
/// | 21 | text: there are not as many clauses as the `p` line says | the `p` line |
/// | 22 | text: a line has none of the forms, a clause comes before the `p` line, a second `p` line comes; there is no `p` line | the line; 0 |
///
/// Bytes, numbers and words count from 0, lines from 1. Its text is for those who keep the book:
///
/// ```
/// let refusal = badolkhup::check(&[0, 0, 0]).unwrap_err();
/// assert_eq!((refusal.number, refusal.place), (4, 0));
/// assert_eq!(refusal.to_string(), "refused with 4: the field at 0 is out of place: a header comes first, and only there");
/// ```
#[derive(Debug, Clone, Copy, PartialEq, Eq, Hash)]
pub struct Refusal {
    /// 1 to 14, 20 to 22.
    pub number: u32,
    /// Where, as the table says.
    pub place: usize,
}

impl fmt::Display for Refusal {
    fn fmt(&self, f: &mut fmt::Formatter<'_>) -> fmt::Result {
        let Refusal { number, place } = self;
        write!(f, "refused with {number}: ")?;
        match number {
            1 => write!(f, "the book is longer than 65,535 bytes"),
            2 => write!(f, "the book is cut off in the field at {place}"),
            3 => write!(f, "the field at {place} has an unknown tag"),
            4 => write!(f, "the field at {place} is out of place: a header comes first, and only there"),
            5 => write!(f, "the length is wrong at {place}: a clause has at most 32 body variables"),
            6 => write!(f, "there are more than 2,048 clauses, the first too many at {place}"),
            7 => write!(f, "a number is outside its limit or the header's counts at {place}"),
            8 => write!(f, "the body does not strictly rise, or does not come before the head, at {place}"),
            9 => write!(f, "bytes follow the end, from {place} on"),
            10 => write!(f, "the book has no group {place}"),
            11 => write!(f, "a lent space is too small"),
            12 => write!(f, "the plain form ends too early, after {place} numbers"),
            13 => write!(f, "a clause has a second head at {place}"),
            14 => write!(f, "the records are broken, or more are counted than there are, at word {place}"),
            20 => write!(f, "the clause in line {place} has two heads"),
            21 => write!(f, "there are not as many clauses as line {place} says"),
            22 if *place == 0 => write!(f, "the text has no line that begins with p"),
            22 => write!(f, "line {place} is no group CNF, or comes before the p line, or is a second one"),
            _ => write!(f, "no such refusal, at {place}"),
        }
    }
}

impl Error for Refusal {}
