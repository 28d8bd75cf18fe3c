//! The calls of document 01, and of document 02 as far as it has landed, a second time, written from their definitions and sharing nothing with the engine.
//!
//! The calls are plain: a choice is explained by trying the choices within it from the smallest number up, and a seed is looked for among all choices from the
//! largest number down. Where there are too many choices for that, a second way takes over, which the tests here hold to the first. `fast` is a listing made for
//! speed, for the benchmark and for books of many groups.
#![forbid(unsafe_code)]

pub mod book;
pub mod calls;
pub mod definitions;
pub mod explaining;
pub mod fast;
pub mod meaning;
pub mod plain;
pub mod random;
pub mod rounds;
pub mod text;

/// A refusal by its number in the table, and its place.
#[derive(Debug, Clone, Copy, PartialEq, Eq)]
pub struct Refusal {
    pub number: u32,
    pub place: usize,
}

/// The values of an answer in the order in which the C boundary gives them, or the refusal.
pub type Answer = Result<Vec<u64>, Refusal>;

/// Refuses with a number at a place where the condition holds.
pub(crate) fn refuse_if(condition: bool, number: u32, place: usize) -> Result<(), Refusal> {
    if condition {
        Err(Refusal { number, place })
    } else {
        Ok(())
    }
}
