//! Listings that keep their own spaces.
#![forbid(unsafe_code)]
use crate::answers::{broken_archive, Listed};
use crate::calls::list;
use crate::groups::Groups;
use crate::limits::{EXPLANATION, REPAIR, WORK_WORDS};
use crate::refusal::Refusal;
use std::fmt;

/// One record of a listing.
#[derive(Debug, Clone, Copy, PartialEq, Eq, Hash)]
pub enum Record {
    /// A smallest set of groups that is inconsistent.
    Explanation(Groups),
    /// A smallest set of groups whose removal leaves a consistent rest.
    Repair(Groups),
}

impl Record {
    /// The record of two words, which the engine has written or let pass.
    fn of(words: &[u32]) -> Record {
        match *words {
            [EXPLANATION, set] => Record::Explanation(set.into()),
            [REPAIR, set] => Record::Repair(set.into()),
            _ => broken_archive(format_args!("{words:?} is no record")),
        }
    }
}

/// A line of the listing program: `explain 1 2`, `repair none`.
impl fmt::Display for Record {
    fn fmt(&self, f: &mut fmt::Formatter<'_>) -> fmt::Result {
        match self {
            Record::Explanation(groups) => write!(f, "explain {groups}"),
            Record::Repair(groups) => write!(f, "repair {groups}"),
        }
    }
}

/// What a listing holds, with whether that is everything. What was found is reached through one of the two cases only, so that a list which was
/// stopped is not shown as whole by accident.
#[derive(Debug, Clone, PartialEq, Eq, Hash)]
#[must_use = "it tells whether the list is whole"]
pub enum Found<T> {
    /// All there are.
    Complete(Vec<T>),
    /// Those found so far; there may be more.
    Stopped(Vec<T>),
}

/// A listing of one book: its records and the working space. It can be continued.
///
/// ```
/// use badolkhup::{Found, Groups, Listed, Listing};
/// let book = std::fs::read("../../examples/x.book").unwrap();
/// let mut listing = Listing::new(&book)?;
///
/// assert_eq!(listing.extend(3), Listed::Stopped { records: 3 });
/// assert_eq!(listing.repairs(), Found::Stopped(vec![Groups::from(5)]));
///
/// assert_eq!(listing.extend(100), Listed::Complete { records: 7 });
/// match listing.repairs() {
///     Found::Complete(repairs) => assert_eq!(repairs.len(), 4), // "All 4 repairs"
///     Found::Stopped(_) => unreachable!(),                      // "Repairs found so far: …"
/// }
/// # Ok::<(), badolkhup::Refusal>(())
/// ```
#[derive(Debug, Clone, PartialEq, Eq)]
pub struct Listing {
    book: Vec<u8>,
    /// Those of the records, with none to spare.
    words: Vec<u32>,
    complete: bool,
    work: Vec<u16>,
}

impl Listing {
    /// A listing of this book that is begun empty. It keeps a copy of the book, so that no other book can be listed on in its place.
    ///
    /// # Errors
    /// Refusals 1 to 9.
    pub fn new(book: &[u8]) -> Result<Listing, Refusal> {
        Listing::from_words(book, &[], 0)
    }

    /// A listing that goes on from stored records: the first `count` in these words.
    ///
    /// Take only what a listing of this very book gave, as [`words`](Listing::words), and store it beside the book. Well-formed records of another book
    /// are not refused, and then complete does not mean that all are there.
    ///
    /// # Errors
    /// Refusals 1 to 9; 14 where `count` exceeds the whole records in `words` or one of them is broken.
    pub fn from_words(book: &[u8], words: &[u32], count: usize) -> Result<Listing, Refusal> {
        // A count that is too large goes to the engine with all words: its refusal names how many there are.
        let kept = count.checked_mul(2).and_then(|length| words.get(..length)).unwrap_or(words);
        let mut listing =
            Listing { book: book.to_vec(), words: kept.to_vec(), complete: false, work: vec![0; WORK_WORDS] };
        let listed = list(&listing.book, &mut listing.words, count, &mut listing.work)?;
        listing.complete = matches!(listed, Listed::Complete { .. });
        Ok(listing)
    }

    /// Lists on, with room for so many more records. Once complete it stays so, and nothing is added.
    ///
    /// Each call finds its place among the records first, so many small steps cost far more than steps that double the count.
    ///
    /// # Panics
    /// Where memory for that many records cannot be had. Of a book and records that passed the checks nothing is refused.
    pub fn extend(&mut self, more: usize) -> Listed {
        let count = self.count();
        // Reserved first, since `resize` would end the whole program where memory cannot be had.
        let reserved = more.checked_mul(2).map(|words| self.words.try_reserve_exact(words));
        assert!(matches!(reserved, Some(Ok(()))), "room for {more} more records cannot be had");
        self.words.resize(2 * (count + more), 0);
        let listed = list(&self.book, &mut self.words, count, &mut self.work)
            .unwrap_or_else(|refusal| broken_archive(format_args!("a book that it let pass is {refusal}")));
        let (Listed::Complete { records } | Listed::Stopped { records }) = listed;
        self.words.truncate(2 * records);
        self.complete = matches!(listed, Listed::Complete { .. });
        listed
    }

    /// Whether the engine has said complete.
    pub fn is_complete(&self) -> bool {
        self.complete
    }

    /// How many records there are.
    pub fn count(&self) -> usize {
        self.words.len() / 2
    }

    /// The words of the records, two to a record, to be stored. They do not tell whether the listing is complete; [`from_words`](Listing::from_words) finds it out.
    pub fn words(&self) -> &[u32] {
        &self.words
    }

    /// The records, in the fixed order.
    pub fn records(&self) -> Found<Record> {
        self.found(Some)
    }

    /// The explanations, in the order of the records. Complete with none: the book is consistent.
    pub fn explanations(&self) -> Found<Groups> {
        self.found(|record| match record {
            Record::Explanation(groups) => Some(groups),
            Record::Repair(_) => None,
        })
    }

    /// The repairs, in the order of the records. Complete with none: the core is inconsistent, and no removal of groups cures it.
    pub fn repairs(&self) -> Found<Groups> {
        self.found(|record| match record {
            Record::Repair(groups) => Some(groups),
            Record::Explanation(_) => None,
        })
    }

    fn found<T>(&self, wanted: impl FnMut(Record) -> Option<T>) -> Found<T> {
        let found = self.words.chunks_exact(2).map(Record::of).filter_map(wanted).collect();
        match self.complete {
            true => Found::Complete(found),
            false => Found::Stopped(found),
        }
    }
}
