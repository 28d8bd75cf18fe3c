//! Numbers of the format and of the spaces.
#![forbid(unsafe_code)]

/// Bytes that a book has at most.
pub const BOOK_BYTES: usize = 65_535;
/// Variables that a book has at most; it has at least 1.
pub const VARIABLES: usize = 1_024;
/// Groups that a book has at most, the core not counted.
pub const GROUPS: usize = 32;
/// Clauses that a book has at most.
pub const CLAUSES: usize = 2_048;
/// Variables that a clause's body has at most.
pub const BODY: usize = 32;
/// Words of working space that [`ask`](crate::ask), [`explain`](crate::explain), [`round`](crate::round) and [`list`](crate::list) need.
pub const WORK_WORDS: usize = 8_192;
/// The kind of a record that is an explanation.
pub const EXPLANATION: u32 = 1;
/// The kind of a record that is a repair.
pub const REPAIR: u32 = 2;
