//! Every explanation and every repair of a rule book: safe calls of the Badolkhup engine, which is proved.
//!
//! A rule book has Horn clauses in numbered groups; group 0 is the core, which is always in force. An *explanation* is a smallest set of groups that is
//! inconsistent, a *repair* a smallest set of groups whose removal leaves a consistent rest. A [`Listing`] lists both and says whether that is everything:
//!
//! ```
//! use badolkhup::{book_of, Found, Listing};
//!
//! // Book X: 3 variables, 5 groups. The core says that 3 must not be true; group 2 that 3 follows from 1; and so on.
//! let book = book_of(&[3, 5, 0, -3, 0, 1, 1, 0, 2, -1, 3, 0, 3, 2, 0, 4, -2, 3, 0, 5, -1, 2, 0])?;
//! let mut listing = Listing::new(&book)?;
//! while !listing.is_complete() {
//!     let _ = listing.extend(listing.count().max(64)); // Between two steps a user may stop it.
//! }
//! let Found::Complete(records) = listing.records() else { unreachable!() };
//! let lines: Vec<String> = records.iter().map(|record| record.to_string()).collect();
//! assert_eq!(lines, ["explain 1 2", "explain 3 4", "repair 1 3", "explain 1 4 5", "repair 1 4", "repair 2 4", "repair 2 3 5"]);
//! # Ok::<(), badolkhup::Refusal>(())
//! ```
//!
//! Beneath are the nine calls of the archive, over spaces that the caller lends: [`check`], [`read`], [`write()`], [`from_text`], [`to_text`], [`ask`],
//! [`explain`], [`round`] and [`list`].
//! Each takes every input, and either answers or is refused by number and place; a [`Refusal`] leaves every lent space as it came. Calls keep no
//! state, so any thread may make them.
//!
//! # Panics
//!
//! A call panics where the archive gives an answer that its contract rules out: then what is linked is not the archive of this version.
#![deny(unsafe_code)]
#![warn(missing_docs)]

#[cfg(not(all(target_arch = "x86_64", target_os = "linux")))]
compile_error!("libbadolkhup.a is made for x86-64 Linux alone");

mod answers;
mod calls;
mod groups;
mod limits;
mod listing;
mod owned;
#[allow(unsafe_code)] // The boundary; nowhere else.
mod raw;
mod refusal;

pub use answers::{Asked, Counts, Explained, Listed};
pub use calls::{ask, check, explain, from_text, list, read, round, to_text, write};
pub use groups::Groups;
pub use limits::{BODY, BOOK_BYTES, CLAUSES, EXPLANATION, GROUPS, REPAIR, VARIABLES, WORK_WORDS};
pub use listing::{Found, Listing, Record};
pub use owned::{book_of, book_of_text, forced, plain_form, text_of};
pub use refusal::Refusal;

// The page's Rust code is compiled and run with the doc tests.
#[cfg(doctest)]
#[doc = include_str!("../../../docs/INTEGRATING.md")]
struct Integrating;
