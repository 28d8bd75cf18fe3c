//! The smallest explanation within a choice.
use crate::book::Book;

/// Up to this many groups every choice among them is tried.
pub const FEW_GROUPS: u32 = 12;

/// The choices within a choice, from the smallest number up.
pub fn choices_within(choice: u32) -> impl Iterator<Item = u32> {
    let mut next = Some(0u32);
    std::iter::from_fn(move || {
        let this = next?;
        next = (this != choice).then(|| this.wrapping_sub(choice) & choice);
        Some(this)
    })
}

/// The smallest number among inconsistent choices within the choice, by trying them. A group without a clause is in none that is smallest: leaving it out gives
/// a smaller number with the same clauses in force.
pub fn smallest_by_trial(book: &Book, choice: u32) -> Option<u32> {
    choices_within(choice & book.used_groups()).find(|tried| !book.consistent(*tried))
}

/// The same by leaving groups out from the highest down: a group stays out if those kept above it and all below it are still inconsistent, since only then does an
/// inconsistent choice without it remain, and every such choice is a smaller number.
pub fn smallest_by_leaving_out(book: &Book, choice: u32) -> Option<u32> {
    if book.consistent(choice) {
        return None;
    }
    let leave_out = |left: u32, bit: u32| {
        let without = left & !(1 << bit);
        if book.consistent(without) {
            left
        } else {
            without
        }
    };
    Some((0..32).rev().fold(choice, leave_out))
}

pub fn smallest(book: &Book, choice: u32) -> Option<u32> {
    if (choice & book.used_groups()).count_ones() <= FEW_GROUPS {
        smallest_by_trial(book, choice)
    } else {
        smallest_by_leaving_out(book, choice)
    }
}

/// The inconsistent choices of a book with few groups, from the smallest number up: trial for many choices of one book.
pub fn inconsistent(book: &Book) -> Option<Vec<u32>> {
    let used = book.used_groups();
    let inconsistent = || choices_within(used).filter(|choice| !book.consistent(*choice)).collect();
    (used.count_ones() <= FEW_GROUPS).then(inconsistent)
}
