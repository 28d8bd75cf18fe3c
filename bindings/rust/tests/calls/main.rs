//! The calls, and what stands on them, on inputs whose answers documents 01 and 02 give; every lent space is compared afterwards.
mod cases;
mod listing;
mod refusals;
mod text;

/// Stands in every lent space, to see what a call leaves.
const MARK: u8 = 0xA5;
/// All that there is to list of Book X, in the fixed order.
const X_RECORDS: [u32; 14] = [1, 3, 1, 12, 2, 5, 1, 25, 2, 9, 2, 10, 2, 22];

/// Book X.
fn x() -> Vec<u8> {
    std::fs::read("../../examples/x.book").unwrap()
}

fn assert_untouched<T: Copy + From<u8> + PartialEq>(space: &[T]) {
    assert!(space.iter().all(|&element| element == MARK.into()));
}
