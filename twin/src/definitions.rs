//! Explanations and repairs by their definitions, over all choices.
use crate::book::Book;

/// Every explanation and every repair of a book, each in rising order.
#[derive(Debug, Clone, PartialEq, Eq)]
pub struct Defined {
    pub explanations: Vec<u32>,
    pub repairs: Vec<u32>,
}

/// The groups of a set, each as the choice of it alone.
fn single_groups(set: u32) -> impl Iterator<Item = u32> {
    (0..32).map(|bit| 1 << bit).filter(move |single| set & single != 0)
}

impl Defined {
    /// For books with few groups: asks about all 2^groups choices.
    pub fn of(book: &Book) -> Defined {
        let all = book.all_groups();
        let consistent: Vec<bool> = (0..=all).map(|choice| book.consistent(choice)).collect();
        let holds = |choice: u32| consistent[choice as usize];
        let explains = |set: &u32| !holds(*set) && single_groups(*set).all(|single| holds(*set & !single));
        let repairs = |set: &u32| holds(all & !*set) && single_groups(*set).all(|single| !holds(all & !*set | single));
        Defined { explanations: (0..=all).filter(explains).collect(), repairs: (0..=all).filter(repairs).collect() }
    }
}
