//! Sets of groups.
#![forbid(unsafe_code)]
use std::fmt;

/// A set of groups, as its number: group g adds 2^(g−1). The core, group 0, is in no set.
///
/// ```
/// use badolkhup::Groups;
/// let groups = Groups::from(0b11001);
/// assert_eq!(groups.iter().collect::<Vec<_>>(), [1, 4, 5]);
/// assert!(groups.contains(4) && !groups.contains(2) && !groups.contains(0));
/// assert_eq!(groups.to_string(), "1 4 5");
/// assert_eq!(Groups::of([5, 1, 4]), Some(groups));
/// assert_eq!(Groups::default().to_string(), "none");
/// ```
#[derive(Debug, Clone, Copy, PartialEq, Eq, PartialOrd, Ord, Hash, Default)]
pub struct Groups(u32);

impl Groups {
    /// The set of these groups, or nothing where one of them is not 1 to 32.
    pub fn of(groups: impl IntoIterator<Item = u32>) -> Option<Groups> {
        groups.into_iter().try_fold(0, |set, group| Some(set | bit(group)?)).map(Groups)
    }

    /// Its number, as a choice or as the set of a record.
    pub const fn number(self) -> u32 {
        self.0
    }

    /// Whether it has this group.
    pub fn contains(self, group: u32) -> bool {
        bit(group).is_some_and(|bit| self.0 & bit != 0)
    }

    /// How many groups it has.
    pub const fn len(self) -> usize {
        self.0.count_ones() as usize
    }

    /// Whether it has none.
    pub const fn is_empty(self) -> bool {
        self.0 == 0
    }

    /// The numbers of its groups, rising.
    pub fn iter(self) -> impl Iterator<Item = u32> {
        (1..=u32::BITS).filter(move |&group| self.contains(group))
    }
}

/// What a group adds to a set's number; nothing where there can be no such group.
fn bit(group: u32) -> Option<u32> {
    1u32.checked_shl(group.checked_sub(1)?)
}

impl From<u32> for Groups {
    fn from(number: u32) -> Groups {
        Groups(number)
    }
}

/// The group numbers rising, with single blanks, or `none`: as the listing program prints a set.
impl fmt::Display for Groups {
    fn fmt(&self, f: &mut fmt::Formatter<'_>) -> fmt::Result {
        if self.is_empty() {
            return write!(f, "none");
        }
        for (index, group) in self.iter().enumerate() {
            let blank = if index == 0 { "" } else { " " };
            write!(f, "{blank}{group}")?;
        }
        Ok(())
    }
}
