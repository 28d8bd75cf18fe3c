//! Answers: what a call returned at the boundary, as Rust types.
#![forbid(unsafe_code)]
use crate::limits::{CLAUSES, GROUPS, VARIABLES};
use crate::raw::{Returned, UNWRITTEN};
use crate::refusal::Refusal;
use std::fmt;

/// What [`check`](crate::check) finds in a book.
#[derive(Debug, Clone, Copy, PartialEq, Eq, Hash)]
pub struct Counts {
    /// 1 to 1,024.
    pub variables: u16,
    /// 0 to 32; group 0, the core, is not counted.
    pub groups: u16,
    /// 0 to 2,048.
    pub clauses: u16,
}

/// What [`ask`](crate::ask) answers.
#[derive(Debug, Clone, Copy, PartialEq, Eq, Hash)]
pub enum Asked {
    /// Some assignment satisfies all clauses in force.
    Consistent,
    /// None does.
    Contradiction {
        /// The lowest number of a broken goal among all clauses of the book, counted from 1.
        clause: u16,
    },
}

/// What [`explain`](crate::explain) answers.
#[derive(Debug, Clone, Copy, PartialEq, Eq, Hash)]
pub enum Explained {
    /// There is nothing to explain.
    Consistent,
    /// The choice is inconsistent.
    Explanation {
        /// The smallest number among the inconsistent choices within it: group g adds 2^(g−1). 0 is the empty set: the core alone is inconsistent.
        groups: u32,
    },
}

/// What [`round`](crate::round) and [`list`](crate::list) answer.
#[derive(Debug, Clone, Copy, PartialEq, Eq, Hash)]
#[must_use = "a list that was stopped must not be shown as whole"]
pub enum Listed {
    /// No seed remains: of a listing begun empty, every explanation and every repair is written.
    Complete {
        /// How many records there are now.
        records: usize,
    },
    /// There are more; a larger space, or another round, takes them.
    Stopped {
        /// How many records there are now.
        records: usize,
    },
}

/// Stops where the archive gave what its contract rules out. Then the linked archive is not the proved one (another version, a damaged file), and no
/// value made of its answer could be trusted.
#[cold]
pub(crate) fn broken_archive(what: fmt::Arguments<'_>) -> ! {
    panic!("libbadolkhup.a breaks its contract, so it is not the archive of this version: {what}")
}

impl Returned {
    /// The `N` values of an answer, or the refusal.
    fn values<const N: usize>(&self) -> Result<[usize; N], Refusal> {
        let told = if self.status == 0 { N } else { 1 };
        let rest_is_zero = self.answer[1 + told..].iter().all(|&word| word == 0);
        let known = matches!(self.status, 0..=14 | 20..=22);
        if self.answer[0] != told as u64 || !rest_is_zero || !known || self.answer.contains(&UNWRITTEN) {
            self.broken();
        }
        // Lossless: the archive is for x86-64 alone, where usize has 64 bits.
        let value = |index: usize| self.answer[1 + index] as usize;
        match self.status {
            0 => Ok(std::array::from_fn(value)),
            number => Err(Refusal { number, place: value(0) }),
        }
    }

    /// Of an answer that has one value or none: the value if it is there.
    fn value_if_any(&self) -> Result<Option<usize>, Refusal> {
        match (self.status, self.answer[0]) {
            (0, 0) => self.values::<0>().map(|_| None),
            _ => self.values::<1>().map(|[value]| Some(value)),
        }
    }

    fn broken(&self) -> ! {
        broken_archive(format_args!("{} returned {} with {:?}", self.call, self.status, self.answer))
    }

    pub fn counts(&self) -> Result<Counts, Refusal> {
        let [variables, groups, clauses] = self.values()?;
        if variables == 0 || variables > VARIABLES || groups > GROUPS || clauses > CLAUSES {
            self.broken();
        }
        // Lossless: each is at most 2,048.
        Ok(Counts { variables: variables as u16, groups: groups as u16, clauses: clauses as u16 })
    }

    /// The count of what was written into so much room.
    pub fn written(&self, room: usize) -> Result<usize, Refusal> {
        match self.values()? {
            [count] if count <= room => Ok(count),
            _ => self.broken(),
        }
    }

    pub fn asked(&self) -> Result<Asked, Refusal> {
        match self.value_if_any()? {
            None => Ok(Asked::Consistent),
            // Lossless: at most 2,048.
            Some(clause @ 1..=CLAUSES) => Ok(Asked::Contradiction { clause: clause as u16 }),
            Some(_) => self.broken(),
        }
    }

    pub fn explained(&self, choice: u32) -> Result<Explained, Refusal> {
        match self.value_if_any()? {
            None => Ok(Explained::Consistent),
            // An explanation lies within the choice, so it has 32 bits as well.
            Some(groups) if groups & !(choice as usize) == 0 => Ok(Explained::Explanation { groups: groups as u32 }),
            Some(_) => self.broken(),
        }
    }

    /// The answer where `count` records were there and at most so many may be there now.
    pub fn listed(&self, count: usize, most: usize) -> Result<Listed, Refusal> {
        let [records, complete] = self.values()?;
        match complete {
            1 if count <= records && records <= most => Ok(Listed::Complete { records }),
            // Where a seed remains, every record was written that the call may write.
            0 if count <= records && records == most => Ok(Listed::Stopped { records }),
            _ => self.broken(),
        }
    }
}

#[cfg(test)]
mod tests {
    use super::*;

    const CHOICE: u32 = 0b101;

    fn returned(status: u32, answer: [u64; 4]) -> Returned {
        Returned { call: "badolkhup_test", status, answer }
    }

    fn assert_broken<T>(decode: impl Fn(&Returned) -> Result<T, Refusal>, status: u32, answer: [u64; 4]) {
        let returned = returned(status, answer);
        let stopped = std::panic::catch_unwind(std::panic::AssertUnwindSafe(|| decode(&returned).is_ok()));
        let text = *stopped.expect_err("an impossible answer passed").downcast::<String>().unwrap();
        assert!(text.contains("badolkhup_test returned"), "{text}");
    }

    #[test]
    fn impossible_answers_stop() {
        for answer in
            [[2, 1, 0, 0], [3, 0, 0, 0], [3, 1_025, 0, 0], [3, 1, 33, 0], [3, 1, 0, 2_049], [3, 1 << 32, 0, 0]]
        {
            assert_broken(Returned::counts, 0, answer);
        }
        for answer in [[1, 11, 0, 0], [0, 0, 0, 0], [1, 3, 1, 0], [2, 3, 0, 0]] {
            assert_broken(|returned| returned.written(10), 0, answer);
        }
        for answer in [[1, 0, 0, 0], [1, 2_049, 0, 0], [0, 1, 0, 0], [2, 1, 1, 0]] {
            assert_broken(Returned::asked, 0, answer);
        }
        for answer in [[1, 2, 0, 0], [1, 1 << 32, 0, 0]] {
            assert_broken(|returned| returned.explained(CHOICE), 0, answer);
        }
        for status in [15, 19, 23] {
            assert_broken(Returned::counts, status, [1, 0, 0, 0]);
        }
        assert_broken(Returned::counts, 2, [1, 0, 1, 0]);
        assert_broken(Returned::counts, 2, [0, 0, 0, 0]);
        assert_broken(Returned::counts, 2, [1, UNWRITTEN, 0, 0]);
    }

    #[test]
    fn impossible_listings_stop() {
        // Of 3 records in room for 9: fewer, too many, stopped with room left, neither complete nor stopped.
        for answer in [[2, 2, 1, 0], [2, 10, 1, 0], [2, 8, 0, 0], [2, 9, 2, 0], [1, 9, 0, 0]] {
            assert_broken(|returned| returned.listed(3, 9), 0, answer);
        }
    }

    #[test]
    fn possible_answers_pass() {
        assert_eq!(returned(0, [2, 3, 1, 0]).listed(3, 9), Ok(Listed::Complete { records: 3 }));
        assert_eq!(returned(0, [2, 9, 1, 0]).listed(3, 9), Ok(Listed::Complete { records: 9 }));
        assert_eq!(returned(0, [2, 9, 0, 0]).listed(3, 9), Ok(Listed::Stopped { records: 9 }));
        assert_eq!(returned(0, [1, 5, 0, 0]).explained(CHOICE), Ok(Explained::Explanation { groups: 5 }));
        assert_eq!(returned(14, [1, 7, 0, 0]).asked(), Err(Refusal { number: 14, place: 7 }));
        assert_eq!(returned(0, [1, 10, 0, 0]).written(10), Ok(10));
        for number in (1..=14).chain(20..=22) {
            assert_eq!(returned(number, [1, 7, 0, 0]).written(10), Err(Refusal { number, place: 7 }));
        }
    }
}
