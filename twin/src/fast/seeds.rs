//! The seeds of a listing, one after the other.
//!
//! Each record takes choices away and none gives any back, so seeds fall, and one search serves the whole listing: it decides the highest undecided
//! group, with it first, and lets the records decide what follows. A record that the choice so far breaks names a conflict set, groups tried with of
//! which no allowed choice holds all; the lowest of them is then decided without, and what was decided before it stays.

use super::rules::{all_groups, each};

#[derive(Clone, Copy)]
pub enum Kind {
    Explanation = 0,
    Repair = 1,
}

/// A group is decided with (`WITH`) or without. An explanation is broken by groups that are with, a repair by groups that are without, so that a
/// record's kind is also the side on which its groups do harm.
const WITH: usize = 0;
const WITHOUT: usize = 1;

#[derive(Clone, Copy)]
struct Watched {
    set: u32,
    /// Two groups of the set: while neither does harm the record decides nothing.
    groups: [u8; 2],
}

pub struct Seeds {
    all: u32,
    /// Groups decided with and without.
    decided: [u32; 2],
    /// Groups decided by a trial.
    tried: u32,
    /// For each decided group, the tried groups that it follows from.
    because: [u32; 32],
    order: Vec<u8>,
    /// How many of `order` the records have been asked about.
    seen: usize,
    /// What holds whatever is tried.
    always: [u32; 2],
    records: Vec<Watched>,
    /// By side and group: the records that watch it.
    watching: [[Vec<u32>; 32]; 2],
    ended: bool,
}

impl Seeds {
    pub fn new(groups: u32) -> Self {
        Seeds {
            all: all_groups(groups),
            decided: [0; 2],
            tried: 0,
            because: [0; 32],
            order: Vec::with_capacity(32),
            seen: 0,
            always: [0; 2],
            records: Vec::new(),
            watching: Default::default(),
            ended: false,
        }
    }

    /// The highest choice that the records allow.
    pub fn next(&mut self) -> Option<u32> {
        while !self.ended {
            if let Some(conflict) = self.follow() {
                self.retreat(conflict);
                continue;
            }
            let undecided = self.all & !(self.decided[WITH] | self.decided[WITHOUT]);
            if undecided == 0 {
                return Some(self.decided[WITH]);
            }
            let group = 31 - undecided.leading_zeros();
            self.tried |= 1 << group;
            self.decide(group, WITH, 1 << group);
        }
        None
    }

    /// Takes a record that the last seed breaks, and goes on below that seed.
    pub fn add(&mut self, kind: Kind, set: u32) {
        let side = kind as usize;
        let conflict = self.reasons(set);
        if set.count_ones() == 1 {
            self.always[1 - side] |= set;
        } else if set != 0 {
            let mut latest = self.order.iter().rev().copied().filter(|&group| set >> group & 1 == 1);
            let groups = [latest.next(), latest.next()].map(|group| group.expect("the seed decided every group"));
            self.watch(side, set, groups);
        }
        self.retreat(conflict);
        let open = set & !self.decided[side];
        if !self.ended && set & self.decided[1 - side] == 0 && open.count_ones() == 1 {
            self.decide(open.trailing_zeros(), 1 - side, self.reasons(set & !open));
        }
    }

    fn watch(&mut self, side: usize, set: u32, groups: [u8; 2]) {
        for group in groups {
            self.watching[side][group as usize].push(self.records.len() as u32);
        }
        self.records.push(Watched { set, groups });
    }

    fn decide(&mut self, group: u32, side: usize, because: u32) {
        self.decided[side] |= 1 << group;
        self.because[group as usize] = because;
        self.order.push(group as u8);
    }

    fn reasons(&self, set: u32) -> u32 {
        each(set).fold(0, |reasons, group| reasons | self.because[group as usize])
    }

    /// Lets the records decide groups until none can; the conflict set where one is broken.
    fn follow(&mut self) -> Option<u32> {
        while self.seen < self.order.len() {
            let group = self.order[self.seen];
            self.seen += 1;
            let side = (self.decided[WITHOUT] >> group & 1) as usize;
            let mut watching = std::mem::take(&mut self.watching[side][group as usize]);
            let mut conflict = None;
            watching.retain(|&number| conflict.is_some() || self.keeps_watching(number, side, group, &mut conflict));
            self.watching[side][group as usize] = watching;
            if conflict.is_some() {
                return conflict;
            }
        }
        None
    }

    /// What a record does when `group`, which it watches, now does harm: it watches another, or decides the last one, or is broken. Of groups that meet
    /// the record it watches the highest, which was decided first and lasts longest.
    fn keeps_watching(&mut self, number: u32, side: usize, group: u8, conflict: &mut Option<u32>) -> bool {
        let Watched { set, groups: [one, two] } = self.records[number as usize];
        let other = if one == group { two } else { one };
        let harmless = set & !self.decided[side];
        let meeting = set & self.decided[1 - side];
        let open = harmless & !(1 << other);
        if open != 0 {
            let lasting = open & meeting;
            let next = if lasting != 0 { 31 - lasting.leading_zeros() } else { open.trailing_zeros() } as u8;
            self.records[number as usize].groups = [next, other];
            self.watching[side][next as usize].push(number);
            return false;
        }
        if meeting != 0 {
            return true;
        }
        if harmless == 0 {
            *conflict = Some(self.reasons(set));
        } else {
            self.decide(other as u32, 1 - side, self.reasons(set & !harmless));
        }
        true
    }

    /// Goes back to where the lowest group of a conflict set was tried, and decides it without.
    fn retreat(&mut self, conflict: u32) {
        if conflict == 0 {
            self.ended = true;
            return;
        }
        let lowest = conflict & conflict.wrapping_neg();
        while self.tried & lowest != 0 {
            let group = 1 << self.order.pop().expect("a tried group is in the order");
            self.decided = self.decided.map(|side| side & !group);
            self.tried &= !group;
        }
        self.seen = self.order.len();
        if conflict == lowest {
            self.always[WITHOUT] |= lowest;
        } else {
            self.decide(lowest.trailing_zeros(), WITHOUT, conflict & !lowest);
        }
        for side in [WITH, WITHOUT] {
            for group in each(self.always[side] & !self.decided[side]) {
                self.decide(group, side, 0);
            }
        }
    }
}
