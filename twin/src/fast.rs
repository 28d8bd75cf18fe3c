//! A listing made to be fast, in ordinary Rust with as much memory as it likes: what the engine is measured against.
//!
//! It follows the round rule of document 01 and shares nothing with the other implementations. One search goes through all seeds from the highest to
//! the lowest and never starts again (`seeds`). A book is reduced before it is used (`rules`), a seed is tested from the state of the groups that it
//! has in common with the last one, and an explanation is found by insertion with counters (here).

mod rules;
mod seeds;

use rules::{Rules, State};
use seeds::{Kind, Seeds};

/// The records of an accepted book, kind (1 explanation, 2 repair) and set, at most `room` of them, and whether these are all.
pub fn list(book: &[u8], room: usize) -> (Vec<(u32, u32)>, bool) {
    let rules = Rules::of(book);
    let all = rules::all_groups(rules.groups);
    let mut seeds = Seeds::new(rules.groups);
    let mut tested = Tested::new(&rules);
    let mut records = Vec::new();
    while let Some(seed) = seeds.next() {
        if records.len() == room {
            return (records, false);
        }
        if tested.consistent(seed) {
            seeds.add(Kind::Repair, all & !seed);
            records.push((2, all & !seed));
        } else {
            let explanation = explanation(&rules, seed);
            seeds.add(Kind::Explanation, explanation);
            records.push((1, explanation));
        }
    }
    (records, true)
}

/// The smallest explanation within an inconsistent seed. Each pass lets the groups arrive from the lowest; the one that breaks consistency is kept, and
/// the next pass needs only groups below it.
fn explanation(rules: &Rules, seed: u32) -> u32 {
    let mut kept = 0;
    let mut base = rules.start.clone();
    let mut state = base.clone();
    let mut arriving = seed & rules.used;
    while !base.broken {
        state.copy(&base);
        let breaking = rules::each(arriving).find(|&group| {
            rules.add(&mut state, group);
            state.broken
        });
        let group = breaking.expect("an inconsistent seed is broken by one of its groups");
        rules.add(&mut base, group);
        kept |= 1 << group;
        arriving &= (1 << group) - 1;
    }
    kept
}

/// What the groups of the last seed force, from the highest group down, so that the next seed is tested from the first group in which it differs.
struct Tested<'a> {
    rules: &'a Rules,
    /// `states[after[g]]` is what the groups from g up force.
    states: Vec<State>,
    after: Vec<usize>,
    last: Option<u32>,
    /// The group that broke consistency in the last seed.
    broken_at: Option<u32>,
}

impl<'a> Tested<'a> {
    fn new(rules: &'a Rules) -> Self {
        let top = rules.groups as usize;
        Tested {
            rules,
            states: vec![rules.start.clone(); top + 1],
            after: vec![top; top + 1],
            last: None,
            broken_at: None,
        }
    }

    fn consistent(&mut self, seed: u32) -> bool {
        if self.rules.start.broken {
            return false;
        }
        let differing = self.last.map_or(self.rules.groups, |last| u32::BITS - (last ^ seed).leading_zeros());
        self.last = Some(seed);
        if self.broken_at.is_some_and(|group| group >= differing) {
            return false;
        }
        self.broken_at = None;
        for group in (0..differing).rev() {
            let above = self.after[group as usize + 1];
            self.after[group as usize] = above;
            if (seed & self.rules.used) >> group & 1 == 1 {
                self.after[group as usize] = group as usize;
                let (low, high) = self.states.split_at_mut(above);
                low[group as usize].copy(&high[0]);
                self.rules.add(&mut low[group as usize], group);
                if low[group as usize].broken {
                    self.broken_at = Some(group);
                    return false;
                }
            }
        }
        true
    }
}

#[cfg(test)]
mod tests;
