//! What a choice of groups means.
use crate::book::{Book, Clause};

impl Clause {
    /// Whether the clause is in force: the core always is.
    pub fn in_force(&self, choice: u32) -> bool {
        self.group == 0 || choice >> (self.group - 1) & 1 == 1
    }

    fn body_in(&self, truth: &[bool]) -> bool {
        self.body.iter().all(|variable| truth[*variable])
    }
}

impl Book {
    /// The least set of variables closed under the clauses with a head that are in force. Index 0 stands for no variable.
    pub fn forced(&self, choice: u32) -> Vec<bool> {
        let mut forced = vec![false; self.variables + 1];
        loop {
            let mut changed = false;
            for clause in self.clauses.iter().filter(|clause| clause.head > 0 && clause.in_force(choice)) {
                if !forced[clause.head] && clause.body_in(&forced) {
                    forced[clause.head] = true;
                    changed = true;
                }
            }
            if !changed {
                return forced;
            }
        }
    }

    /// The lowest number of a goal clause in force whose whole body is forced.
    pub fn broken_goal(&self, choice: u32) -> Option<usize> {
        let forced = self.forced(choice);
        let broken = |clause: &Clause| clause.head == 0 && clause.in_force(choice) && clause.body_in(&forced);
        self.clauses.iter().position(broken).map(|index| index + 1)
    }

    pub fn consistent(&self, choice: u32) -> bool {
        self.broken_goal(choice).is_none()
    }

    /// Consistent by its meaning: some assignment satisfies all clauses in force. Tries every assignment.
    pub fn satisfiable(&self, choice: u32) -> bool {
        (0..1u64 << self.variables).any(|assignment| {
            let truth: Vec<bool> =
                (0..=self.variables).map(|variable| variable > 0 && assignment >> (variable - 1) & 1 == 1).collect();
            let satisfied = |clause: &Clause| !clause.body_in(&truth) || truth[clause.head];
            self.clauses.iter().filter(|clause| clause.in_force(choice)).all(satisfied)
        })
    }
}
