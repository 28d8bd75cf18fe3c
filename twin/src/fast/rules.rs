//! A book made ready for testing many choices.
//!
//! A group becomes one more element of the bodies of its clauses: that it arrives forces it. What the core forces is taken out; so are clauses that never
//! fire, or from which no goal can be reached, and variables that mean the same as another element.

/// The groups of a set, counted from 0, from the lowest.
pub fn each(mut set: u32) -> impl Iterator<Item = u32> {
    std::iter::from_fn(move || {
        let lowest = (set != 0).then(|| set.trailing_zeros())?;
        set &= set - 1;
        Some(lowest)
    })
}

pub fn all_groups(groups: u32) -> u32 {
    u32::MAX.checked_shr(u32::BITS - groups).unwrap_or(0)
}

/// Groups are the elements from 0, variables follow.
type Element = u16;

#[derive(Clone, PartialEq, Eq, PartialOrd, Ord)]
struct Clause {
    head: Option<Element>,
    body: Vec<Element>,
}

pub struct Rules {
    pub groups: u32,
    /// Groups that some clause needs.
    pub used: u32,
    /// What the core alone forces.
    pub start: State,
    heads: Vec<Element>,
    /// Clauses by the elements of their bodies: those of e stand from `first[e]` to `first[e + 1]`.
    first: Vec<u32>,
    clauses: Vec<u16>,
}

/// Elements still missing in each body, then whether each element is forced.
#[derive(Clone)]
pub struct State {
    cells: Vec<u8>,
    /// Forced elements whose clauses have not been looked at; empty between calls that break nothing.
    waiting: Vec<Element>,
    pub broken: bool,
}

impl State {
    pub fn copy(&mut self, from: &State) {
        self.cells.copy_from_slice(&from.cells);
        self.broken = from.broken;
    }
}

/// The head of a goal clause.
const NONE: Element = Element::MAX;

impl Rules {
    pub fn of(book: &[u8]) -> Rules {
        let (groups, elements, clauses) = parse(book);
        match reduced(groups, elements, clauses) {
            Some(clauses) => Rules::new(groups, elements, &clauses, false),
            None => Rules::new(groups, elements, &[], true),
        }
    }

    fn new(groups: u32, elements: usize, clauses: &[Clause], broken: bool) -> Rules {
        let mut name = vec![NONE; elements];
        let mut named = groups as Element;
        name.iter_mut().zip(0..named).for_each(|(name, group)| *name = group);
        for &element in clauses.iter().flat_map(|clause| &clause.body) {
            if name[element as usize] == NONE {
                name[element as usize] = named;
                named += 1;
            }
        }
        let mut containing = vec![Vec::new(); named as usize];
        for (number, clause) in clauses.iter().enumerate() {
            clause.body.iter().for_each(|&element| containing[name[element as usize] as usize].push(number as u16));
        }
        let mut first = vec![0];
        containing.iter().for_each(|list| first.push(first[first.len() - 1] + list.len() as u32));
        let used = (0..groups)
            .filter(|&group| !containing[group as usize].is_empty())
            .fold(0, |used, group| used | 1 << group);
        let mut cells: Vec<u8> = clauses.iter().map(|clause| clause.body.len() as u8).collect();
        cells.resize(clauses.len() + named as usize, 0);
        let heads = clauses.iter().map(|clause| clause.head.map_or(NONE, |head| name[head as usize])).collect();
        Rules {
            groups,
            used,
            start: State { cells, waiting: Vec::new(), broken },
            heads,
            first,
            clauses: containing.concat(),
        }
    }

    /// Forces what follows when a group arrives; ends at once where a goal breaks.
    pub fn add(&self, state: &mut State, group: u32) {
        let (missing, forced) = state.cells.split_at_mut(self.heads.len());
        if forced[group as usize] == 1 {
            return;
        }
        forced[group as usize] = 1;
        state.waiting.clear();
        state.waiting.push(group as Element);
        while let Some(element) = state.waiting.pop() {
            let part = self.first[element as usize] as usize..self.first[element as usize + 1] as usize;
            for &clause in &self.clauses[part] {
                missing[clause as usize] -= 1;
                if missing[clause as usize] > 0 {
                    continue;
                }
                let head = self.heads[clause as usize];
                if head == NONE {
                    state.broken = true;
                    return;
                }
                if forced[head as usize] == 0 {
                    forced[head as usize] = 1;
                    state.waiting.push(head);
                }
            }
        }
    }
}

/// Groups, how many elements there are, and the clauses; each body holds its clause's group, and the core stands in none.
fn parse(book: &[u8]) -> (u32, usize, Vec<Clause>) {
    let number = |at: usize| u16::from_be_bytes([book[at], book[at + 1]]);
    let (variables, groups) = (number(3), number(5));
    let element = |variable: u16| groups + variable - 1;
    let mut clauses = Vec::new();
    let mut at = 7;
    while book[at] == 2 {
        let end = at + 3 + number(at + 1) as usize;
        let (group, head) = (number(at + 3), number(at + 5));
        let body = (group > 0)
            .then(|| group - 1)
            .into_iter()
            .chain((at + 7..end).step_by(2).map(|k| element(number(k))))
            .collect();
        clauses.push(Clause { head: (head > 0).then(|| element(head)), body });
        at = end;
    }
    (groups as u32, groups as usize + variables as usize, clauses)
}

/// The clauses that matter, or nothing where the core itself is inconsistent.
fn reduced(groups: u32, elements: usize, clauses: Vec<Clause>) -> Option<Vec<Clause>> {
    let (fired, core) = fired(elements, &clauses, 0);
    if fired.iter().any(|&clause| clauses[clause].head.is_none()) {
        return None;
    }
    let (order, _) = self::fired(elements, &clauses, groups);
    let holds = |head: Option<Element>| head.is_some_and(|head| core[head as usize]);
    let mut left: Vec<Clause> =
        order.into_iter().map(|clause| clauses[clause].clone()).filter(|clause| !holds(clause.head)).collect();
    left.iter_mut().for_each(|clause| clause.body.retain(|&element| !core[element as usize]));
    left.retain(|clause| !clause.head.is_some_and(|head| clause.body.contains(&head)));
    let mut left = reaching(elements, renamed(groups, elements, left));
    left.sort();
    left.dedup();
    Some(left)
}

/// The clauses that fire when the lowest `groups` groups arrive, in an order in which they do, and which elements are forced.
fn fired(elements: usize, clauses: &[Clause], groups: u32) -> (Vec<usize>, Vec<bool>) {
    let mut containing = vec![Vec::new(); elements];
    for (number, clause) in clauses.iter().enumerate() {
        clause.body.iter().for_each(|&element| containing[element as usize].push(number));
    }
    let mut missing: Vec<usize> = clauses.iter().map(|clause| clause.body.len()).collect();
    let mut order: Vec<usize> = (0..clauses.len()).filter(|&clause| missing[clause] == 0).collect();
    let mut forced = vec![false; elements];
    let mut waiting: Vec<Element> = (0..groups as Element).collect();
    waiting.iter().for_each(|&group| forced[group as usize] = true);
    let mut seen = 0;
    loop {
        for &clause in &order[seen..] {
            waiting.extend(clauses[clause].head.filter(|&head| !std::mem::replace(&mut forced[head as usize], true)));
        }
        seen = order.len();
        let Some(element) = waiting.pop() else { return (order, forced) };
        for &clause in &containing[element as usize] {
            missing[clause] -= 1;
            if missing[clause] == 0 {
                order.push(clause);
            }
        }
    }
}

/// For each element, groups that every choice forcing it holds. Starts with all groups and goes down; the order in which clauses fire makes that quick.
fn needs(groups: u32, elements: usize, clauses: &[Clause]) -> Vec<u32> {
    let mut needs = vec![all_groups(groups); elements];
    (0..groups).for_each(|group| needs[group as usize] = 1 << group);
    loop {
        let mut changed = false;
        for clause in clauses {
            if let Some(head) = clause.head {
                let body = clause.body.iter().fold(0, |set, &element| set | needs[element as usize]);
                changed |= needs[head as usize] & !body != 0;
                needs[head as usize] &= body;
            }
        }
        if !changed {
            return needs;
        }
    }
}

/// Clauses, given in an order in which they fire, without groups that the rest of the body needs anyway, and without variables that one clause with
/// one element forces: that element stands for them.
fn renamed(groups: u32, elements: usize, clauses: Vec<Clause>) -> Vec<Clause> {
    let needs = needs(groups, elements, &clauses);
    let is_group = |element: Element| u32::from(element) < groups;
    let mut forcing = vec![0; elements];
    clauses.iter().filter_map(|clause| clause.head).for_each(|head| forcing[head as usize] += 1);
    let mut name: Vec<Element> = (0..elements as Element).collect();
    let mut left = Vec::new();
    for mut clause in clauses {
        clause.body.iter_mut().for_each(|element| *element = name[*element as usize]);
        clause.body.sort();
        clause.body.dedup();
        let needed = clause
            .body
            .iter()
            .filter(|&&element| !is_group(element))
            .fold(0, |set, &element| set | needs[element as usize]);
        clause.body.retain(|&element| !is_group(element) || needed >> element & 1 == 0);
        match clause.head {
            Some(head) if forcing[head as usize] == 1 && clause.body.len() == 1 => name[head as usize] = clause.body[0],
            _ => left.push(clause),
        }
    }
    left
}

/// The clauses from which a goal can be reached.
fn reaching(elements: usize, clauses: Vec<Clause>) -> Vec<Clause> {
    let mut forcing = vec![Vec::new(); elements];
    for clause in &clauses {
        clause.head.into_iter().for_each(|head| forcing[head as usize].push(clause));
    }
    let mut wanted = vec![false; elements];
    let mut waiting: Vec<&Clause> = clauses.iter().filter(|clause| clause.head.is_none()).collect();
    while let Some(clause) = waiting.pop() {
        for &element in &clause.body {
            if !std::mem::replace(&mut wanted[element as usize], true) {
                waiting.extend(&forcing[element as usize]);
            }
        }
    }
    clauses.iter().filter(|clause| clause.head.is_none_or(|head| wanted[head as usize])).cloned().collect()
}
