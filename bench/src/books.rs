//! The books that are measured. Each family is made from its sizes and a fixed number, so that every run and every machine has the same books.

use twin::book::{Book, Clause};

/// A book with the name of its files and of its row.
pub struct Named {
    pub name: String,
    pub book: Book,
}

pub struct Family {
    pub name: &'static str,
    pub about: &'static str,
    /// Whether each book is twice the one before, so that growth says something.
    pub doubling: bool,
    pub books: Vec<Named>,
}

impl Named {
    /// With as many variables as the clauses name.
    fn new(name: String, groups: usize, clauses: Vec<Clause>) -> Named {
        let named = clauses.iter().flat_map(|clause| clause.body.iter().copied().chain([clause.head]));
        let variables = named.max().unwrap_or(0).max(1);
        Named { name, book: Book::new(variables, groups, clauses) }
    }

    /// Group CNF text, for peers that read it.
    pub fn text(&self) -> String {
        let book = &self.book;
        let mut text = format!("p gcnf {} {} {}\n", book.variables, book.clauses.len(), book.groups);
        for clause in &book.clauses {
            let head = if clause.head > 0 { format!("{} ", clause.head) } else { String::new() };
            let body: String = clause.body.iter().map(|variable| format!("-{variable} ")).collect();
            text += &format!("{{{}}} {body}{head}0\n", clause.group);
        }
        text
    }
}

/// A book read back from its bytes, for books that stand in files.
pub fn read(name: &str, bytes: &[u8]) -> Named {
    let book = Book::read(bytes).unwrap_or_else(|refusal| panic!("{name}: {refusal:?}"));
    Named { name: name.to_string(), book }
}

pub fn families() -> Vec<Family> {
    let doubling = |from: usize, to: usize| (0..16).map(move |k| from << k).take_while(move |&size| size <= to);
    let family = |name, about, books| Family { name, about, doubling: true, books };
    vec![
        family(
            "pin",
            "axiom pinpointing (documents 000 and 004): derivation rules in the core, one unit clause a group; rules double",
            doubling(32, 512).map(pin).collect(),
        ),
        family(
            "tax",
            "taxonomies: is-a statements and disjointness, each said of every probe term, several clauses a group; probe terms double",
            doubling(1, 16).map(tax).collect(),
        ),
        family(
            "pairs",
            "k pairs of groups that exclude each other, 2^k repairs, which double; the last stops",
            (4..=12).map(pairs).collect(),
        ),
        family(
            "rising",
            "a chain of clauses cut into 32 groups, to a goal of the core; clauses double up to 1,024",
            doubling(128, 1024).map(|size| chain("rising", size)).collect(),
        ),
        family(
            "falling",
            "the same with the clauses in falling order",
            doubling(128, 1024).map(|size| chain("falling", size)).collect(),
        ),
        family(
            "layers",
            "layers of variables, each from two of the layer before by clauses of 32 groups; clauses double up to 2,048, variables to 1,024",
            doubling(256, 2048).map(layers).collect(),
        ),
    ]
}

struct Random(u64);

impl Random {
    fn below(&mut self, bound: usize) -> usize {
        self.0 = self.0.wrapping_mul(6364136223846793005).wrapping_add(1442695040888963407);
        ((self.0 >> 33) % bound as u64) as usize
    }
}

fn body(mut variables: Vec<usize>) -> Vec<usize> {
    variables.sort();
    variables.dedup();
    variables
}

/// 24 axioms, a group each. A derived variable follows, by two rules, from two earlier ones; the goal is that the last one must not hold.
fn pin(rules: usize) -> Named {
    let axioms = 24;
    let mut random = Random(rules as u64);
    let mut clauses: Vec<Clause> = (1..=axioms).map(|axiom| Clause::new(axiom, axiom, vec![])).collect();
    let derived = rules / 2;
    for rule in 0..rules {
        let head = axioms + 1 + rule / 2;
        // An earlier variable out of the last 24, so that the last one rests on many.
        let earlier = |random: &mut Random| head - 1 - random.below(axioms);
        let from = body(vec![earlier(&mut random), earlier(&mut random)]);
        clauses.push(Clause::new(0, head, from));
    }
    clauses.push(Clause::new(0, 0, vec![axioms + derived]));
    Named::new(format!("pin-{rules}"), axioms, clauses)
}

/// 24 terms, each below one or two earlier ones; 24 groups of statements. The probe terms are the last ones, and the core says that there is something below each.
fn tax(probes: usize) -> Named {
    let (terms, groups) = (24, 24);
    let mut random = Random(7);
    let mut statements = Vec::new();
    for term in 2..=terms {
        for _ in 0..2 {
            statements.push((1 + random.below(groups), term, 1 + random.below(term - 1), true));
        }
    }
    for _ in 0..12 {
        let one = 2 + random.below(8);
        let other = one + 1 + random.below(8);
        statements.push((random.below(groups + 1), one, other, false));
    }
    let mut clauses = Vec::new();
    for probe in 0..probes {
        let variable = |term: usize| probe * terms + term;
        clauses.push(Clause::new(0, variable(terms - probe % 12), vec![]));
        for &(group, one, other, is_a) in &statements {
            let (head, from) = if is_a {
                (variable(other), vec![variable(one)])
            } else {
                (0, body(vec![variable(one), variable(other)]))
            };
            clauses.push(Clause::new(group, head, from));
        }
    }
    Named::new(format!("tax-{probes}"), groups, clauses)
}

fn pairs(pairs: usize) -> Named {
    let mut clauses: Vec<Clause> = (1..=2 * pairs).map(|group| Clause::new(group, group, vec![])).collect();
    clauses.extend((1..=pairs).map(|pair| Clause::new(0, 0, vec![2 * pair - 1, 2 * pair])));
    Named::new(format!("pairs-{pairs}"), 2 * pairs, clauses)
}

/// `size` variables, each from the one before; 32 groups, one part of the chain each.
pub fn chain(order: &str, size: usize) -> Named {
    let group = |link: usize| 1 + (link - 1) * 32 / size;
    let mut clauses: Vec<Clause> = (1..=size)
        .map(|link| Clause::new(group(link), link, if link == 1 { vec![] } else { vec![link - 1] }))
        .collect();
    clauses.push(Clause::new(0, 0, vec![size]));
    if order == "falling" {
        clauses.reverse();
    }
    Named::new(format!("{order}-{size}"), 32, clauses)
}

/// Layers of 32 variables. Each variable follows from two of the layer before by either of two clauses of random groups; the last layer's first 4 must not hold.
fn layers(size: usize) -> Named {
    let width = 32;
    let variables = size / 2;
    let mut random = Random(3);
    let mut clauses = Vec::new();
    for variable in 1..=variables {
        for _ in 0..2 {
            let before = (variable - 1) / width * width;
            let from = |random: &mut Random| before - random.below(width);
            let body = if before == 0 { vec![] } else { body(vec![from(&mut random), from(&mut random)]) };
            clauses.push(Clause::new(1 + random.below(32), variable, body));
        }
    }
    // The goals take the place of the last clauses, so that the book has `size` of them.
    clauses.truncate(size - 4);
    clauses.extend((0..4).map(|goal| Clause::new(0, 0, vec![variables - width + 1 + goal])));
    Named::new(format!("layers-{size}"), 32, clauses)
}
