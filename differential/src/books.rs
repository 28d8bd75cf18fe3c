//! Rule books of many shapes.
use twin::book::{Book, Clause, LONGEST_BODY, LONGEST_BOOK, MOST_CLAUSES, MOST_GROUPS, MOST_VARIABLES};
use twin::random::Random;

/// A book that keeps the limits. Not more groups have clauses than the twin can try all choices of.
pub fn any(random: &mut Random) -> Book {
    match random.below(400) {
        0 => full(random),
        1 => longest(random),
        2 => chain(random, MOST_VARIABLES),
        3..12 => chain(random, 60),
        12..24 => wide(random),
        _ => few(random),
    }
}

/// A book with few clauses.
pub fn few(random: &mut Random) -> Book {
    match random.below(20) {
        0 => bare(random),
        1 | 2 => spread(random),
        3 => {
            let pairs = random.between(1, 6);
            paired(random, pairs)
        }
        _ => {
            let groups = some_groups(random);
            of_groups(random, groups)
        }
    }
}

/// A book with few clauses and so many groups.
pub fn of_groups(random: &mut Random, groups: usize) -> Book {
    match random.below(16) {
        0..7 => facts_and_goals(random, groups.max(1)),
        7..11 => layered(random, groups.max(1)),
        _ => loose(random, groups),
    }
}

/// Mostly few groups, at times as many as the twin can try all choices of.
fn some_groups(random: &mut Random) -> usize {
    match random.below(16) {
        0 => random.between(10, 12),
        1..12 => random.between(4, 9),
        _ => random.between(0, 4),
    }
}

/// Strictly rising variables, at most so many.
fn body(random: &mut Random, variables: usize, most: usize) -> Vec<usize> {
    let mut body: Vec<usize> = (0..random.between(0, most)).map(|_| random.between(1, variables)).collect();
    body.sort_unstable();
    body.dedup();
    body
}

/// One time in `core` the core, else any group.
fn group(random: &mut Random, groups: usize, core: usize) -> usize {
    if groups == 0 || random.once_in(core) {
        0
    } else {
        random.between(1, groups)
    }
}

fn shuffle<T>(random: &mut Random, values: &mut [T]) {
    for last in (1..values.len()).rev() {
        values.swap(last, random.below(last + 1));
    }
}

/// Clauses with no plan: heads in their own bodies, equal clauses, always false clauses, groups with no clause.
fn loose(random: &mut Random, groups: usize) -> Book {
    let variables = if random.once_in(10) { random.between(1, 40) } else { random.between(1, 5) };
    let mut clauses: Vec<Clause> = Vec::new();
    for _ in 0..random.between(groups, 3 * groups + 6) {
        if random.once_in(12) && !clauses.is_empty() {
            clauses.push(clauses[random.below(clauses.len())].clone());
            continue;
        }
        let head = if random.once_in(3) { 0 } else { random.between(1, variables) };
        let most = random.pick(&[1, 2, 3]);
        let mut body = body(random, variables, most);
        if head == 0 && body.is_empty() && !random.once_in(12) {
            body = vec![random.between(1, variables)];
        }
        clauses.push(Clause::new(group(random, groups, 12), head, body));
    }
    Book::new(variables, groups, clauses)
}

/// Each group forces a variable of its own, and the core, at times a group, forbids some of them together.
fn facts_and_goals(random: &mut Random, groups: usize) -> Book {
    let mut clauses: Vec<Clause> = (1..=groups).map(|group| Clause::new(group, group, vec![])).collect();
    for _ in 0..random.between(1, groups + 4) {
        let body = body(random, groups, 5);
        if body.len() > 1 || random.once_in(8) && !body.is_empty() {
            clauses.push(Clause::new(if random.once_in(6) { group(random, groups, 3) } else { 0 }, 0, body));
        }
    }
    shuffle(random, &mut clauses);
    Book::new(groups, groups, clauses)
}

/// Facts below, rules upwards, goals at the top: explanations of several groups.
fn layered(random: &mut Random, groups: usize) -> Book {
    let variables = random.between(3, 7);
    let mut clauses = vec![Clause::new(0, 0, vec![variables])];
    for _ in 0..random.between(groups, 2 * groups + 6) {
        let head = random.between(1, variables);
        let mut body = if head <= 2 { vec![] } else { body(random, head - 1, 2) };
        if head > 2 && body.is_empty() {
            body = vec![head - 1];
        }
        clauses.push(Clause::new(group(random, groups, 20), head, body));
    }
    shuffle(random, &mut clauses);
    Book::new(variables, groups, clauses)
}

/// A book of few groups whose groups lie anywhere among up to 32.
fn spread(random: &mut Random) -> Book {
    let few = some_groups(random);
    let mut book = of_groups(random, few);
    let groups = random.between(book.groups, MOST_GROUPS);
    let mut numbers: Vec<usize> = (1..=groups).collect();
    shuffle(random, &mut numbers);
    for clause in book.clauses.iter_mut().filter(|clause| clause.group > 0) {
        clause.group = numbers[clause.group - 1];
    }
    Book { groups, ..book }
}

/// So many disjoint pairs of groups in any order, each pair an explanation, with a repair for each way to take one of each.
pub fn paired(random: &mut Random, pairs: usize) -> Book {
    let mut groups: Vec<usize> = (1..=2 * pairs).collect();
    shuffle(random, &mut groups);
    let force = |pair: usize| Clause::new(groups[2 * pair], pair + 1, vec![]);
    let forbid = |pair: usize| Clause::new(groups[2 * pair + 1], 0, vec![pair + 1]);
    let clauses = (0..pairs).flat_map(|pair| [force(pair), forbid(pair)]).collect();
    Book::new(pairs, 2 * pairs, clauses)
}

/// A book filled up to the limits with clauses of variables that nothing forces, which change no answer: tables of variables and clauses then take the most of the working space.
pub fn filled(book: &Book) -> Book {
    let idle = |clause: usize| Clause::new(0, MOST_VARIABLES - clause % 2, vec![MOST_VARIABLES - 2]);
    let clauses = book.clauses.iter().cloned().chain((0..MOST_CLAUSES - book.clauses.len()).map(idle)).collect();
    Book::new(MOST_VARIABLES, book.groups, clauses)
}

/// No clauses, no goals, or a core that is inconsistent by itself.
fn bare(random: &mut Random) -> Book {
    let (variables, groups) = (random.pick(&[1, 2, 1_023, 1_024]), random.pick(&[0, 1, 5, 31, 32]));
    let always_false = Clause::new(0, 0, vec![]);
    let fact = Clause::new(group(random, groups, 3), variables, vec![]);
    let goal = Clause::new(0, 0, vec![variables]);
    let clauses = match random.below(6) {
        0 => vec![],
        1 => vec![always_false],
        2 => vec![fact],
        3 => vec![goal],
        4 => vec![fact, Clause { group: groups, ..goal }],
        _ => vec![Clause { group: 0, ..fact }, goal],
    };
    Book::new(variables, groups, clauses)
}

/// Each variable forces the next, in rising, falling or any order of clauses.
fn chain(random: &mut Random, most: usize) -> Book {
    let variables = random.between(most / 2, most);
    let groups = random.between(0, 4);
    let link = |random: &mut Random, head: usize| {
        let body = if head == 1 { vec![] } else { vec![head - 1] };
        Clause::new(if random.once_in(variables / 4) { group(random, groups, 3) } else { 0 }, head, body)
    };
    let mut clauses: Vec<Clause> = (1..=variables).map(|head| link(random, head)).collect();
    for _ in 0..3 {
        clauses.push(Clause::new(group(random, groups, 2), 0, vec![random.between(variables / 2, variables)]));
    }
    match random.below(3) {
        0 => clauses.reverse(),
        1 => shuffle(random, &mut clauses),
        _ => {}
    }
    Book::new(variables, groups, clauses)
}

/// Many variables and bodies of up to 32, of which enough variables are forced.
fn wide(random: &mut Random) -> Book {
    let variables = random.between(LONGEST_BODY + 1, MOST_VARIABLES);
    let groups = random.between(1, 6);
    let first = random.between(1, variables - LONGEST_BODY);
    let window = || first..first + LONGEST_BODY;
    let fact = |random: &mut Random, head: usize| {
        Clause::new(if random.once_in(8) { group(random, groups, 3) } else { 0 }, head, vec![])
    };
    let mut clauses: Vec<Clause> = window().map(|head| fact(random, head)).collect();
    for _ in 0..random.between(1, 8) {
        let odds = random.pick(&[1, 1, 2, 20]);
        let body = window().filter(|_| random.below(odds) == 0).collect();
        let head = if random.once_in(2) { 0 } else { random.between(1, variables) };
        clauses.push(Clause::new(group(random, groups, 4), head, body));
    }
    shuffle(random, &mut clauses);
    Book::new(variables, groups, clauses)
}

/// As many clauses as a book can have, or one fewer.
fn full(random: &mut Random) -> Book {
    let count = MOST_CLAUSES - random.below(2);
    clauses_of(random, count)
}

/// So many clauses of any kind, rather more of them with a head than goals.
pub fn clauses_of(random: &mut Random, count: usize) -> Book {
    let (variables, groups) = (random.between(1, MOST_VARIABLES), random.between(0, 4));
    let clauses = (0..count).map(|_| {
        let body = body(random, variables, 4);
        let head = if body.len() > 2 && random.once_in(40) { 0 } else { random.between(1, variables) };
        Clause::new(group(random, groups, 4), head, body)
    });
    Book::new(variables, groups, clauses.collect())
}

/// A book of exactly 65,535 bytes.
fn longest(random: &mut Random) -> Book {
    let clauses = 2 * random.between(461, 1_023) + 1;
    of_length(random, clauses, LONGEST_BOOK)
}

/// A book of so many clauses and bytes: 10 + 7 for each clause + 2 for each body variable.
pub fn of_length(random: &mut Random, clauses: usize, length: usize) -> Book {
    let variables = random.between(2 * LONGEST_BODY, MOST_VARIABLES);
    let groups = random.between(0, 3);
    let mut left = (length - 10 - 7 * clauses) / 2;
    let mut made = Vec::new();
    for after in (0..clauses).rev() {
        let size = left.div_ceil(after + 1);
        left -= size;
        let first = random.between(1, variables - LONGEST_BODY);
        let head = if random.once_in(30) { 0 } else { random.between(1, variables) };
        made.push(Clause::new(group(random, groups, 3), head, (first..first + size).collect()));
    }
    Book::new(variables, groups, made)
}

/// A book with few clauses that breaks a rule: a number beyond its limit, or a clause that is none.
pub fn against_the_rules(random: &mut Random) -> Book {
    let groups = some_groups(random);
    let mut book = loose(random, groups);
    match random.below(6) {
        0 => book.variables = random.pick(&[0, 1_025, 65_535]),
        1 => book.groups = random.pick(&[33, 256, 65_535]),
        _ => {
            book.variables = random.between(40, 60);
            let at = random.below(book.clauses.len() + 1);
            let clause = no_clause(random, &book);
            book.clauses.insert(at, clause);
        }
    }
    book
}

/// A clause that is refused, often for more than one reason.
fn no_clause(random: &mut Random, book: &Book) -> Clause {
    let mut clause =
        Clause::new(random.below(book.groups + 1), random.below(2), body(random, book.variables.min(60), 8));
    for _ in 0..random.between(1, 2) {
        let length = clause.body.len();
        match random.below(6) {
            0 => clause.group = book.groups + 1,
            1 => clause.head = book.variables + 1,
            2 => clause.body.push(book.variables + 1),
            3 => clause.body.insert(random.below(length + 1), 0),
            4 => clause.body = (1..=random.pick(&[33, 33, 34, 40])).collect(),
            _ if length > 0 => clause.body.insert(random.below(length + 1), clause.body[random.below(length)]),
            _ => clause.body = vec![1, 1],
        }
    }
    clause
}

/// A book with too many clauses or bytes.
pub fn too_long(random: &mut Random) -> Book {
    match random.below(6) {
        0..3 => {
            let beyond = random.pick(&[1, 1, 2, 50]);
            let mut book = clauses_of(random, MOST_CLAUSES + beyond);
            if random.once_in(2) {
                book.clauses[MOST_CLAUSES] = no_clause(random, &book);
            }
            book
        }
        3 => {
            let clauses = 2 * random.between(462, 1_023);
            of_length(random, clauses, LONGEST_BOOK + 1)
        }
        _ => of_length(random, MOST_CLAUSES, 10 + 39 * MOST_CLAUSES),
    }
}

/// Book X of document 01.
#[cfg(test)]
pub fn x() -> Book {
    Book::from_plain(&[3, 5, 0, -3, 0, 1, 1, 0, 2, -1, 3, 0, 3, 2, 0, 4, -2, 3, 0, 5, -1, 2, 0]).expect("X is a book")
}
