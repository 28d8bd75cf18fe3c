//! Plain forms of rule books.
use crate::book::{Book, Clause, LONGEST_BODY, MOST_CLAUSES, MOST_GROUPS, MOST_VARIABLES};
use crate::{refuse_if, Refusal};

impl Book {
    /// The plain form of the book.
    pub fn plain(&self) -> Vec<i32> {
        let signed = |number: usize| i32::try_from(number).expect("numbers of a book are small");
        let mut plain = vec![signed(self.variables), signed(self.groups)];
        for clause in &self.clauses {
            plain.push(signed(clause.group));
            plain.extend(clause.body.iter().map(|variable| -signed(*variable)));
            if clause.head > 0 {
                plain.push(signed(clause.head));
            }
            plain.push(0);
        }
        plain
    }

    /// The book that a plain form says, or the refusal of the first number at fault, then 12, then 1.
    pub fn from_plain(plain: &[i32]) -> Result<Book, Refusal> {
        let mut book = header_of(plain)?;
        let mut at = 2;
        while at < plain.len() {
            refuse_if(book.clauses.len() == MOST_CLAUSES, 6, at)?;
            let group = within(plain[at], 0, book.groups).ok_or(Refusal { number: 7, place: at })?;
            let (clause, next) = clause_from(plain, at + 1, group, book.variables)?;
            book.clauses.push(clause);
            at = next;
        }
        book.not_too_long()?;
        Ok(book)
    }
}

/// The number if it lies between the two ends.
fn within(number: i32, least: usize, most: usize) -> Option<usize> {
    usize::try_from(number).ok().filter(|value| (least..=most).contains(value))
}

fn header_of(plain: &[i32]) -> Result<Book, Refusal> {
    let end = Refusal { number: 12, place: plain.len() };
    let first = *plain.first().ok_or(end)?;
    let variables = within(first, 1, MOST_VARIABLES).ok_or(Refusal { number: 7, place: 0 })?;
    let second = *plain.get(1).ok_or(end)?;
    let groups = within(second, 0, MOST_GROUPS).ok_or(Refusal { number: 7, place: 1 })?;
    Ok(Book::new(variables, groups, Vec::new()))
}

/// The clause whose literals begin at an index, and the index behind its 0.
fn clause_from(plain: &[i32], begin: usize, group: usize, variables: usize) -> Result<(Clause, usize), Refusal> {
    let mut clause = Clause::new(group, 0, Vec::new());
    for (at, literal) in plain.iter().enumerate().skip(begin) {
        if *literal == 0 {
            return Ok((clause, at + 1));
        }
        // Its amount in 64 bits: the least number of 32 bits has no negative there.
        let variable = i64::from(*literal).unsigned_abs() as usize;
        refuse_if(variable > variables, 7, at)?;
        if *literal > 0 {
            refuse_if(clause.head > 0, 13, at)?;
            clause.head = variable;
        } else {
            let rising = clause.body.last().is_none_or(|last| *last < variable);
            refuse_if(clause.head > 0 || !rising, 8, at)?;
            refuse_if(clause.body.len() == LONGEST_BODY, 5, at)?;
            clause.body.push(variable);
        }
    }
    Err(Refusal { number: 12, place: plain.len() })
}
