//! Rule books and their bytes.
use crate::{refuse_if, Refusal};

pub const LONGEST_BOOK: usize = 65_535;
pub const MOST_VARIABLES: usize = 1_024;
pub const MOST_GROUPS: usize = 32;
pub const MOST_CLAUSES: usize = 2_048;
pub const LONGEST_BODY: usize = 32;

/// A head of 0 is none; group 0 is the core.
#[derive(Debug, Clone, PartialEq, Eq)]
pub struct Clause {
    pub group: usize,
    pub head: usize,
    pub body: Vec<usize>,
}

/// Clause number n stands at index n - 1. Nothing holds a `Book` to the limits except the reading of one.
#[derive(Debug, Clone, PartialEq, Eq)]
pub struct Book {
    pub variables: usize,
    pub groups: usize,
    pub clauses: Vec<Clause>,
}

impl Clause {
    pub fn new(group: usize, head: usize, body: Vec<usize>) -> Clause {
        Clause { group, head, body }
    }
}

/// One field: where it begins, its tag, and its value.
struct Field<'a> {
    at: usize,
    tag: u8,
    value: &'a [u8],
}

impl Field<'_> {
    /// The value as numbers of two bytes, high byte first.
    fn numbers(&self) -> Vec<usize> {
        self.value.chunks(2).map(|two| usize::from(two[0]) * 256 + usize::from(two[1])).collect()
    }
}

/// The field that is due at a byte: refusals 2 and 3.
fn field_at(bytes: &[u8], at: usize) -> Result<Field<'_>, Refusal> {
    refuse_if(bytes.len() - at < 3, 2, at)?;
    let length = usize::from(bytes[at + 1]) * 256 + usize::from(bytes[at + 2]);
    refuse_if(bytes.len() - at - 3 < length, 2, at)?;
    refuse_if(bytes[at] > 2, 3, at)?;
    Ok(Field { at, tag: bytes[at], value: &bytes[at + 3..at + 3 + length] })
}

/// Refusal 5: a length that the tag does not have.
fn length_fits(field: &Field) -> Result<(), Refusal> {
    let length = field.value.len();
    let fits = match field.tag {
        0 => length == 0,
        1 => length == 4,
        _ => length >= 4 && length % 2 == 0 && length <= 4 + 2 * LONGEST_BODY,
    };
    refuse_if(!fits, 5, field.at)
}

fn header_of(field: &Field) -> Result<Book, Refusal> {
    let numbers = field.numbers();
    let (variables, groups) = (numbers[0], numbers[1]);
    refuse_if(variables == 0 || variables > MOST_VARIABLES || groups > MOST_GROUPS, 7, field.at)?;
    Ok(Book::new(variables, groups, Vec::new()))
}

/// Refusals 6, 7 and 8, and the clause where there is none.
fn clause_of(field: &Field, book: &Book) -> Result<Clause, Refusal> {
    refuse_if(book.clauses.len() == MOST_CLAUSES, 6, field.at)?;
    let numbers = field.numbers();
    let (group, head, body) = (numbers[0], numbers[1], numbers[2..].to_vec());
    let outside = |variable: &usize| *variable == 0 || *variable > book.variables;
    refuse_if(group > book.groups || head > book.variables || body.iter().any(outside), 7, field.at)?;
    refuse_if(body.windows(2).any(|two| two[0] >= two[1]), 8, field.at)?;
    Ok(Clause::new(group, head, body))
}

impl Book {
    pub fn new(variables: usize, groups: usize, clauses: Vec<Clause>) -> Book {
        Book { variables, groups, clauses }
    }

    /// The book that the bytes are, or the first refusal in the reading order.
    pub fn read(bytes: &[u8]) -> Result<Book, Refusal> {
        refuse_if(bytes.len() > LONGEST_BOOK, 1, 0)?;
        let first = field_at(bytes, 0)?;
        refuse_if(first.tag != 1, 4, 0)?;
        length_fits(&first)?;
        let mut book = header_of(&first)?;
        let mut at = 3 + first.value.len();
        loop {
            let field = field_at(bytes, at)?;
            refuse_if(field.tag == 1, 4, at)?;
            length_fits(&field)?;
            at += 3 + field.value.len();
            if field.tag == 0 {
                refuse_if(at < bytes.len(), 9, at)?;
                return Ok(book);
            }
            let clause = clause_of(&field, &book)?;
            book.clauses.push(clause);
        }
    }

    /// The bytes of the book, whether or not it keeps the limits.
    pub fn bytes(&self) -> Vec<u8> {
        let mut bytes = Vec::new();
        put_field(&mut bytes, 1, &[self.variables, self.groups]);
        for clause in &self.clauses {
            let numbers: Vec<usize> = [clause.group, clause.head].iter().chain(&clause.body).copied().collect();
            put_field(&mut bytes, 2, &numbers);
        }
        put_field(&mut bytes, 0, &[]);
        bytes
    }

    /// Refusal 1 of a book that is to be written.
    pub(crate) fn not_too_long(&self) -> Result<(), Refusal> {
        let length = 10 + self.clauses.iter().map(|clause| 7 + 2 * clause.body.len()).sum::<usize>();
        refuse_if(length > LONGEST_BOOK, 1, 0)
    }

    /// The choice of every group.
    pub fn all_groups(&self) -> u32 {
        u32::try_from((1u64 << self.groups) - 1).expect("a book has at most 32 groups")
    }

    /// The groups that have a clause.
    pub fn used_groups(&self) -> u32 {
        self.clauses.iter().filter(|clause| clause.group > 0).fold(0, |used, clause| used | 1 << (clause.group - 1))
    }
}

fn put_field(bytes: &mut Vec<u8>, tag: u8, numbers: &[usize]) {
    bytes.push(tag);
    for number in std::iter::once(2 * numbers.len()).chain(numbers.iter().copied()) {
        bytes.extend(u16::try_from(number).expect("a number of a field has two bytes").to_be_bytes());
    }
}
