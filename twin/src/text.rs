//! Group CNF text of rule books.
use crate::book::{Book, Clause, LONGEST_BODY, MOST_CLAUSES, MOST_GROUPS, MOST_VARIABLES};
use crate::{refuse_if, Refusal};

/// A line by its form, with numbers that nothing has been held to yet.
enum Line {
    /// Blank, or a comment.
    Nothing,
    Header {
        variables: usize,
        clauses: usize,
        groups: usize,
    },
    Clause {
        group: usize,
        heads: Vec<usize>,
        body: Vec<usize>,
    },
}

/// The `p` line that came: its number, and the clauses that it says.
struct Header {
    at: usize,
    clauses: usize,
}

/// The number that a word of decimal digits is. One that is too large for the type is the largest of the type, which is beyond every limit.
fn number(word: &[u8]) -> Option<usize> {
    let add = |value: usize, digit: &u8| {
        digit.is_ascii_digit().then(|| value.saturating_mul(10).saturating_add(usize::from(digit - b'0')))
    };
    if word.is_empty() {
        return None;
    }
    word.iter().try_fold(0, add)
}

fn header_line(numbers: &[&[u8]]) -> Option<Line> {
    let &[variables, clauses, groups] = numbers else { return None };
    Some(Line::Header { variables: number(variables)?, clauses: number(clauses)?, groups: number(groups)? })
}

fn clause_line(group: &[u8], literals: &[&[u8]], end: &[u8]) -> Option<Line> {
    let group = number(group.strip_prefix(b"{")?.strip_suffix(b"}")?)?;
    let (mut heads, mut body) = (Vec::new(), Vec::new());
    for word in literals {
        let (digits, kind) = match word.strip_prefix(b"-") {
            Some(digits) => (digits, &mut body),
            None => (*word, &mut heads),
        };
        kind.push(number(digits).filter(|variable| *variable > 0)?);
    }
    (number(end)? == 0).then_some(Line::Clause { group, heads, body })
}

/// The form of a line, or nothing if it has none.
fn line_of(line: &[u8]) -> Option<Line> {
    if line.first() == Some(&b'c') {
        return Some(Line::Nothing);
    }
    let separates = |byte: &u8| *byte == b' ' || *byte == b'\t';
    let words: Vec<&[u8]> = line.split(separates).filter(|word| !word.is_empty()).collect();
    match &words[..] {
        [] => Some(Line::Nothing),
        [b"p", b"gcnf", numbers @ ..] => header_line(numbers),
        [group, literals @ .., end] => clause_line(group, literals, end),
        [_] => None,
    }
}

impl Book {
    /// The group CNF text of the book.
    pub fn text(&self) -> Vec<u8> {
        let mut text = format!("p gcnf {} {} {}\n", self.variables, self.clauses.len(), self.groups);
        for clause in &self.clauses {
            text += &format!("{{{}}}", clause.group);
            clause.body.iter().for_each(|variable| text += &format!(" -{variable}"));
            if clause.head > 0 {
                text += &format!(" {}", clause.head);
            }
            text += " 0\n";
        }
        text.into_bytes()
    }

    /// The book that a text says, or the refusal of the first line at fault, then 22, 21 and 1.
    pub fn from_text(text: &[u8]) -> Result<Book, Refusal> {
        let mut book = Book::new(0, 0, Vec::new());
        let mut header: Option<Header> = None;
        // Behind the last line feed comes an empty line, which is blank.
        for (line, at) in text.split(|byte| *byte == b'\n').zip(1..) {
            match line_of(line) {
                Some(Line::Nothing) => {}
                Some(Line::Header { variables, clauses, groups }) if header.is_none() => {
                    let outside = variables == 0 || variables > MOST_VARIABLES || groups > MOST_GROUPS;
                    refuse_if(outside || clauses > MOST_CLAUSES, 7, at)?;
                    book = Book::new(variables, groups, Vec::new());
                    header = Some(Header { at, clauses });
                }
                Some(Line::Clause { group, heads, body }) if header.is_some() => {
                    let clause = clause_of(&book, group, &heads, body, at)?;
                    book.clauses.push(clause);
                }
                _ => return Err(Refusal { number: 22, place: at }),
            }
        }
        let header = header.ok_or(Refusal { number: 22, place: 0 })?;
        refuse_if(book.clauses.len() != header.clauses, 21, header.at)?;
        book.not_too_long()?;
        Ok(book)
    }
}

/// Refusals 7, 20, 6 and 5 of a line, and the clause where there is none.
fn clause_of(book: &Book, group: usize, heads: &[usize], mut body: Vec<usize>, at: usize) -> Result<Clause, Refusal> {
    let outside = |variable: &usize| *variable > book.variables;
    refuse_if(group > book.groups || heads.iter().any(outside) || body.iter().any(outside), 7, at)?;
    refuse_if(heads.iter().any(|head| *head != heads[0]), 20, at)?;
    refuse_if(book.clauses.len() == MOST_CLAUSES, 6, at)?;
    body.sort_unstable();
    body.dedup();
    refuse_if(body.len() > LONGEST_BODY, 5, at)?;
    Ok(Clause::new(group, heads.first().copied().unwrap_or(0), body))
}
