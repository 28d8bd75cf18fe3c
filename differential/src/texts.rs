//! Group CNF texts of books, in many layouts.
use twin::book::{Book, Clause};
use twin::random::Random;

/// A line by its words.
pub type Words = Vec<Vec<u8>>;

/// Leaves the plainest form once in so many places.
pub type Odds = usize;

/// A text that says the book.
pub fn any(random: &mut Random, book: &Book) -> Vec<u8> {
    if random.once_in(5) {
        return book.text();
    }
    let odds = odds(random);
    let lines = lines(random, odds, book);
    laid_out(random, odds, &lines)
}

pub fn odds(random: &mut Random) -> Odds {
    random.pick(&[2, 5, 20, 100])
}

/// The `p` line and the clauses of a book, whether or not it keeps the limits.
pub fn lines(random: &mut Random, odds: Odds, book: &Book) -> Vec<Words> {
    let numbers = [book.variables, book.clauses.len(), book.groups];
    let mut header = vec![b"p".to_vec(), b"gcnf".to_vec()];
    header.extend(numbers.map(|value| number(random, odds, value)));
    let clauses = book.clauses.iter().map(|clause| clause_line(random, odds, clause));
    std::iter::once(header).chain(clauses).collect()
}

/// The literals in any order, some of them more than once.
fn clause_line(random: &mut Random, odds: Odds, clause: &Clause) -> Words {
    let mut words: Words = Vec::new();
    for variable in &clause.body {
        for _ in 0..copies(random, odds) {
            words.push([b"-", &number(random, odds, *variable)[..]].concat());
        }
    }
    if clause.head > 0 {
        for _ in 0..copies(random, odds) {
            words.push(number(random, odds, clause.head));
        }
    }
    for last in 1..words.len() {
        if random.once_in(odds) {
            words.swap(last, random.below(last + 1));
        }
    }
    words.insert(0, [b"{", &number(random, odds, clause.group)[..], b"}"].concat());
    words.push(number(random, odds, 0));
    words
}

fn copies(random: &mut Random, odds: Odds) -> usize {
    if random.once_in(odds) {
        random.between(1, 3)
    } else {
        1
    }
}

/// Digits, at times with zeros before them.
fn number(random: &mut Random, odds: Odds, value: usize) -> Vec<u8> {
    let zeros = match random.below(4 * odds) {
        0 if random.once_in(100) => random.between(18, 6_000),
        0 | 1 => random.between(1, 4),
        _ => 0,
    };
    [vec![b'0'; zeros], value.to_string().into_bytes()].concat()
}

/// Lines with blanks around and between their words, comments and blank lines among them, and at times no last line feed.
pub fn laid_out(random: &mut Random, odds: Odds, lines: &[Words]) -> Vec<u8> {
    let mut text = Vec::new();
    for words in lines {
        fill(random, odds, &mut text);
        line(random, odds, words, &mut text);
        text.push(b'\n');
    }
    fill(random, odds, &mut text);
    if random.once_in(4) {
        text.pop();
    }
    text
}

fn line(random: &mut Random, odds: Odds, words: &[Vec<u8>], text: &mut Vec<u8>) {
    const BETWEEN: [&[u8]; 5] = [b"  ", b"\t", b" \t ", b"\t\t", b"      "];
    text.extend(around(random, odds));
    for (index, word) in words.iter().enumerate() {
        if index > 0 {
            text.extend(if random.once_in(odds) { random.pick(&BETWEEN) } else { b" " });
        }
        text.extend(word);
    }
    text.extend(around(random, odds));
}

fn around(random: &mut Random, odds: Odds) -> &'static [u8] {
    if random.once_in(2 * odds) {
        random.pick(&[b" ", b"\t", b"   ", b" \t"])
    } else {
        b""
    }
}

/// Comments, of any bytes but a line feed, and blank lines.
fn fill(random: &mut Random, odds: Odds, text: &mut Vec<u8>) {
    const FILLING: [&[u8]; 9] =
        [b"", b"", b" ", b"\t \t", b"c", b"cat", b"c p gcnf 9 9 9", b"c{1} 1 0\r", b"c \0\x80\xff"];
    while random.once_in(2 * odds) {
        if random.once_in(4) {
            text.push(b'c');
            text.extend((0..random.below(30)).map(|_| random.next() as u8).filter(|byte| *byte != b'\n'));
        } else {
            text.extend(random.pick(&FILLING));
        }
        text.push(b'\n');
    }
}
