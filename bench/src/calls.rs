//! The other calls on books and texts that double: asking; checking, reading and writing; text to book and book to text.

use crate::books::chain;
use crate::clock;
use crate::table::{ratio, short, thousands, Table};
use twin::book::{Book, Clause};

pub const SIZES: [usize; 4] = [128, 256, 512, 1024];

struct Lent {
    out: Vec<u8>,
    plain: Vec<i32>,
    work: Vec<u16>,
}

impl Lent {
    fn new() -> Lent {
        Lent {
            out: vec![0; badolkhup::BOOK_BYTES],
            plain: vec![0; badolkhup::BOOK_BYTES],
            work: vec![0; badolkhup::WORK_WORDS],
        }
    }

    fn clear(&mut self) {
        self.out.fill(0);
        self.plain.fill(0);
        self.work.fill(0);
    }
}

pub fn asking() {
    println!("Asking about the choice of all 32 groups of a chain, which forces every variable and breaks the goal; microseconds, growth for each doubling.\n");
    let mut table = Table::new(&["Clauses", "rising", "growth", "falling", "growth"]);
    let mut last = [None; 2];
    for size in SIZES {
        let mut row = vec![thousands(size as u64)];
        for (order, last) in ["rising", "falling"].iter().zip(&mut last) {
            let bytes = chain(order, size).book.bytes();
            let ask = |lent: &mut Lent| badolkhup::ask(&bytes, u32::MAX, &mut lent.out, &mut lent.work);
            let (asked, spent) = clock::smallest(&mut Lent::new(), Lent::clear, ask);
            assert!(matches!(asked, Ok(badolkhup::Asked::Contradiction { .. })));
            row.extend([short(spent * 1e6), ratio(Some(spent), *last)]);
            *last = Some(spent);
        }
        table.row(&row);
    }
    table.print();
}

/// Clauses with a body of 8 variables.
pub fn wide(clauses: usize) -> Book {
    let body = |number: usize| (0..8).map(|k| 1 + number % 100 + 100 * k).collect();
    let clause = |number: usize| Clause::new(1 + number % 32, 1 + number % 1024, body(number));
    Book::new(1024, 32, (0..clauses).map(clause).collect())
}

pub fn bytes_calls() {
    println!("Checking, reading and writing books of clauses with 8 body variables; microseconds, growth for each doubling.\n");
    let mut table = Table::new(&["Clauses", "Bytes", "check", "growth", "read", "growth", "write", "growth"]);
    let mut last = [None; 3];
    for size in [256, 512, 1024, 2048] {
        let book = wide(size);
        let (bytes, plain) = (book.bytes(), book.plain());
        let mut lent = Lent::new();
        let (checked, check) = clock::smallest(&mut lent, Lent::clear, |_| badolkhup::check(&bytes));
        let (read, reading) = clock::smallest(&mut lent, Lent::clear, |lent| badolkhup::read(&bytes, &mut lent.plain));
        let (written, writing) =
            clock::smallest(&mut lent, Lent::clear, |lent| badolkhup::write(&plain, &mut lent.out));
        assert_eq!((checked.is_ok(), read, written), (true, Ok(plain.len()), Ok(bytes.len())));
        let mut row = vec![thousands(size as u64), thousands(bytes.len() as u64)];
        for (spent, last) in [check, reading, writing].into_iter().zip(&mut last) {
            row.extend([short(spent * 1e6), ratio(Some(spent), *last)]);
            *last = Some(spent);
        }
        table.row(&row);
    }
    table.print();
}

/// A text turned into a book by the engine and by the twin: seconds of each.
fn from_text(text: &[u8]) -> [f64; 2] {
    let mut lent = Lent::new();
    let (book, engine) = clock::smallest(&mut lent, Lent::clear, |lent| badolkhup::from_text(text, &mut lent.out));
    let (again, twin) = clock::smallest(&mut lent, Lent::clear, |lent| twin::calls::from_text(text, &mut lent.out));
    assert!(book.is_ok_and(|length| again == Ok(vec![length as u64])));
    [engine, twin]
}

pub fn text_calls() {
    println!("Text to book and book to text, clauses with 8 body variables; microseconds, growth for each doubling.\n");
    let mut table =
        Table::new(&["Clauses", "Bytes of text", "from_text", "growth", "twin", "twin ÷ engine", "to_text", "growth"]);
    let mut last = [None; 2];
    for size in [256, 512, 1024, 2048] {
        let bytes = wide(size).bytes();
        let text = badolkhup::text_of(&bytes).expect("a book");
        let [from, twin] = from_text(&text);
        let mut space = vec![0; text.len()];
        let (again, to) = clock::smallest(&mut space, |_| (), |space| badolkhup::to_text(&bytes, space));
        assert_eq!(again, Ok(text.len()));
        table.row(&[
            thousands(size as u64),
            thousands(text.len() as u64),
            short(from * 1e6),
            ratio(Some(from), last[0]),
            short(twin * 1e6),
            ratio(Some(twin), Some(from)),
            short(to * 1e6),
            ratio(Some(to), last[1]),
        ]);
        last = [Some(from), Some(to)];
    }
    table.print();
    long_texts("One clause that repeats 32 body literals in falling order", "Literals", one_line);
    long_texts("Comments and blank lines", "Lines", comments);
}

/// A text of one clause with so many literals: 32 body variables falling, over and over.
fn one_line(literals: usize) -> Vec<u8> {
    let body: String = (0..literals).map(|k| format!(" -{}", 1024 - k % 32)).collect();
    format!("p gcnf 1024 1 1\n{{1}}{body} 0\n").into_bytes()
}

/// A text of so many lines, a comment and a blank line in turn.
fn comments(lines: usize) -> Vec<u8> {
    format!("p gcnf 1 0 0\n{}", "c a comment of some length\n \t\n".repeat(lines / 2)).into_bytes()
}

fn long_texts(about: &str, unit: &str, text: fn(usize) -> Vec<u8>) {
    println!("{about}, turned into a book; microseconds, growth for each doubling.\n");
    let mut table = Table::new(&[unit, "Bytes of text", "from_text", "growth", "twin", "twin ÷ engine"]);
    let mut last = None;
    for size in [4_096, 8_192, 16_384, 32_768, 65_536] {
        let text = text(size);
        let [from, twin] = from_text(&text);
        table.row(&[
            thousands(size as u64),
            thousands(text.len() as u64),
            short(from * 1e6),
            ratio(Some(from), last),
            short(twin * 1e6),
            ratio(Some(twin), Some(from)),
        ]);
        last = Some(from);
    }
    table.print();
}
