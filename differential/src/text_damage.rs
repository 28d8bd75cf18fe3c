//! Group CNF texts that are not right, or no longer.
use crate::books;
use crate::texts::{self, Words};
use twin::book::{Book, LONGEST_BODY, MOST_CLAUSES};
use twin::random::Random;

/// What a text is made of, and what it must not be made of.
const BYTES: &[u8] = b" \t\n\r{}-+0123456789cpgnf.x\0\x0b\x0c\x7f\x80\xa0\xff";
const NO_BLANKS: &[u8] = b"\r\x0b\x0c\0\x80\xa0\xff+-.,;:{}c";

/// No number, or no literal, or neither.
const NO_NUMBERS: [&str; 24] = [
    "-", "+1", "-1", "+0", "1-", "--1", "-0", "-00", "-+1", "1.0", "x", "0x1", "1e3", "{", "}", "{1}", "1}", "{1", "c",
    "p", "gcnf", "{}", "_1", "1_0",
];

/// No group in braces, or one and more.
const NO_GROUPS: [&str; 20] = [
    "{ 1}", "{1 }", "{ 1 }", "{}", "{ }", "{-1}", "{-0}", "{+1}", "{1", "1}", "1", "{{1}}", "{1}}", "{{1}", "(1)",
    "{1}2", "{1}0", "{1}-2", "{1,2}", "{0x1}",
];

/// Numbers beyond every limit, among them some that are small in 16, 32 and 64 bits.
const HUGE: [&str; 10] = [
    "65536",
    "65537",
    "2147483648",
    "4294967295",
    "4294967296",
    "4294967297",
    "18446744073709551615",
    "18446744073709551616",
    "18446744073709551617",
    "99999999999999999999",
];

/// Bytes made from a text of a book by one edit or several, against the rules, or with no book behind them.
pub fn text(random: &mut Random, book: &Book) -> Vec<u8> {
    match random.below(100) {
        0 => too_long(random),
        1 | 2 => too_many(random),
        3..10 => soup_of_words(random),
        10..15 => (0..random.below(40)).map(|_| random.pick(BYTES)).collect(),
        15..22 => {
            let broken = books::against_the_rules(random);
            texts::any(random, &broken)
        }
        22..40 => {
            let mut text = texts::any(random, book);
            for _ in 0..random.pick(&[1, 1, 2, 5]) {
                edit_bytes(random, &mut text);
            }
            text
        }
        40..75 => edited_lines(random, book),
        _ => beyond_limits(random, book),
    }
}

/// Too many bytes or clauses for a book, at times with a wrong count too.
fn too_long(random: &mut Random) -> Vec<u8> {
    let book = books::too_long(random);
    let mut lines = texts::lines(random, 100, &book);
    if random.once_in(4) {
        lines[0][3] = (book.clauses.len() - 1).to_string().into();
    }
    texts::laid_out(random, 100, &lines)
}

/// More clauses than a book can have under a count that it can have, at times with another fault in the first that is one too many.
fn too_many(random: &mut Random) -> Vec<u8> {
    let clauses = MOST_CLAUSES + random.between(1, 2);
    let book = books::clauses_of(random, clauses);
    let mut lines = texts::lines(random, 100, &book);
    lines[0][3] = random.pick(&["2048", "2047", "0"]).into();
    if random.once_in(2) {
        break_limits(random, &mut lines, MOST_CLAUSES + 1, &book);
    }
    texts::laid_out(random, 100, &lines)
}

/// Lines of words that occur in texts, in no order.
fn soup_of_words(random: &mut Random) -> Vec<u8> {
    const WORDS: [&str; 16] =
        ["p", "gcnf", "{0}", "{1}", "{2}", "0", "0", "0", "1", "-1", "2", "-2", "3", "c", "\n", "\n"];
    let mut text: Vec<u8> = if random.once_in(3) { vec![] } else { b"p gcnf 2 1 1\n".to_vec() };
    for _ in 0..random.below(14) {
        text.extend(random.pick(&WORDS).bytes());
        text.extend(random.pick(&["", " ", " ", " ", "\t", "\n"]).bytes());
    }
    text
}

fn edit_bytes(random: &mut Random, text: &mut Vec<u8>) {
    let at = random.below(text.len() + 1);
    match random.below(6) {
        0 => text.truncate(at),
        1 | 2 => text.insert(at, random.pick(BYTES)),
        3 if at < text.len() => {
            text.remove(at);
        }
        4 if at < text.len() => text[at] = random.pick(BYTES),
        5 if at < text.len() => text[at] ^= 1 << random.below(8),
        _ => {
            *text = text.iter().flat_map(|byte| if *byte == b'\n' { vec![b'\r', b'\n'] } else { vec![*byte] }).collect()
        }
    }
}

/// One edit or several, often of one line, so that a line is at fault for more than one reason.
fn edited_lines(random: &mut Random, book: &Book) -> Vec<u8> {
    let odds = texts::odds(random);
    let mut lines = texts::lines(random, odds, book);
    let one = random.below(lines.len());
    let together = random.once_in(2);
    for _ in 0..random.pick(&[1, 1, 1, 2, 2, 3]) {
        let at = if together { one } else { random.below(lines.len().max(1)) };
        if random.once_in(5) {
            edit_order(random, &mut lines);
        } else if at < lines.len() {
            edit_line(random, &mut lines, at, book);
        }
    }
    texts::laid_out(random, odds, &lines)
}

/// One line that keeps its form and breaks other rules, often more than one of them.
fn beyond_limits(random: &mut Random, book: &Book) -> Vec<u8> {
    let odds = texts::odds(random);
    let mut lines = texts::lines(random, odds, book);
    let at = if random.once_in(4) { 0 } else { random.below(lines.len()) };
    break_limits(random, &mut lines, at, book);
    texts::laid_out(random, odds, &lines)
}

fn break_limits(random: &mut Random, lines: &mut [Words], at: usize, book: &Book) {
    for _ in 0..random.between(1, 3) {
        match random.below(4) {
            _ if at == 0 => edit_number(random, &mut lines[0], book),
            0 => edit_number(random, &mut lines[at], book),
            1 => wide(random, lines, at),
            _ => insert(random, &mut lines[at], |random| random.between(1, book.variables).to_string().into()),
        }
    }
}

/// Whole lines: none of them, twice, elsewhere, joined or cut.
fn edit_order(random: &mut Random, lines: &mut Vec<Words>) {
    if lines.is_empty() {
        return;
    }
    // The `p` line more often than the others.
    let at = if random.once_in(2) { 0 } else { random.below(lines.len()) };
    let to = random.below(lines.len() + 1);
    match random.below(8) {
        0 => {
            lines.remove(at);
        }
        1 => lines.insert(to, lines[at].clone()),
        2 => lines.insert(to, ["p", "gcnf", "0", "9999", "99"].map(|word| word.into()).to_vec()),
        3 => {
            let line = lines.remove(at);
            lines.insert(to.min(lines.len()), line);
        }
        4 if at + 1 < lines.len() => {
            let next = lines.remove(at + 1);
            lines[at].extend(next);
        }
        5 => {
            let word = random.below(lines[at].len() + 1);
            let rest = lines[at].split_off(word);
            lines.insert(at + 1, rest);
        }
        _ => lines.insert(to, vec![random.pick(&["c", " c", " c", "\tc 1", "\r", "\x0b", "0", "{0}", "p"]).into()]),
    }
}

/// A line at fault, or at times only unusual.
fn edit_line(random: &mut Random, lines: &mut [Words], at: usize, book: &Book) {
    let header = lines[at].first().is_some_and(|word| word == b"p");
    match random.below(if header { 5 } else { 12 }) {
        0 => edit_word(random, &mut lines[at]),
        1 if header => lines[at] = wrong_p_line(random, book),
        2..4 if header && lines[at].len() > 3 => lines[at][3] = random.below(book.clauses.len() + 3).to_string().into(),
        _ if header => edit_number(random, &mut lines[at], book),
        1 if !lines[at].is_empty() => lines[at][0] = random.pick(&NO_GROUPS).into(),
        2 | 3 => edit_number(random, &mut lines[at], book),
        4 => insert(random, &mut lines[at], random_no_number),
        5 => insert(random, &mut lines[at], |random| random.pick(&["0", "00", "-0", "0"]).into()),
        6 => {
            lines[at].pop();
            lines[at].extend(random.pick(&[None, Some("-0"), Some("-00"), Some("+0"), Some("1")]).map(Vec::from));
        }
        7..10 => insert(random, &mut lines[at], |random| random.between(1, book.variables).to_string().into()),
        10 => insert(random, &mut lines[at], |random| format!("-{}", random.between(1, book.variables)).into()),
        _ => wide(random, lines, at),
    }
}

fn random_no_number(random: &mut Random) -> Vec<u8> {
    random.pick(&NO_NUMBERS).into()
}

/// A word somewhere between the first and the last, at times beside them.
fn insert(random: &mut Random, words: &mut Words, word: impl FnOnce(&mut Random) -> Vec<u8>) {
    let word = word(random);
    let least = usize::from(!random.once_in(6));
    let most = words.len().saturating_sub(least);
    words.insert(random.between(least.min(most), most), word);
}

/// A number at its limit or beyond, in the place of one, with braces or a minus where they were.
fn edit_number(random: &mut Random, words: &mut Words, book: &Book) {
    let values = [0, 1, 32, 33, 1_024, 1_025, 2_048, 2_049, book.variables + 1, book.groups + 1, book.groups + 2];
    let number: String = match random.below(40) {
        0 => random.pick(&["9", "10"]).repeat(random.pick(&[20, 6_000])),
        1 => "0".repeat(6_000),
        2..16 => random.pick(&HUGE).into(),
        _ => random.pick(&values).to_string(),
    };
    let numeric = |word: &&mut Vec<u8>| word.first().is_some_and(|byte| b"{-".contains(byte) || byte.is_ascii_digit());
    let mut words: Vec<&mut Vec<u8>> = words.iter_mut().filter(numeric).collect();
    if words.is_empty() {
        return;
    }
    let at = random.below(words.len());
    let word = &mut words[at];
    **word = match word.first() {
        Some(b'{') => format!("{{{number}}}"),
        Some(b'-') => format!("-{number}"),
        _ => number,
    }
    .into();
}

/// A word that is none, a byte that does not belong there, or a word too many or too few.
fn edit_word(random: &mut Random, words: &mut Words) {
    let at = random.below(words.len() + 1);
    match (words.get_mut(at), random.below(6)) {
        (Some(word), 0) => word.push(random.pick(NO_BLANKS)),
        (Some(word), 1) => word.insert(random.below(word.len() + 1), random.pick(NO_BLANKS)),
        (Some(word), 2) => word.make_ascii_uppercase(),
        (Some(word), 3) => *word = random.pick(&NO_NUMBERS).into(),
        (Some(_), 4) => {
            words.remove(at);
        }
        _ => words.insert(at, random.pick(&["0", "1", "\r", "c"]).into()),
    }
}

fn wrong_p_line(random: &mut Random, book: &Book) -> Words {
    let line =
        random.pick(&["pgcnf # # #", "P GCNF # # #", "p cnf # # #", "p gcnf# # #", "p gcnf # # {#}", "p gcnf # #"]);
    let numbers = [book.variables, book.clauses.len(), book.groups].map(|number| number.to_string());
    let mut numbers = numbers.iter();
    let filled: String =
        line.split_inclusive('#').map(|part| part.replace('#', numbers.next().map_or("", |number| number))).collect();
    filled.split(' ').map(|word| word.into()).collect()
}

/// A clause with as many body variables as it may have and some of them again, or with one too many; the `p` line says variables enough.
fn wide(random: &mut Random, lines: &mut [Words], at: usize) {
    let size = LONGEST_BODY + usize::from(random.once_in(2));
    let said = lines[0].get(2).and_then(|word| std::str::from_utf8(word).ok()?.parse::<usize>().ok());
    if said.is_some_and(|variables| variables <= size) {
        lines[0][2] = "64".into();
    }
    let end = lines[at].len().saturating_sub(1);
    let body = (1..=size).chain((0..random.below(9)).map(|_| random.between(1, size)).collect::<Vec<_>>());
    let words: Words = body.map(|variable| format!("-{variable}").into()).collect();
    lines[at].splice(end..end, words);
}
