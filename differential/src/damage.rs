//! Bytes and plain forms that are not right, or no longer.
use crate::books;
use twin::book::{Book, LONGEST_BOOK};
use twin::random::Random;

/// Bytes made from a book by one edit or several, against the rules, or with no book behind them.
pub fn bytes(random: &mut Random, book: &Book) -> Vec<u8> {
    match random.below(100) {
        0 => books::too_long(random).bytes(),
        1 if random.once_in(4) => {
            vec![random.pick(&[0, 1, 2, 7]); random.pick(&[LONGEST_BOOK, LONGEST_BOOK + 1, 70_000])]
        }
        1..15 => books::against_the_rules(random).bytes(),
        15..20 => (0..random.below(12)).map(|_| random.below(5) as u8).collect(),
        _ => {
            let broken = if random.once_in(8) { &books::against_the_rules(random) } else { book };
            let mut bytes = broken.bytes();
            for _ in 0..random.pick(&[1, 1, 1, 2, 3, 6]) {
                edit_bytes(random, &mut bytes, broken);
            }
            bytes
        }
    }
}

/// Where fields begin, as far as the bytes can be read as fields, and where they end.
fn fields(bytes: &[u8]) -> Vec<usize> {
    let mut begins = vec![0];
    let mut at = 0;
    while at + 3 <= bytes.len() {
        at += 3 + usize::from(bytes[at + 1]) * 256 + usize::from(bytes[at + 2]);
        begins.push(at.min(bytes.len()));
    }
    begins
}

fn edit_bytes(random: &mut Random, bytes: &mut Vec<u8>, book: &Book) {
    let begins = fields(bytes);
    let field = random.pick(&begins);
    let at = random.below(bytes.len() + 1);
    match random.below(12) {
        0 => bytes.truncate(if random.once_in(2) { at } else { field }),
        1 => bytes.insert(at, random.next() as u8),
        2 => bytes.extend((0..random.between(1, 9)).map(|_| random.pick(&[0, 0, 1, 2, 255]))),
        3 => swap_fields(random, bytes, &begins),
        4 => repeat_field(random, bytes, &begins),
        5 if at < bytes.len() => {
            bytes.remove(at);
        }
        6 if at < bytes.len() => bytes[at] = random.next() as u8,
        7 if at < bytes.len() => bytes[at] = bytes[at].wrapping_add(random.pick(&[1, 255])),
        8 if field < bytes.len() => bytes[field] = random.pick(&[0, 1, 2, 3, 255]),
        9 if field + 3 <= bytes.len() => edit_length(random, bytes, field),
        10 => edit_number(random, bytes, field, book),
        _ => swap_numbers(random, bytes, field),
    }
}

/// The length of a field a little off, or far off.
fn edit_length(random: &mut Random, bytes: &mut [u8], field: usize) {
    if random.once_in(5) {
        bytes[field + 1] = random.next() as u8;
    }
    bytes[field + 2] = bytes[field + 2].wrapping_add(random.pick(&[1, 2, 254, 255]));
}

/// A number of a field at or beyond a limit.
fn edit_number(random: &mut Random, bytes: &mut [u8], field: usize, book: &Book) {
    let values = [0, 1, book.variables, book.variables + 1, book.groups, book.groups + 1, 33, 1_024, 1_025, 65_535];
    let value = random.pick(&values) as u16;
    let at = field + 3 + 2 * random.below(5);
    if at + 2 <= bytes.len() {
        bytes[at..at + 2].copy_from_slice(&value.to_be_bytes());
    }
}

/// Two numbers of a field that stand side by side change places, or the second becomes the first.
fn swap_numbers(random: &mut Random, bytes: &mut [u8], field: usize) {
    let at = field + 3 + 2 * random.below(5);
    if at + 4 <= bytes.len() {
        let (first, second) = ([bytes[at], bytes[at + 1]], [bytes[at + 2], bytes[at + 3]]);
        bytes[at + 2..at + 4].copy_from_slice(&first);
        if random.once_in(2) {
            bytes[at..at + 2].copy_from_slice(&second);
        }
    }
}

/// Two fields that stand side by side change places.
fn swap_fields(random: &mut Random, bytes: &mut [u8], begins: &[usize]) {
    if begins.len() > 2 {
        let first = random.below(begins.len() - 2);
        let (begin, middle, end) = (begins[first], begins[first + 1], begins[first + 2]);
        bytes[begin..end].rotate_left(middle - begin);
    }
}

/// A field comes again before some field.
fn repeat_field(random: &mut Random, bytes: &mut Vec<u8>, begins: &[usize]) {
    if begins.len() > 1 {
        let which = random.below(begins.len() - 1);
        let field = bytes[begins[which]..begins[which + 1]].to_vec();
        let at = random.pick(begins);
        bytes.splice(at..at, field);
    }
}

/// Numbers made from a book's plain form by one edit or several, against the rules, or with no book behind them.
pub fn plain(random: &mut Random, book: &Book) -> Vec<i32> {
    match random.below(100) {
        0 | 1 => books::too_long(random).plain(),
        2..16 => books::against_the_rules(random).plain(),
        16..20 => (0..random.below(8)).map(|_| random.below(7) as i32 - 2).collect(),
        _ => {
            let broken = if random.once_in(8) { &books::against_the_rules(random) } else { book };
            let mut plain = broken.plain();
            for _ in 0..random.pick(&[1, 1, 1, 2, 3, 6]) {
                edit_plain(random, &mut plain, broken);
            }
            plain
        }
    }
}

fn edit_plain(random: &mut Random, plain: &mut Vec<i32>, book: &Book) {
    let values =
        [0, 1, 33, 1_025, book.variables as i32, book.variables as i32 + 1, book.groups as i32 + 1, i32::MAX, i32::MIN];
    let value = match random.below(6) {
        0 => random.next() as i32,
        1 | 2 => random.pick(&values).wrapping_neg(),
        _ => random.pick(&values),
    };
    let at = if random.once_in(6) { random.below(2) } else { random.below(plain.len() + 1) };
    let at = at.min(plain.len());
    match random.below(8) {
        0 => plain.truncate(at),
        1 => plain.insert(at, value),
        2 => plain.extend((0..random.between(1, 4)).map(|_| random.below(5) as i32 - 2)),
        3 if at < plain.len() => {
            plain.remove(at);
        }
        4 if at < plain.len() => plain[at] = plain[at].wrapping_neg(),
        5 if at + 1 < plain.len() => plain.swap(at, at + 1),
        6 if at < plain.len() => plain.insert(at, plain[at]),
        _ if at < plain.len() => plain[at] = value,
        _ => plain.push(value),
    }
}
