//! Engines with one error each in group CNF text.
use super::{other_refusal, other_spaces, refused, right};
use crate::input::{Call, Input, Lent};
use crate::sides::Side;
use crate::texts::Words;
use std::collections::BTreeSet;
use twin::book::{Book, LONGEST_BODY, MOST_CLAUSES};
use twin::random::Random;
use twin::{Answer, Refusal};

pub const ERRORS: [(&str, Side); 20] = [
    ("lines counted from 0", lines_from_0),
    ("comments and blank lines not counted", only_some_lines),
    ("20 before 7", order_of_7_and_20),
    ("5 before 20", order_of_20_and_5),
    ("6 before 20", order_of_20_and_6),
    ("21 at the end of the text", place_of_21),
    ("a clause count above 2,048 left to 21", count_not_limited),
    ("a second p line accepted", second_p_line),
    ("a literal right after the brace", brace_separates),
    ("a carriage return taken for a blank", carriage_return),
    ("a comment that begins with a blank", blank_before_comment),
    ("minus 0 taken for 0", minus_0),
    ("a last line with no line feed overlooked", last_line_lost),
    ("numbers in 32 bits", in_32_bits),
    ("numbers in 64 bits", in_64_bits),
    ("a repeated literal kept twice", repeats_kept),
    ("repeated literals counted", repeats_counted),
    ("the same head twice refused", same_head_twice),
    ("a head taken out of its own body", own_body),
    ("text written with the head before the body", head_first),
];

fn words(line: &[u8]) -> Vec<&[u8]> {
    line.split(|byte| b" \t".contains(byte)).filter(|word| !word.is_empty()).collect()
}

fn lines(text: &[u8]) -> Vec<&[u8]> {
    text.split(|byte| *byte == b'\n').collect()
}

/// The words of the lines with clauses, of lines that are right.
fn clause_lines<'a>(lines: &[&'a [u8]]) -> Vec<Vec<&'a [u8]>> {
    lines.iter().map(|line| words(line)).filter(|words| words.first().is_some_and(|word| word[0] == b'{')).collect()
}

/// The numbers of the literals that are positive, or of those that are negative.
fn numbers(words: &[&[u8]], negative: bool) -> Vec<usize> {
    let of_kind = words.iter().skip(1).filter(|word| word.starts_with(b"-") == negative);
    let digits = of_kind.filter_map(|word| std::str::from_utf8(&word[usize::from(negative)..]).ok());
    digits.filter_map(|digits| digits.parse().ok()).filter(|number| *number > 0).collect()
}

fn different(numbers: &[usize]) -> usize {
    numbers.iter().collect::<BTreeSet<_>>().len()
}

/// The twin's answer with some refusals of a line turned into others.
fn other_line(input: &mut Input, other: impl Fn(&[&[u8]], Refusal) -> Option<Answer>) -> Answer {
    other_refusal(input, |input, refusal| {
        let lines = lines(input.text.part());
        let line = (input.call == Call::FromText && refusal.place > 0).then(|| lines[refusal.place - 1])?;
        other(&words(line), refusal)
    })
}

fn lines_from_0(input: &mut Input) -> Answer {
    other_line(input, |_, refusal| Some(refused(refusal.number, refusal.place - 1)))
}

fn only_some_lines(input: &mut Input) -> Answer {
    other_refusal(input, |input, refusal| {
        let lines = lines(input.text.part());
        let before = (input.call == Call::FromText).then(|| &lines[..refusal.place])?;
        let counts = |line: &&&[u8]| !line.starts_with(b"c") && !words(line).is_empty();
        Some(refused(refusal.number, before.iter().filter(counts).count()))
    })
}

fn order_of_7_and_20(input: &mut Input) -> Answer {
    other_line(input, |words, refusal| {
        let two_heads = words[0] != b"p" && different(&numbers(words, false)) > 1;
        (refusal.number == 7 && two_heads).then(|| refused(20, refusal.place))
    })
}

fn order_of_20_and_5(input: &mut Input) -> Answer {
    other_line(input, |words, refusal| {
        let wide = different(&numbers(words, true)) > LONGEST_BODY;
        (refusal.number == 20 && wide).then(|| refused(5, refusal.place))
    })
}

fn order_of_20_and_6(input: &mut Input) -> Answer {
    other_refusal(input, |input, refusal| {
        let lines = lines(input.text.part());
        let before = clause_lines(lines.get(..refusal.place.checked_sub(1)?)?);
        (refusal.number == 20 && before.len() == MOST_CLAUSES).then(|| refused(6, refusal.place))
    })
}

fn place_of_21(input: &mut Input) -> Answer {
    other_line(input, |_, refusal| (refusal.number == 21).then(|| refused(21, 0)))
}

fn count_not_limited(input: &mut Input) -> Answer {
    other_line(input, |words, refusal| {
        let count = words.get(3).is_some_and(|word| word.ends_with(b"2049"));
        (refusal.number == 7 && words[0] == b"p" && count).then(|| refused(21, refusal.place))
    })
}

/// The twin over a changed text, with the answer that it gives there.
fn with_text(input: &mut Input, change: impl FnOnce(&[u8]) -> Vec<u8>) -> Answer {
    if input.call != Call::FromText {
        return right(input);
    }
    let given = input.text.clone();
    input.text = Lent::of(&mut Random::new(0, 0), &change(given.part()));
    let answer = right(input);
    input.text = given;
    answer
}

/// The same with each line changed that is no comment.
fn with_lines(input: &mut Input, mut change: impl FnMut(&[u8]) -> Vec<u8>) -> Answer {
    with_text(input, |text| {
        let changed = |line: &[u8]| if line.starts_with(b"c") { line.to_vec() } else { change(line) };
        lines(text).into_iter().map(changed).collect::<Vec<_>>().join(&b'\n')
    })
}

/// The same with the words of each line changed.
fn with_words(input: &mut Input, mut change: impl FnMut(&mut Words)) -> Answer {
    with_lines(input, |line| {
        let mut words: Words = words(line).into_iter().map(<[u8]>::to_vec).collect();
        change(&mut words);
        // What begins with a blank is no comment.
        [b" ", &words.join(&b' ')[..]].concat()
    })
}

fn second_p_line(input: &mut Input) -> Answer {
    let mut met = false;
    with_words(input, |words| {
        let header = words.len() == 5 && words[0] == b"p";
        if header && met {
            words.clear();
        }
        met |= header;
    })
}

fn brace_separates(input: &mut Input) -> Answer {
    with_lines(input, |line| {
        line.iter().flat_map(|byte| if *byte == b'}' { vec![*byte, b' '] } else { vec![*byte] }).collect()
    })
}

fn carriage_return(input: &mut Input) -> Answer {
    with_lines(input, |line| line.iter().map(|byte| if *byte == b'\r' { b' ' } else { *byte }).collect())
}

fn blank_before_comment(input: &mut Input) -> Answer {
    with_lines(input, |line| match words(line).first() {
        Some(word) if word.starts_with(b"c") => b"c".to_vec(),
        _ => line.to_vec(),
    })
}

fn minus_0(input: &mut Input) -> Answer {
    with_words(input, |words| {
        let minus_0 =
            |word: &&mut Vec<u8>| word.len() > 1 && word[0] == b'-' && word[1..].iter().all(|byte| *byte == b'0');
        words.iter_mut().filter(minus_0).for_each(|word| *word = b"0".to_vec());
    })
}

fn last_line_lost(input: &mut Input) -> Answer {
    with_text(input, |text| text[..text.iter().rposition(|byte| *byte == b'\n').map_or(0, |last| last + 1)].to_vec())
}

/// Each run of digits as another one.
fn with_numbers(input: &mut Input, change: impl Fn(&[u8]) -> String) -> Answer {
    with_lines(input, |line| {
        let runs = line.chunk_by(|one, two| one.is_ascii_digit() == two.is_ascii_digit());
        runs.flat_map(|run| if run[0].is_ascii_digit() { change(run).into_bytes() } else { run.to_vec() }).collect()
    })
}

fn in_32_bits(input: &mut Input) -> Answer {
    let add = |value: u32, digit: &u8| value.wrapping_mul(10).wrapping_add(u32::from(digit - b'0'));
    with_numbers(input, |digits| digits.iter().fold(0, add).to_string())
}

fn in_64_bits(input: &mut Input) -> Answer {
    let add = |value: u64, digit: &u8| value.wrapping_mul(10).wrapping_add(u64::from(digit - b'0'));
    with_numbers(input, |digits| digits.iter().fold(0, add).to_string())
}

fn repeats_kept(input: &mut Input) -> Answer {
    let text = input.text.part();
    let Ok(mut book) = Book::from_text(text) else {
        return right(input);
    };
    for (clause, words) in book.clauses.iter_mut().zip(clause_lines(&lines(text))) {
        clause.body = numbers(&words, true);
        clause.body.sort_unstable();
    }
    let bytes = book.bytes();
    match input.bytes.part_mut().get_mut(..bytes.len()) {
        Some(out) => out.copy_from_slice(&bytes),
        None => return refused(11, 0),
    }
    Ok(vec![bytes.len() as u64])
}

/// The place of the first line of which something holds, in a text that is right.
fn first_line(input: &Input, holds: impl Fn(&[&[u8]]) -> bool) -> Option<usize> {
    let text = input.text.part();
    Book::from_text(text).ok()?;
    let clause = |line: &&[u8]| !line.starts_with(b"c") && holds(&words(line));
    lines(text).iter().position(clause).map(|index| index + 1)
}

fn repeats_counted(input: &mut Input) -> Answer {
    match first_line(input, |words| numbers(words, true).len() > LONGEST_BODY) {
        Some(place) => refused(5, place),
        None => right(input),
    }
}

fn same_head_twice(input: &mut Input) -> Answer {
    match first_line(input, |words| words.first() != Some(&&b"p"[..]) && numbers(words, false).len() > 1) {
        Some(place) => refused(20, place),
        None => right(input),
    }
}

fn own_body(input: &mut Input) -> Answer {
    with_words(input, |words| {
        let positive: Words = words.clone();
        words.retain(|word| word.strip_prefix(b"-").is_none_or(|digits| !positive.contains(&digits.to_vec())));
    })
}

fn head_first(input: &mut Input) -> Answer {
    other_spaces(input, |_, after, values| {
        if after.call != Call::ToText {
            return;
        }
        let text = &mut after.bytes.part_mut()[..values[0] as usize];
        let changed = lines(text).into_iter().map(|line| {
            let mut words = words(line);
            match words.len() {
                3.. if words[0] != b"p" && words[words.len() - 2][0] != b'-' => {
                    let end = words.len() - 1;
                    words[1..end].rotate_right(1);
                    words.join(&b' ')
                }
                _ => line.to_vec(),
            }
        });
        let changed = changed.collect::<Vec<_>>().join(&b'\n');
        text.copy_from_slice(&changed);
    })
}
