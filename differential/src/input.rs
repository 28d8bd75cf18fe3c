//! One input: a call with everything that is lent to it.
use std::fmt::{self, Debug};
use twin::random::Random;

#[derive(Debug, Clone, Copy, PartialEq, Eq, PartialOrd, Ord)]
pub enum Call {
    Check,
    Read,
    Write,
    FromText,
    ToText,
    Ask,
    Explain,
    Round,
    List,
}

pub const CALLS: [Call; 9] = [
    Call::Check,
    Call::Read,
    Call::Write,
    Call::FromText,
    Call::ToText,
    Call::Ask,
    Call::Explain,
    Call::Round,
    Call::List,
];

impl fmt::Display for Call {
    fn fmt(&self, f: &mut fmt::Formatter<'_>) -> fmt::Result {
        f.pad(&format!("{self:?}").to_lowercase())
    }
}

/// A value of any bits.
pub trait Junk: Copy + PartialEq + Debug {
    fn junk(bits: u64) -> Self;
}

macro_rules! junk {
    ($($number:ty),*) => { $(impl Junk for $number { fn junk(bits: u64) -> Self { bits as $number } })* };
}
junk!(u8, u16, u32, i32);

/// The middle of a larger space, so that a store beside the lent part shows.
#[derive(Clone, PartialEq)]
pub struct Lent<T> {
    whole: Vec<T>,
    start: usize,
    length: usize,
}

impl<T: Junk> Lent<T> {
    /// The values and junk behind them up to a length, with junk around.
    pub fn new(random: &mut Random, values: &[T], length: usize) -> Lent<T> {
        let (start, behind) = (random.between(1, 9), random.between(1, 9));
        let mut whole: Vec<T> = (0..start).map(|_| T::junk(random.next())).collect();
        whole.extend(&values[..length.min(values.len())]);
        whole.extend((whole.len()..start + length + behind).map(|_| T::junk(random.next())));
        Lent { whole, start, length }
    }

    pub fn of(random: &mut Random, values: &[T]) -> Lent<T> {
        Lent::new(random, values, values.len())
    }

    pub fn part(&self) -> &[T] {
        &self.whole[self.start..self.start + self.length]
    }

    pub fn part_mut(&mut self) -> &mut [T] {
        &mut self.whole[self.start..self.start + self.length]
    }

    /// The value right behind the lent part.
    #[cfg(test)]
    pub fn behind(&mut self) -> &mut T {
        &mut self.whole[self.start + self.length]
    }

    /// The first value that two states of one space differ in.
    fn difference(&self, other: &Lent<T>, name: &str) -> Option<String> {
        let at = self.whole.iter().zip(&other.whole).position(|(one, two)| one != two)?;
        let index = at as i64 - self.start as i64;
        Some(format!("{name} of {} at {index}: engine {:?}, twin {:?}", self.length, self.whole[at], other.whole[at]))
    }
}

/// What a call does not take is lent with length 0 and must stay as well.
#[derive(Clone)]
pub struct Input {
    pub call: Call,
    pub book: Lent<u8>,
    pub plain: Lent<i32>,
    pub text: Lent<u8>,
    pub numbers: Lent<i32>,
    pub bytes: Lent<u8>,
    pub records: Lent<u32>,
    pub work: Lent<u16>,
    pub choice: u32,
    pub count: usize,
}

impl Input {
    pub fn new(random: &mut Random, call: Call, book: &[u8]) -> Input {
        Input {
            call,
            book: Lent::of(random, book),
            plain: Lent::of(random, &[]),
            text: Lent::of(random, &[]),
            numbers: Lent::of(random, &[]),
            bytes: Lent::of(random, &[]),
            records: Lent::of(random, &[]),
            work: Lent::of(random, &[]),
            choice: 0,
            count: 0,
        }
    }

    /// The first place in the lent spaces where the engine's state differs from the twin's.
    pub fn difference(&self, twin: &Input) -> Option<String> {
        self.book
            .difference(&twin.book, "book")
            .or_else(|| self.plain.difference(&twin.plain, "plain form"))
            .or_else(|| self.text.difference(&twin.text, "text"))
            .or_else(|| self.numbers.difference(&twin.numbers, "numbers out"))
            .or_else(|| self.bytes.difference(&twin.bytes, "bytes out"))
            .or_else(|| self.records.difference(&twin.records, "records"))
            .or_else(|| self.work.difference(&twin.work, "working space"))
    }

    /// The words of the records that the caller says are there, as far as the space goes.
    fn given(&self) -> &[u32] {
        let records = self.records.part();
        &records[..self.count.saturating_mul(2).min(records.len())]
    }
}

/// Up to this many values of a part are printed.
const SHOWN: usize = 400;

fn show<T>(f: &mut fmt::Formatter<'_>, name: &str, part: &[T], one: impl Fn(&T) -> String) -> fmt::Result {
    let values: String = if part.len() <= SHOWN { part.iter().map(one).collect() } else { " (long)".into() };
    writeln!(f, "  {name}, {} values:{values}", part.len())
}

impl fmt::Display for Input {
    fn fmt(&self, f: &mut fmt::Formatter<'_>) -> fmt::Result {
        writeln!(f, "  call {}, choice {}, count {}", self.call, self.choice, self.count)?;
        show(f, "book", self.book.part(), |byte| format!(" {byte:02x}"))?;
        show(f, "plain form", self.plain.part(), |number| format!(" {number}"))?;
        show(f, "text", self.text.part(), |byte| byte.escape_ascii().to_string())?;
        show(f, "records given", self.given(), |word| format!(" {word}"))?;
        let (numbers, bytes) = (self.numbers.part().len(), self.bytes.part().len());
        let (words, work) = (self.records.part().len(), self.work.part().len());
        writeln!(
            f,
            "  lent: {numbers} numbers out, {bytes} bytes out, {words} words for records, {work} of working space"
        )
    }
}
