//! The two sides: the engine and the twin, each over one input.
use crate::input::{Call, Input};
use crate::tally::Tally;
use twin::{Answer, Refusal};

/// One side answers an input and changes its spaces.
pub type Side = fn(&mut Input) -> Answer;

pub fn by_twin(input: &mut Input) -> Answer {
    let (book, work) = (input.book.part(), input.work.part_mut());
    match input.call {
        Call::Check => twin::calls::check(book),
        Call::Read => twin::calls::read(book, input.numbers.part_mut()),
        Call::Write => twin::calls::write(input.plain.part(), input.bytes.part_mut()),
        Call::FromText => twin::calls::from_text(input.text.part(), input.bytes.part_mut()),
        Call::ToText => twin::calls::to_text(book, input.bytes.part_mut()),
        Call::Ask => twin::calls::ask(book, input.choice, input.bytes.part_mut(), work),
        Call::Explain => twin::calls::explain(book, input.choice, work),
        Call::Round => twin::calls::round(book, input.records.part_mut(), input.count, work),
        Call::List => twin::calls::list(book, input.records.part_mut(), input.count, work),
    }
}

pub fn by_engine(input: &mut Input) -> Answer {
    let (book, work) = (input.book.part(), input.work.part_mut());
    let answer = match input.call {
        Call::Check => badolkhup::check(book).map(counts),
        Call::Read => badolkhup::read(book, input.numbers.part_mut()).map(written),
        Call::Write => badolkhup::write(input.plain.part(), input.bytes.part_mut()).map(written),
        Call::FromText => badolkhup::from_text(input.text.part(), input.bytes.part_mut()).map(written),
        Call::ToText => badolkhup::to_text(book, input.bytes.part_mut()).map(written),
        Call::Ask => badolkhup::ask(book, input.choice, input.bytes.part_mut(), work).map(asked),
        Call::Explain => badolkhup::explain(book, input.choice, work).map(explained),
        Call::Round => badolkhup::round(book, input.records.part_mut(), input.count, work).map(listed),
        Call::List => badolkhup::list(book, input.records.part_mut(), input.count, work).map(listed),
    };
    answer.map_err(|refusal| Refusal { number: refusal.number, place: refusal.place })
}

fn counts(counts: badolkhup::Counts) -> Vec<u64> {
    vec![counts.variables.into(), counts.groups.into(), counts.clauses.into()]
}

fn written(count: usize) -> Vec<u64> {
    vec![count as u64]
}

fn asked(asked: badolkhup::Asked) -> Vec<u64> {
    match asked {
        badolkhup::Asked::Consistent => vec![],
        badolkhup::Asked::Contradiction { clause } => vec![clause.into()],
    }
}

fn explained(explained: badolkhup::Explained) -> Vec<u64> {
    match explained {
        badolkhup::Explained::Consistent => vec![],
        badolkhup::Explained::Explanation { groups } => vec![groups.into()],
    }
}

fn listed(listed: badolkhup::Listed) -> Vec<u64> {
    match listed {
        badolkhup::Listed::Complete { records } => vec![records as u64, 1],
        badolkhup::Listed::Stopped { records } => vec![records as u64, 0],
    }
}

/// What the engine answered and left where the twin agrees in both, or the difference.
pub fn compare(engine: Side, input: &Input, tally: &mut Tally) -> Result<(Answer, Input), String> {
    let mut expected = input.clone();
    let answer = by_twin(&mut expected);
    compare_with(engine, input, (answer, expected), tally)
}

/// The same against an answer and spaces that are known.
pub fn compare_with(
    engine: Side,
    input: &Input,
    twin: (Answer, Input),
    tally: &mut Tally,
) -> Result<(Answer, Input), String> {
    let mut left = input.clone();
    let answer = engine(&mut left);
    tally.met(input, &twin.0);
    if answer != twin.0 {
        return Err(format!("{input}  engine {answer:?}\n  twin   {:?}", twin.0));
    }
    match left.difference(&twin.1) {
        Some(difference) => Err(format!("{input}  both {answer:?}\n  {difference}")),
        None => Ok((answer, left)),
    }
}

#[cfg(test)]
mod tests {
    use super::*;
    use crate::books;
    use crate::input::Lent;
    use twin::random::Random;

    /// The engine reads a book as the twin does.
    fn reads_alike(random: &mut Random, tally: &mut Tally, book: &[u8]) {
        let mut input = Input::new(random, Call::Read, book);
        input.numbers = Lent::new(random, &[], 30);
        assert_eq!(compare(by_engine, &input, tally).map(|_| ()), Ok(()));
    }

    /// The engine takes a text as the twin does.
    fn takes_alike(random: &mut Random, tally: &mut Tally, text: &[u8]) {
        let mut input = Input::new(random, Call::FromText, &[]);
        input.text = Lent::of(random, text);
        input.bytes = Lent::new(random, &[], 70);
        assert_eq!(compare(by_engine, &input, tally).map(|_| ()), Ok(()));
    }

    /// Bytes cut at every place, without each byte, and with every value in the place of each byte and before it.
    fn every_edit(bytes: &[u8], alike: fn(&mut Random, &mut Tally, &[u8])) {
        let (mut random, mut tally) = (Random::new(0, 0), Tally::default());
        for at in 0..bytes.len() {
            alike(&mut random, &mut tally, &bytes[..at]);
            alike(&mut random, &mut tally, &[&bytes[..at], &bytes[at + 1..]].concat());
            for value in 0..=255 {
                alike(&mut random, &mut tally, &[&bytes[..at], &[value], &bytes[at + 1..]].concat());
                alike(&mut random, &mut tally, &[&bytes[..at], &[value], &bytes[at..]].concat());
            }
        }
        assert_eq!(tally.calls(), bytes.len() as u64 * 514);
    }

    #[test]
    fn every_edit_of_x() {
        every_edit(&books::x().bytes(), reads_alike);
    }

    #[test]
    fn every_edit_of_x_as_text() {
        every_edit(&books::x().text(), takes_alike);
    }
}
