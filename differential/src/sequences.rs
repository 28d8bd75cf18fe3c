//! Several calls of one book that must fit together, each also compared with the twin: demands 2 and 3 of the request on the engine's own answers.
use crate::books;
use crate::input::{Call, Input, Lent};
use crate::sides::{compare, Side};
use crate::tally::Tally;
use crate::texts;
use twin::book::{Book, Clause};
use twin::calls::WORK_WORDS;
use twin::definitions::Defined;
use twin::random::Random;
use twin::rounds::{EXPLANATION, REPAIR};

/// What every step of a sequence takes.
pub struct Steps<'a> {
    pub engine: Side,
    pub random: &'a mut Random,
    pub tally: &'a mut Tally,
}

/// Words of records, how many they are, and whether they are all.
struct Listing {
    words: Vec<u32>,
    count: usize,
    complete: bool,
}

impl Listing {
    fn written(&self) -> &[u32] {
        &self.words[..2 * self.count]
    }

    /// The listed sets of a kind, in rising order.
    fn sets(&self, kind: u32) -> Vec<u32> {
        let listed = self.written().chunks(2);
        let mut sets: Vec<u32> = listed.filter(|record| record[0] == kind).map(|record| record[1]).collect();
        sets.sort_unstable();
        sets
    }
}

/// Every listing of a book with few groups fits in this room.
const ROOM: usize = 2_000;

fn holds(condition: bool, what: &str) -> Result<(), String> {
    if condition {
        Ok(())
    } else {
        Err(format!("  {what}"))
    }
}

/// Demand 2: complete, with exactly the sets of the definitions, each once.
fn as_defined(book: &Book, whole: &Listing) -> Result<(), String> {
    let defined = Defined::of(book);
    holds(whole.complete, "a listing with room to spare is not complete")?;
    holds(
        whole.sets(EXPLANATION) == defined.explanations,
        "a complete listing does not hold the explanations of the definition",
    )?;
    holds(whole.sets(REPAIR) == defined.repairs, "a complete listing does not hold the repairs of the definition")
}

/// Demand 3: in less room a listing is a beginning, stops only at a full room, and is complete only with everything there.
fn begins(less: &Listing, room: usize, whole: &Listing) -> Result<(), String> {
    holds(less.count == room.min(whole.count), "a listing stops before its room is full")?;
    holds(less.complete == (room >= whole.count), "complete is not said exactly when everything is there")?;
    holds(
        less.written() == &whole.written()[..2 * less.count],
        "a listing in more room does not begin with what it wrote in less",
    )
}

/// Demand 3, of a book that gains one group, numbered last, and clauses of that group: its four parts.
fn grown(old: &Listing, new: &Listing, added: u32) -> Result<(), String> {
    let without: Vec<u32> = new.sets(EXPLANATION).into_iter().filter(|set| set & added == 0).collect();
    holds(without == old.sets(EXPLANATION), "the explanations without the new group are not the old ones")?;
    let (old, new) = (old.sets(REPAIR), new.sets(REPAIR));
    for set in &old {
        let (stands, gains) = (new.contains(set), new.contains(&(set | added)));
        holds(stands || gains, "an old repair stands neither as it was nor with the new group")?;
        holds(!(stands && gains), "an old repair stands both as it was and with the new group")?;
    }
    let from_old = |set: &u32| set & added == 0 || old.contains(&(set & !added));
    holds(new.iter().all(from_old), "a repair with the new group is no old one plus it")
}

impl Steps<'_> {
    /// One sequence of any kind.
    pub fn any(&mut self) -> Result<(), String> {
        match self.random.below(9) {
            0..2 => self.inverses(),
            2 => self.texts(),
            3..6 => self.whole_listing(),
            _ => self.growth(),
        }
    }

    fn call(&mut self, call: Call, book: &Book, words: &[u32], room: usize, count: usize) -> Result<Listing, String> {
        let mut input = Input::new(self.random, call, &book.bytes());
        input.records = Lent::new(self.random, words, 2 * room);
        input.work = Lent::new(self.random, &[], WORK_WORDS);
        input.count = count;
        let (answer, left) = compare(self.engine, &input, self.tally)?;
        let values = answer.map_err(|refusal| format!("{input}  a right call is refused: {refusal:?}"))?;
        Ok(Listing { words: left.records.part().to_vec(), count: values[0] as usize, complete: values[1] == 1 })
    }

    /// Writing what was read gives the book, and reading what was written gives the plain form.
    fn inverses(&mut self) -> Result<(), String> {
        let book = books::any(self.random);
        let mut input = Input::new(self.random, Call::Read, &book.bytes());
        input.numbers = Lent::new(self.random, &[], book.plain().len());
        let (_, read) = compare(self.engine, &input, self.tally)?;
        let mut input = Input::new(self.random, Call::Write, &[]);
        input.plain = Lent::of(self.random, read.numbers.part());
        input.bytes = Lent::new(self.random, &[], book.bytes().len());
        let (_, written) = compare(self.engine, &input, self.tally)?;
        holds(written.bytes.part() == book.bytes(), "written back from what was read it is another book")?;
        let mut input = Input::new(self.random, Call::Read, written.bytes.part());
        input.numbers = Lent::new(self.random, &[], book.plain().len());
        let (_, again) = compare(self.engine, &input, self.tally)?;
        holds(again.numbers.part() == read.numbers.part(), "read again it is another plain form")
    }

    /// Text to book to text to book: the same book both times, and the text that is written is taken as it stands.
    fn texts(&mut self) -> Result<(), String> {
        let book = books::any(self.random);
        let text = texts::any(self.random, &book);
        let first = self.taken(&text, book.bytes().len())?;
        holds(first == book.bytes(), "a text of a book becomes another book")?;
        let mut input = Input::new(self.random, Call::ToText, &first);
        input.bytes = Lent::new(self.random, &[], book.text().len());
        let (_, written) = compare(self.engine, &input, self.tally)?;
        let again = self.taken(written.bytes.part(), first.len())?;
        holds(again == first, "text to book to text to book ends with another book")
    }

    /// What a text becomes in so much room.
    fn taken(&mut self, text: &[u8], room: usize) -> Result<Vec<u8>, String> {
        let mut input = Input::new(self.random, Call::FromText, &[]);
        input.text = Lent::of(self.random, text);
        input.bytes = Lent::new(self.random, &[], room);
        let (_, taken) = compare(self.engine, &input, self.tally)?;
        Ok(taken.bytes.part().to_vec())
    }

    /// A listing begun empty is as defined, and comes out the same in less room and by rounds.
    fn whole_listing(&mut self) -> Result<(), String> {
        let book = self.listed_book();
        let whole = self.call(Call::List, &book, &[], ROOM, 0)?;
        let room = self.random.below(whole.count + 2);
        let less = self.call(Call::List, &book, &[], room, 0)?;
        let on = self.call(Call::List, &book, less.written(), ROOM, less.count)?;
        let fits = as_defined(&book, &whole).and_then(|()| begins(&less, room, &whole)).and_then(|()| {
            holds(on.complete && on.written() == whole.written(), "a listing that goes on ends elsewhere")
        });
        fits.map_err(|what| of_books(&what, &[&book]))?;
        self.by_rounds(&book, &whole).map_err(|what| of_books(&what, &[&book]))
    }

    /// Round by round, beginning somewhere in the listing, the same records come.
    fn by_rounds(&mut self, book: &Book, whole: &Listing) -> Result<(), String> {
        let first = if whole.count < 40 { 0 } else { self.random.between(whole.count - 40, whole.count) };
        let mut words = whole.words[..2 * first].to_vec();
        for count in first..whole.count {
            let next = self.call(Call::Round, book, &words, count + 1, count)?;
            begins(&next, count + 1, whole)?;
            words = next.words;
        }
        Ok(())
    }

    /// Few groups, so that one more can be added and all choices tried.
    fn listed_book(&mut self) -> Book {
        loop {
            let book = books::few(self.random);
            if book.groups <= 9 {
                return book;
            }
        }
    }

    /// A book gains one group, numbered last, and clauses of that group.
    fn growth(&mut self) -> Result<(), String> {
        let old_book = self.listed_book();
        let mut book = Book { groups: old_book.groups + 1, ..old_book.clone() };
        let from = self.listed_book().clauses;
        for clause in from.into_iter().take(self.random.below(5)) {
            let fits = clause.head <= book.variables && clause.body.iter().all(|variable| *variable <= book.variables);
            if fits {
                let at = self.random.below(book.clauses.len() + 1);
                book.clauses.insert(at, Clause { group: book.groups, ..clause });
            }
        }
        let old = self.call(Call::List, &old_book, &[], ROOM, 0)?;
        let new = self.call(Call::List, &book, &[], ROOM, 0)?;
        grown(&old, &new, 1 << old_book.groups).map_err(|what| of_books(&what, &[&old_book, &book]))
    }
}

/// What does not hold, with the books it is about.
fn of_books(what: &str, books: &[&Book]) -> String {
    let hex = |book: &&Book| book.bytes().iter().map(|byte| format!(" {byte:02x}")).collect::<String>();
    books.iter().fold(what.to_string(), |text, book| format!("{text}\n  book:{}", hex(book)))
}

#[cfg(test)]
mod tests {
    use super::*;

    fn listing(records: &[(u32, u32)]) -> Listing {
        let words = records.iter().flat_map(|record| [record.0, record.1]).collect();
        Listing { words, count: records.len(), complete: true }
    }

    /// Book X, its listing, and the listing without group 5.
    fn x() -> (Book, Listing, Listing) {
        let whole = listing(&[(1, 3), (1, 12), (2, 5), (1, 25), (2, 9), (2, 10), (2, 22)]);
        let without_5 = listing(&[(1, 3), (1, 12), (2, 5), (2, 6), (2, 9), (2, 10)]);
        (books::x(), whole, without_5)
    }

    #[test]
    fn definitions_are_held_to() {
        let (book, whole, without_5) = x();
        assert_eq!(as_defined(&book, &whole), Ok(()));
        assert!(as_defined(&book, &without_5).is_err());
        let twice: Vec<(u32, u32)> =
            whole.words.chunks(2).map(|record| (record[0], record[1])).chain([(2, 5)]).collect();
        assert!(as_defined(&book, &listing(&twice)).is_err());
        assert!(as_defined(&book, &Listing { complete: false, ..whole }).is_err());
    }

    #[test]
    fn beginnings_are_held_to() {
        let (_, whole, _) = x();
        let less = |records: &[(u32, u32)], complete: bool| Listing { complete, ..listing(records) };
        assert_eq!(begins(&less(&[(1, 3), (1, 12)], false), 2, &whole), Ok(()));
        assert!(begins(&less(&[(1, 3), (1, 12)], true), 2, &whole).is_err());
        assert!(begins(&less(&[(1, 3), (1, 12)], false), 3, &whole).is_err());
        assert!(begins(&less(&[(1, 3), (1, 25)], false), 2, &whole).is_err());
    }

    #[test]
    fn growth_is_held_to() {
        let (_, whole, without_5) = x();
        assert_eq!(grown(&without_5, &whole, 16), Ok(()));
        let explanations = [(1, 3), (1, 12), (1, 25)];
        let with = |repairs: &[(u32, u32)]| grown(&without_5, &listing(&[&explanations, repairs].concat()), 16);
        assert_eq!(with(&[(2, 5), (2, 9), (2, 10), (2, 22)]), Ok(()));
        assert!(with(&[(2, 5), (2, 9), (2, 10)]).is_err());
        assert!(with(&[(2, 5), (2, 9), (2, 10), (2, 22), (2, 6)]).is_err());
        assert!(with(&[(2, 5), (2, 9), (2, 10), (2, 22), (2, 16)]).is_err());
        assert!(grown(&without_5, &listing(&[(1, 3), (2, 5), (2, 9), (2, 10), (2, 22)]), 16).is_err());
    }
}
