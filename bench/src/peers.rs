//! Who lists: the engine, the fast listing of `twin`, and programs outside.

use crate::clock;
use std::collections::BTreeSet;
use std::path::Path;
use std::process::Command;

pub const ROOM: usize = 4096;

/// Seconds that a program outside has for a book: CPU time of the loops over z3 and cadical, wall time of the others. The commands below say the same.
pub const LIMIT: f64 = 60.0;

#[derive(Clone, PartialEq, Eq, Debug)]
pub struct Listing {
    /// Kind (1 explanation, 2 repair) and set.
    pub records: Vec<(u32, u32)>,
    pub complete: bool,
}

/// The spaces that a call is lent; cleared before each run.
pub struct Spaces {
    pub records: Vec<u32>,
    pub work: Vec<u16>,
}

impl Spaces {
    pub fn new() -> Spaces {
        Spaces { records: vec![0; 2 * ROOM], work: vec![0; badolkhup::WORK_WORDS] }
    }

    pub fn clear(&mut self) {
        self.records.fill(0);
        self.work.fill(0);
    }
}

pub fn by_engine(book: &[u8], spaces: &mut Spaces) -> Listing {
    let listed = badolkhup::list(book, &mut spaces.records, 0, &mut spaces.work).expect("the books are accepted");
    let (count, complete) = match listed {
        badolkhup::Listed::Complete { records } => (records, true),
        badolkhup::Listed::Stopped { records } => (records, false),
    };
    Listing { records: spaces.records[..2 * count].chunks(2).map(|pair| (pair[0], pair[1])).collect(), complete }
}

/// Not inlined, and with a name that callgrind can be told.
#[no_mangle]
#[inline(never)]
pub extern "C" fn bench_twin_list(book: &Vec<u8>, listing: &mut Listing) {
    (listing.records, listing.complete) = twin::fast::list(book, ROOM);
}

pub fn by_twin(book: &Vec<u8>) -> Listing {
    let mut listing = Listing { records: Vec::new(), complete: false };
    bench_twin_list(book, &mut listing);
    listing
}

/// A program that lists a book: it prints what the listing program prints, and may add a line `seconds` with the time of its own loop.
pub struct Peer {
    pub name: &'static str,
    /// BOOK and GCNF stand for the book's two files.
    command: &'static [&'static str],
    /// Whether it follows the round rule, so that its records come in the engine's order.
    pub ordered: bool,
    /// Exits with 0 where the peer is installed.
    probe: &'static [&'static str],
}

/// A further one is a line here.
pub const PEERS: [Peer; 5] = [
    Peer {
        name: "z3",
        command: &["/usr/bin/python3", "bench/marco.py", "--limit", "60", "BOOK"],
        ordered: false,
        probe: &["/usr/bin/python3", "-c", "import z3"],
    },
    Peer {
        name: "cadical",
        command: &["target/bench/marco", "BOOK"],
        ordered: false,
        probe: &["test", "-x", "target/bench/marco"],
    },
    Peer {
        name: "clingo",
        command: &["timeout", "60", "/usr/bin/python3", "bench/answer_sets.py", "BOOK"],
        ordered: false,
        probe: &["clingo", "--version"],
    },
    Peer {
        name: "shape",
        command: &["timeout", "60", "target/bench/shape", "--search=ubl", "--prop=lev", "--room=4096", "BOOK"],
        ordered: true,
        probe: &["test", "-x", "target/bench/shape"],
    },
    Peer {
        name: "fast",
        command: &["timeout", "60", "target/bench/fast", "--room=4096", "BOOK"],
        ordered: true,
        probe: &["test", "-x", "target/bench/fast"],
    },
];

/// With this `timeout` exits where the time is up.
const OVER: i32 = 124;

pub enum Ran {
    Listed {
        listing: Listing,
        seconds: f64,
    },
    /// Past the limit, with so many records until then.
    Over {
        records: usize,
    },
}

impl Peer {
    pub fn is_there(&self) -> bool {
        Command::new(self.probe[0]).args(&self.probe[1..]).output().is_ok_and(|output| output.status.success())
    }

    pub fn run(&self, book: &Path) -> Ran {
        let file = |part: &&'static str| match *part {
            "BOOK" => book.display().to_string(),
            "GCNF" => book.with_extension("gcnf").display().to_string(),
            other => other.to_string(),
        };
        let parts: Vec<String> = self.command.iter().map(file).collect();
        let before = clock::children();
        let output = Command::new(&parts[0]).args(&parts[1..]).output().expect("a peer that is there runs");
        let spent = clock::children() - before;
        let text = String::from_utf8_lossy(&output.stdout);
        if output.status.code() == Some(OVER) || text.lines().any(|line| line.starts_with("over ")) {
            let is_record = |line: &&str| line.starts_with("explain ") || line.starts_with("repair ");
            return Ran::Over { records: text.lines().filter(is_record).count() };
        }
        match listing_of(&text) {
            Some(listing) if output.status.success() => {
                Ran::Listed { listing, seconds: own_seconds(&text).unwrap_or(spent) }
            }
            // A peer that breaks down is not one that was slow.
            _ => panic!(
                "{} on {}: {}, neither a listing nor over the limit\n{}",
                self.name,
                book.display(),
                output.status,
                String::from_utf8_lossy(&output.stderr)
            ),
        }
    }
}

fn own_seconds(text: &str) -> Option<f64> {
    text.lines().last()?.strip_prefix("seconds ")?.parse().ok()
}

/// Nothing where neither complete nor stopped is said.
fn listing_of(text: &str) -> Option<Listing> {
    let set = |groups: &str| {
        groups.split(' ').filter_map(|group| group.parse::<u32>().ok()).fold(0, |set, group| set | 1 << (group - 1))
    };
    let mut records = Vec::new();
    for line in text.lines() {
        match line.split_once(' ')? {
            ("explain", groups) => records.push((1, set(groups))),
            ("repair", groups) => records.push((2, set(groups))),
            (end @ ("complete" | "stopped"), count) => {
                return (count.parse() == Ok(records.len())).then_some(Listing { records, complete: end == "complete" })
            }
            _ => {}
        }
    }
    None
}

/// Whether a peer's listing is the engine's. One with an order of its own stops with other records, so that each of these is tried by itself.
pub fn agrees(peer: &Peer, listing: &Listing, engine: &Listing, book: &[u8]) -> bool {
    let sets = |listing: &Listing| listing.records.iter().copied().collect::<BTreeSet<_>>();
    if peer.ordered {
        listing == engine
    } else if engine.complete {
        listing.complete && sets(listing) == sets(engine) && listing.records.len() == engine.records.len()
    } else {
        !listing.complete
            && sets(listing).len() == ROOM
            && listing.records.iter().all(|&record| is_record(book, record))
    }
}

/// An explanation or a repair by its definition.
fn is_record(book: &[u8], (kind, set): (u32, u32)) -> bool {
    let all = u32::MAX.checked_shr(32 - u32::from(u16::from_be_bytes([book[5], book[6]]))).unwrap_or(0);
    let (mut out, mut work) = ([0; badolkhup::VARIABLES], [0; badolkhup::WORK_WORDS]);
    let mut consistent = |choice| badolkhup::ask(book, choice, &mut out, &mut work) == Ok(badolkhup::Asked::Consistent);
    let mut groups = (0..32).map(|group| 1 << group).filter(|group| set & group != 0);
    match kind {
        1 => !consistent(set) && groups.all(|group| consistent(set & !group)),
        _ => consistent(all & !set) && groups.all(|group| !consistent(all & !set | group)),
    }
}

#[cfg(test)]
mod tests {
    use super::*;

    fn run(command: &'static [&'static str]) -> Ran {
        Peer { name: "sham", command, ordered: true, probe: &["true"] }.run(Path::new("some.book"))
    }

    fn over(command: &'static [&'static str]) -> Option<usize> {
        match run(command) {
            Ran::Over { records } => Some(records),
            Ran::Listed { .. } => None,
        }
    }

    #[test]
    fn over_the_limit() {
        assert_eq!(over(&["timeout", "0.2", "sh", "-c", "echo groups 1; echo explain 1; exec sleep 9"]), Some(1));
        assert_eq!(over(&["timeout", "0.2", "sleep", "9"]), Some(0));
        assert_eq!(over(&["printf", "groups 1\nexplain 1\nrepair 1\nover 60\nseconds 60.1\n"]), Some(2));
    }

    #[test]
    fn a_listing() {
        let Ran::Listed { listing, seconds } = run(&["printf", "groups 2\nrepair none\ncomplete 1\nseconds 0.5\n"])
        else {
            panic!("over")
        };
        assert_eq!((listing, seconds), (Listing { records: vec![(2, 0)], complete: true }, 0.5));
    }

    #[test]
    fn a_breakdown_is_told() {
        let commands: [&[&str]; 4] = [
            &["sh", "-c", "echo groups 1; echo explain 1; echo out of luck >&2; exit 1"],
            &["sh", "-c", "echo groups 1; echo out of luck >&2; kill -9 $$"],
            &["sh", "-c", "echo repair none; echo complete 1; echo out of luck >&2; exit 3"],
            &["sh", "-c", "echo repair none; echo complete 2; echo out of luck >&2"],
        ];
        for command in commands {
            let stopped = std::panic::catch_unwind(|| over(command));
            let text = *stopped.expect_err("a breakdown passed").downcast::<String>().unwrap();
            assert!(["sham", "some.book", "out of luck"].iter().all(|part| text.contains(part)), "{text}");
        }
    }
}
