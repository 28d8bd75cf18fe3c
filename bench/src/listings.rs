//! Listings timed beside each other, and compared as they are timed.

use crate::books::{Family, Named};
use crate::clock;
use crate::peers::{agrees, by_engine, by_twin, Listing, Peer, Ran, Spaces, LIMIT, PEERS};
use crate::table::{ratio, short, target, thousands, Table};
use std::path::Path;

/// What was measured of one book.
struct Measured {
    row: Vec<String>,
    seconds: f64,
    /// Whether every listing was the engine's.
    agreed: bool,
    name: String,
    listing: Listing,
    /// How many times longer each peer takes, where that can be told.
    ratios: Vec<(&'static str, Option<f64>)>,
}

/// One table for each family. True where every listing was the engine's.
pub fn run(families: &[Family], folder: &Path) -> bool {
    let (peers, missing): (Vec<&Peer>, Vec<&Peer>) = PEERS.iter().partition(|peer| peer.is_there());
    for peer in missing {
        println!("{} is not installed here and is left out.\n", peer.name);
    }
    let (mut all, mut yard) = (Vec::new(), Vec::new());
    for family in families {
        println!("**{}**: {}.\n", family.name, family.about);
        let measured = table(family, &peers, folder);
        if family.name == "yard" {
            yard.extend(measured);
        } else {
            all.extend(measured);
        }
    }
    for name in ["cadical", "clingo"] {
        let about = format!("faster than {name} on every book of yard that completes");
        target(&about, &ratios(yard.iter().filter(|book| book.listing.complete), name), |ratio| ratio > 1.0);
    }
    all.extend(yard);
    let long = all.iter().filter(|book| book.listing.records.len() >= 100);
    target(
        "at least 50 times faster than the z3 loop on books of 100 to 4,096 records",
        &ratios(long, "z3"),
        |ratio| ratio >= 50.0,
    );
    all.iter().all(|book| book.agreed)
}

fn ratios<'a>(books: impl Iterator<Item = &'a Measured>, peer: &str) -> Vec<(String, Option<f64>)> {
    let of =
        |book: &Measured| book.ratios.iter().find(|ratio| ratio.0 == peer).map(|ratio| (book.name.clone(), ratio.1));
    books.filter_map(of).collect()
}

fn table(family: &Family, peers: &[&Peer], folder: &Path) -> Vec<Measured> {
    let columns: Vec<String> =
        peers.iter().flat_map(|peer| [format!("{}, s", peer.name), format!("{} ÷ engine", peer.name)]).collect();
    let mut head =
        vec!["Book", "Clauses", "Records", "engine, s", "records a second", "growth", "twin, s", "twin ÷ engine"];
    head.extend(columns.iter().map(String::as_str));
    let mut table = Table::new(&head);
    let mut all: Vec<Measured> = Vec::new();
    for book in &family.books {
        let last = all.last().filter(|_| family.doubling).map(|last| last.seconds);
        let measured = measured(book, last, peers, folder);
        table.row(&measured.row);
        all.push(measured);
    }
    table.print();
    all
}

fn measured(named: &Named, last: Option<f64>, peers: &[&Peer], folder: &Path) -> Measured {
    let (name, bytes) = (&named.name, named.book.bytes());
    let (engine, seconds) = clock::smallest(&mut Spaces::new(), Spaces::clear, |spaces| by_engine(&bytes, spaces));
    let (listing, twin) = clock::smallest(&mut (), |()| (), |()| by_twin(&bytes));
    let mut row = opening(named, &engine, seconds, last);
    row.extend([short(twin), short(twin / seconds)]);
    let agreed = said(name, "twin", listing == engine);
    let count = engine.records.len();
    let mut measured = Measured { row, seconds, agreed, name: name.clone(), listing: engine, ratios: Vec::new() };
    for peer in peers {
        let (time, ratio) = match peer.run(&folder.join(format!("{name}.book"))) {
            Ran::Over { records } => (
                format!("over {LIMIT}, {} records", thousands(records as u64)),
                (records > 0).then(|| LIMIT / records as f64 / (seconds / count as f64)),
            ),
            Ran::Listed { listing, seconds: spent } => {
                measured.agreed &= said(name, peer.name, agrees(peer, &listing, &measured.listing, &bytes));
                (short(spent), Some(spent / seconds))
            }
        };
        measured.row.extend([time, ratio.map_or(String::new(), short)]);
        measured.ratios.push((peer.name, ratio));
    }
    measured
}

fn opening(Named { name, book }: &Named, engine: &Listing, seconds: f64, last: Option<f64>) -> Vec<String> {
    let count = engine.records.len();
    let stopped = if engine.complete { "" } else { " stopped" };
    vec![
        name.clone(),
        thousands(book.clauses.len() as u64),
        format!("{}{stopped}", thousands(count as u64)),
        short(seconds),
        thousands((count as f64 / seconds) as u64),
        ratio(Some(seconds), last),
    ]
}

/// Says it where a listing is not the engine's.
fn said(book: &str, name: &str, agreed: bool) -> bool {
    if !agreed {
        eprintln!("{book}: the listing of {name} differs from the engine's");
    }
    agreed
}
