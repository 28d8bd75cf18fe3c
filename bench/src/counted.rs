//! Instructions, counted by callgrind: the same at every run.

use crate::books::Family;
use crate::calls::{wide, SIZES};
use crate::peers::{by_engine, by_twin, Spaces};
use crate::table::{ratio, short, target, thousands, Table};
use std::fs;
use std::path::Path;
use std::process::Command;

pub const CALLS: [&str; 5] = ["list", "twin", "ask", "check", "read"];

/// One of `CALLS`, alone, for callgrind.
pub fn once(call: &str, book: &Vec<u8>) -> bool {
    let mut spaces = Spaces::new();
    let mut out = vec![0; badolkhup::BOOK_BYTES];
    let mut plain = vec![0; badolkhup::BOOK_BYTES];
    match call {
        "list" => println!("{}", by_engine(book, &mut spaces).records.len()),
        "twin" => println!("{}", by_twin(book).records.len()),
        "ask" => println!("{:?}", badolkhup::ask(book, u32::MAX, &mut out, &mut spaces.work)),
        "check" => println!("{:?}", badolkhup::check(book)),
        _ => println!("{:?}", badolkhup::read(book, &mut plain)),
    }
    true
}

/// A count that takes longer is left out, in seconds.
const LIMIT: &str = "900";
const PROFILE: &str = "target/bench/callgrind.out";

/// Instructions inside one function of a program and what it calls; nothing past the limit.
fn instructions(function: &str, command: &[&str]) -> Option<f64> {
    let toggle = format!("--toggle-collect={function}");
    let file = format!("--callgrind-out-file={PROFILE}");
    let valgrind = ["timeout", LIMIT, "valgrind", "--tool=callgrind", &toggle, &file];
    let output = Command::new(valgrind[0]).args(&valgrind[1..]).args(command).output().expect("timeout is there");
    let said = String::from_utf8_lossy(&output.stderr).into_owned();
    let count = said.lines().find_map(|line| line.split_once("Collected : "))?.1.trim().parse().ok()?;
    assert!(count > 0.0, "callgrind counted nothing in {function}: {command:?}");
    output.status.success().then_some(count)
}

/// What is counted, and the command before the book.
fn columns(own: &str) -> Vec<(&'static str, &'static str, Vec<String>)> {
    let words = |line: &str| line.split(' ').map(str::to_string).collect::<Vec<_>>();
    let mut columns = vec![
        ("engine", "badolkhup_list", words(&format!("{own} list"))),
        ("twin", "bench_twin_list", words(&format!("{own} twin"))),
    ];
    if Path::new("target/bench/shape").exists() {
        columns.push(("shape", "main", words("target/bench/shape --search=ubl --prop=lev --room=4096 --quiet")));
        columns.push(("fast", "main", words("target/bench/fast_plain --room=4096 --quiet")));
    }
    columns
}

pub fn run(families: &[Family]) -> bool {
    let own = std::env::current_exe().expect("this program has a path").display().to_string();
    println!("Millions of instructions. Of the engine: inside `badolkhup_list`. Of twin: inside its listing. Of shape and fast: inside `main`, which reads the book and prints nothing.\n");
    let columns = columns(&own);
    let (mut by_shape, mut by_fast) = (Vec::new(), Vec::new());
    for family in families {
        println!("**{}**\n", family.name);
        for (book, ratios) in listings(family, &columns) {
            let against = |name| columns.iter().position(|column| column.0 == name).map(|at| ratios[at]);
            by_shape.extend(against("shape").map(|ratio| (book.clone(), ratio)));
            by_fast.extend(against("fast").filter(|_| family.name == "yard").map(|ratio| (book.clone(), ratio)));
        }
    }
    let (close, others): (Vec<_>, Vec<_>) = by_fast.into_iter().partition(|(book, _)| CLOSE.contains(&book.as_str()));
    target("at most 1.5 times the instructions of shape", &by_shape, |ratio| ratio <= 1.5);
    target("at most 3 times those of fast, on yard's pin up to 200 records and tax", &close, |ratio| ratio <= 3.0);
    target("at most 10 times those of fast, on the other books of yard", &others, |ratio| ratio <= 10.0);
    asking(&own);
    bytes_calls(&own);
    true
}

/// The books of yard that a closer target is about.
const CLOSE: [&str; 6] = [
    "yard-pin-8-3x3x2",
    "yard-pin-24-4x6x2",
    "yard-pin-32-4x6x2",
    "yard-tax-16-4x15",
    "yard-tax-24-8x20",
    "yard-tax-32-16x25",
];

/// Of each book: the engine's instructions by those of each column, where both were counted.
fn listings(family: &Family, columns: &[(&str, &str, Vec<String>)]) -> Vec<(String, Vec<Option<f64>>)> {
    let names: Vec<&str> = columns.iter().map(|column| column.0).collect();
    let ratios: Vec<String> = names[1..].iter().map(|name| format!("engine ÷ {name}")).collect();
    let head: Vec<&str> =
        ["Book", "growth"].into_iter().chain(names.iter().copied()).chain(ratios.iter().map(String::as_str)).collect();
    let mut table = Table::new(&head);
    let (mut last, mut profile, mut all) = (None, String::new(), Vec::new());
    for book in &family.books {
        let file = format!("target/bench/books/{}.book", book.name);
        let mut counts = Vec::new();
        for (name, function, command) in columns {
            let parts: Vec<&str> = command.iter().map(String::as_str).chain([file.as_str()]).collect();
            counts.push(instructions(function, &parts));
            if *name == "engine" && counts[0].is_some() {
                profile = by_function(&book.name);
            }
        }
        let mut row = vec![book.name.clone(), ratio(counts[0], last.filter(|_| family.doubling))];
        row.extend(counts.iter().map(|count| count.map_or("not counted".to_string(), |count| short(count / 1e6))));
        row.extend(counts[1..].iter().map(|&count| ratio(counts[0], count)));
        table.row(&row);
        last = counts[0];
        let by = |count: &Option<f64>| last.zip(*count).map(|(engine, other)| engine / other);
        all.push((book.name.clone(), counts.iter().map(by).collect()));
    }
    table.print();
    println!("{profile}");
    all
}

/// Where the engine's instructions go, from the profile that was written last: the share of each function by itself.
fn by_function(book: &str) -> String {
    let output =
        Command::new("callgrind_annotate").args(["--auto=no", PROFILE]).output().expect("callgrind_annotate is there");
    let mut shares: Vec<(String, f64)> = Vec::new();
    for (function, share) in String::from_utf8_lossy(&output.stdout).lines().filter_map(share) {
        match shares.iter_mut().find(|known| known.0 == function) {
            Some(known) => known.1 += share,
            None => shares.push((function, share)),
        }
    }
    let shown: Vec<String> = shares
        .iter()
        .filter(|(_, share)| *share >= 0.5)
        .map(|(function, share)| format!("`{function}` {share:.1}%"))
        .collect();
    format!("The engine's instructions in {book}, by the function itself: {}.\n", shown.join(", "))
}

/// A function and its share, from a line like `1,234 (56.78%)  ???:seek::search'2 [/path]`. Calls of a function by itself have a mark, which is taken off.
fn share(line: &str) -> Option<(String, f64)> {
    let (count, rest) = line.trim().split_once(" (")?;
    count.replace(',', "").parse::<u64>().ok()?;
    let (share, rest) = rest.split_once("%)")?;
    let function = rest.trim().split_once(':')?.1.split(" [").next()?.split('\'').next()?;
    Some((function.to_string(), share.trim().parse().ok()?))
}

fn asking(own: &str) {
    println!("Asking about all groups of a chain; thousands of instructions inside `badolkhup_ask`, growth for each doubling.\n");
    let mut table = Table::new(&["Clauses", "rising", "growth", "falling", "growth"]);
    let mut last = [None; 2];
    for size in SIZES {
        let mut row = vec![thousands(size as u64)];
        for (order, last) in ["rising", "falling"].iter().zip(&mut last) {
            let count =
                instructions("badolkhup_ask", &[own, "ask", &format!("target/bench/books/{order}-{size}.book")]);
            row.extend([count.map_or(String::new(), |count| short(count / 1e3)), ratio(count, *last)]);
            *last = count;
        }
        table.row(&row);
    }
    table.print();
}

fn bytes_calls(own: &str) {
    println!("Checking and reading; thousands of instructions inside the call, growth for each doubling.\n");
    let mut table = Table::new(&["Clauses", "check", "growth", "read", "growth"]);
    let mut last = [None; 2];
    for size in [256, 512, 1024, 2048] {
        let file = format!("target/bench/books/wide-{size}.book");
        fs::write(&file, wide(size).bytes()).expect("a book can be written");
        let mut row = vec![thousands(size as u64)];
        for (call, last) in ["check", "read"].iter().zip(&mut last) {
            let count = instructions(&format!("badolkhup_{call}"), &[own, call, &file]);
            row.extend([count.map_or(String::new(), |count| short(count / 1e3)), ratio(count, *last)]);
            *last = count;
        }
        table.row(&row);
    }
    table.print();
}
