//! The boundary is declared three times, in Rattle, in C and in Rust, and nothing compiles them together: here they are compared, with each other and with
//! what the archive exports.
use std::collections::{BTreeMap, BTreeSet};
use std::process::Command;

const HEADER: &str = include_str!("../../../include/badolkhup.h");
const RATTLE: &str = include_str!("../../../crates/badolkhup/src/lib.rt");
const RUST: &str = include_str!("../src/raw.rs");

/// A function's parameters and result, each a name and a type in Rust's words: `book: *const u8`, `book_len: usize`, `answer: *mut [u64; 4]`.
type Signature = Vec<(String, String)>;
type Signatures = BTreeMap<String, Signature>;

/// The functions in a text: each name that begins with `badolkhup_` and is followed by a bracket, what stands before it on its line, what stands
/// within the brackets, and what follows up to the end of the line.
fn functions(text: &str) -> Vec<(&str, &str, &str, &str)> {
    let names = text.match_indices("badolkhup_").filter_map(|(start, _)| {
        let (name, rest) = text[start..].split_once('(')?;
        let whole = name.chars().all(|c| c.is_ascii_alphanumeric() || c == '_');
        let (within, after) = rest.split_once(')')?;
        let before = text[..start].rsplit('\n').next()?;
        whole.then_some((before.trim(), name, within, after.lines().next().unwrap_or("").trim()))
    });
    names.collect()
}

fn without_comments(text: &str) -> String {
    text.split("/*")
        .enumerate()
        .map(|(index, part)| if index == 0 { part } else { part.split_once("*/").unwrap().1 })
        .collect()
}

fn pair(name: &str, kind: impl Into<String>) -> (String, String) {
    (name.to_owned(), kind.into())
}

/// Of C: `const uint8_t *book`, `size_t book_len`, `uint64_t answer[4]`.
fn of_c(parameter: &str) -> (String, String) {
    let number = |kind: &str| match kind {
        "size_t" => "usize".to_owned(),
        _ => kind.strip_suffix("_t").unwrap_or(kind).replacen("uint", "u", 1).replacen("int", "i", 1),
    };
    let (constness, rest) = match parameter.trim().strip_prefix("const ") {
        Some(rest) => ("const", rest),
        None => ("mut", parameter.trim()),
    };
    let (kind, name) = rest.split_once(' ').unwrap();
    match (name.strip_prefix('*'), name.strip_suffix(']').and_then(|name| name.split_once('['))) {
        (Some(name), _) => pair(name, format!("*{constness} {}", number(kind))),
        (None, Some((name, length))) => pair(name, format!("*{constness} [{}; {length}]", number(kind))),
        (None, None) => pair(name, number(kind)),
    }
}

/// Of Rattle: `book: &[u8]` is a pointer and a length, `answer: &mut [u64; 4]` a pointer, the others are themselves.
fn of_rattle(parameter: &str) -> Signature {
    let (name, kind) = parameter.trim().split_once(": ").unwrap();
    let (constness, lent) = match (kind.strip_prefix("&mut "), kind.strip_prefix('&')) {
        (Some(lent), _) => ("mut", lent),
        (None, Some(lent)) => ("const", lent),
        (None, None) => return vec![pair(name, kind)],
    };
    match lent.strip_prefix('[').and_then(|lent| lent.strip_suffix(']')) {
        Some(element) if !element.contains(';') => {
            vec![pair(name, format!("*{constness} {element}")), pair(&format!("{name}_len"), "usize")]
        }
        _ => vec![pair(name, format!("*{constness} {lent}"))],
    }
}

fn of_rust(parameter: &str) -> (String, String) {
    let (name, kind) = parameter.trim().split_once(": ").unwrap();
    pair(name, kind)
}

fn parameters(within: &str) -> impl Iterator<Item = &str> {
    within.split(',').filter(|parameter| !parameter.trim().is_empty())
}

/// The result, as one more entry: `-> u32` with what may follow it, or C's word before the name.
fn result(kind: &str) -> (String, String) {
    pair("result", kind.trim_start_matches("-> ").trim_end_matches([';', '{', ' ']))
}

fn in_header() -> Signatures {
    let text = without_comments(HEADER);
    let of = |(before, name, within, _): (&str, &str, &str, &str)| {
        (name.to_owned(), parameters(within).map(of_c).chain([result(&of_c(&format!("{before} result")).1)]).collect())
    };
    functions(&text).into_iter().map(of).collect()
}

fn in_rattle() -> Signatures {
    let exported = functions(RATTLE).into_iter().filter(|(before, ..)| *before == "pub extern \"C\" fn");
    exported
        .map(|(_, name, within, after)| {
            (name.to_owned(), parameters(within).flat_map(of_rattle).chain([result(after)]).collect())
        })
        .collect()
}

fn in_rust() -> Signatures {
    let block = RUST.split_once("extern \"C\" {").unwrap().1.split_once("\n}").unwrap().0;
    let of = |(_, name, within, after): (&str, &str, &str, &str)| {
        (name.to_owned(), parameters(within).map(of_rust).chain([result(after)]).collect())
    };
    functions(block).into_iter().map(of).collect()
}

#[test]
fn the_declarations_agree() {
    assert_eq!(in_header().len(), 9);
    assert_eq!(in_header(), in_rattle());
    assert_eq!(in_header(), in_rust());
}

/// The readers above, on what they are there to tell apart.
#[test]
fn declarations_are_read_as_they_stand() {
    assert_eq!(of_c("const int32_t *plain"), pair("plain", "*const i32"));
    assert_eq!(of_c("uint64_t answer[4]"), pair("answer", "*mut [u64; 4]"));
    assert_eq!(of_c("size_t count"), pair("count", "usize"));
    assert_eq!(of_rattle("out: &mut [i32]"), [pair("out", "*mut i32"), pair("out_len", "usize")]);
    assert_eq!(of_rattle("book: &[u8]"), [pair("book", "*const u8"), pair("book_len", "usize")]);
    assert_eq!(of_rattle("answer: &mut [u64; 4]"), [pair("answer", "*mut [u64; 4]")]);
    assert_eq!(of_rattle("choice: u32"), [pair("choice", "u32")]);
}

#[test]
fn the_archive_exports_what_the_header_declares() {
    let run = Command::new("nm").args(["-g", "--defined-only", env!("BADOLKHUP_ARCHIVE")]).output();
    let output = run.expect("nm, of the package binutils, is needed");
    assert!(output.status.success(), "{}", String::from_utf8_lossy(&output.stderr));
    let listed = String::from_utf8(output.stdout).unwrap();
    // A line is an address, a kind (T: code) and a name; the others name the members. No other name is exported, so none can clash with a product's own.
    let symbols: Vec<&str> = listed.lines().filter(|line| line.split(' ').count() == 3).collect();
    let names: BTreeSet<String> =
        symbols.iter().filter_map(|line| line.split_once(" T ")).map(|(_, name)| name.to_owned()).collect();
    assert_eq!(names, in_header().into_keys().collect());
    assert_eq!(names.len(), symbols.len(), "{symbols:?}");
}

#[test]
fn the_constants_agree() {
    let defined = HEADER.lines().filter_map(|line| line.strip_prefix("#define BADOLKHUP_")?.split_once(' '));
    let in_header: BTreeMap<&str, usize> = defined.map(|(name, value)| (name, value.trim().parse().unwrap())).collect();
    let kinds = [("EXPLANATION", badolkhup::EXPLANATION as usize), ("REPAIR", badolkhup::REPAIR as usize)];
    assert_eq!(in_header, BTreeMap::from_iter(kinds.into_iter().chain([("WORK_WORDS", badolkhup::WORK_WORDS)])));
}

#[test]
fn every_refusal_is_documented() {
    let all: Vec<u32> = (1..=14).chain(20..=22).collect();
    let table = HEADER.split_once("REFUSALS.").unwrap().1.split_once("*/").unwrap().0;
    let rows = table.lines().filter_map(|line| line.split_whitespace().next()?.parse::<u32>().ok());
    assert_eq!(rows.collect::<Vec<_>>(), all);
    let rows = include_str!("../src/refusal.rs")
        .lines()
        .filter_map(|line| line.strip_prefix("/// | ")?.split(' ').next()?.parse::<u32>().ok());
    assert_eq!(rows.collect::<Vec<_>>(), all);
}
