//! Times the engine beside other ways to make the same listings, and compares what they list. `bash bench/run` builds and runs it; it is run at the
//! root of the repository.

mod books;
mod calls;
mod clock;
mod counted;
mod listings;
mod peers;
mod table;

use books::Family;
use std::path::{Path, PathBuf};
use std::process::exit;
use std::{env, fs};

const USAGE: &str = "usage: bench times|instructions [FAMILY...], bench list|twin|ask|check|read BOOK";
const YARDSTICKS: &str = "../shared/yardsticks/books";

fn main() {
    let arguments: Vec<String> = env::args().skip(1).collect();
    let right = match arguments.iter().map(String::as_str).collect::<Vec<_>>()[..] {
        ["times", ref names @ ..] => times(&made(names)),
        ["instructions", ref names @ ..] => counted::run(&made(names)),
        [call, book] if counted::CALLS.contains(&call) => {
            counted::once(call, &fs::read(book).unwrap_or_else(|error| panic!("{book}: {error}")))
        }
        _ => refused(),
    };
    exit(i32::from(!right));
}

fn refused() -> ! {
    eprintln!("{USAGE}");
    exit(2)
}

/// True where every listing was the engine's.
fn times(families: &[Family]) -> bool {
    let right = listings::run(families, &folder());
    calls::asking();
    calls::bytes_calls();
    calls::text_calls();
    right
}

fn folder() -> PathBuf {
    Path::new("target/bench/books").to_path_buf()
}

/// The families of these names, or all; those of the yardsticks too where they are there. All books are written into `folder`.
fn made(names: &[&str]) -> Vec<Family> {
    let mut families = books::families();
    families.extend(yardsticks());
    let known: Vec<&str> = families.iter().map(|family| family.name).collect();
    if let Some(name) = names.iter().find(|name| !known.contains(name)) {
        eprintln!("there is no family {name}; there are {}", known.join(", "));
        refused();
    }
    fs::create_dir_all(folder()).expect("target/bench/books can be made");
    for book in families.iter().flat_map(|family| &family.books) {
        let file = folder().join(&book.name);
        fs::write(file.with_extension("book"), book.book.bytes()).expect("a book can be written");
        fs::write(file.with_extension("gcnf"), book.text()).expect("a text can be written");
    }
    families.retain(|family| names.is_empty() || names.contains(&family.name));
    families
}

fn yardsticks() -> Option<Family> {
    let mut files: Vec<PathBuf> = fs::read_dir(YARDSTICKS).ok()?.filter_map(|entry| Some(entry.ok()?.path())).collect();
    files.retain(|file| file.extension().is_some_and(|extension| extension == "book"));
    files.sort_by_key(|file| fs::metadata(file).map_or(0, |data| data.len()));
    let read =
        |file: &PathBuf| Some(books::read(&format!("yard-{}", file.file_stem()?.to_str()?), &fs::read(file).ok()?));
    Some(Family {
        name: "yard",
        about: "the books of ../shared/yardsticks, by length",
        doubling: false,
        books: files.iter().filter_map(read).collect(),
    })
}
