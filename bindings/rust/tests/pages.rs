//! Programs in C that a reader may copy, examples/list.c and those of docs/INTEGRATING.md, are compiled, run and compared. The page's Rust code is run
//! with the doc tests.
use std::path::{Path, PathBuf};
use std::process::{Command, Output};

const ROOT: &str = concat!(env!("CARGO_MANIFEST_DIR"), "/../..");

/// Compiles a program as the page says, with every warning an error, and gives its path.
fn compiled(source: &Path, name: &str) -> PathBuf {
    let program = Path::new(env!("CARGO_TARGET_TMPDIR")).join(name);
    let words = ["-std=c99", "-pedantic", "-Wall", "-Wextra", "-Werror", "-O2"];
    let include = format!("-I{ROOT}/include");
    let run = Command::new("cc")
        .args(words)
        .arg(include)
        .arg(source)
        .arg(env!("BADOLKHUP_ARCHIVE"))
        .arg("-o")
        .arg(&program)
        .output();
    let output = run.expect("cc, of the package gcc, is needed");
    assert!(output.status.success(), "{}", String::from_utf8_lossy(&output.stderr));
    program
}

fn run(program: &Path, argument: Option<&str>) -> Output {
    Command::new(program).args(argument).current_dir(ROOT).output().unwrap()
}

fn printed(output: &Output) -> &str {
    std::str::from_utf8(&output.stdout).unwrap()
}

#[test]
fn the_example_lists_book_x() {
    let program = compiled(&Path::new(ROOT).join("examples/list.c"), "list");
    // What the listing program prints of Book X, as document 01 has it.
    let lines = std::fs::read_to_string(format!("{ROOT}/crates/lister/stdout")).unwrap();
    assert_eq!(lines.lines().count(), 9);
    for argument in [None, Some("examples/x.book")] {
        let output = run(&program, argument);
        assert_eq!((output.status.code(), printed(&output)), (Some(0), &lines[..]));
    }
    let output = run(&program, Some("examples/x.plain"));
    assert_eq!((output.status.code(), printed(&output)), (Some(1), "refused 2 0\n"));
}

/// The blocks of a page in order: language and text.
fn blocks(page: &str) -> Vec<(&str, &str)> {
    let fenced = page.split("```").skip(1).step_by(2);
    fenced.map(|block| block.split_once('\n').unwrap()).collect()
}

/// Each program in C is followed by a block of what it prints.
#[test]
fn the_page_is_run() {
    let page = std::fs::read_to_string(format!("{ROOT}/docs/INTEGRATING.md")).unwrap();
    let blocks = blocks(&page);
    let programs: Vec<usize> = (0..blocks.len()).filter(|&index| blocks[index].0 == "c").collect();
    assert!(!programs.is_empty());
    for index in programs {
        let source = Path::new(env!("CARGO_TARGET_TMPDIR")).join(format!("page-{index}.c"));
        std::fs::write(&source, blocks[index].1).unwrap();
        let output = run(&compiled(&source, &format!("page-{index}")), None);
        assert!(output.status.success());
        assert_eq!(("text", printed(&output)), blocks[index + 1]);
    }
}
