//! Links libbadolkhup.a, which `bash tools/build badolkhup` writes.
use std::env;
use std::path::PathBuf;

const ARCHIVE: &str = "libbadolkhup.a";

fn main() {
    let folder = match env::var_os("BADOLKHUP_LIB_DIR") {
        Some(folder) => PathBuf::from(folder),
        None => PathBuf::from(env!("CARGO_MANIFEST_DIR")).join("../../target/staticlib"),
    };
    let archive = folder.join(ARCHIVE);
    println!("cargo::rerun-if-env-changed=BADOLKHUP_LIB_DIR");
    println!("cargo::rerun-if-changed={}", archive.display());
    assert!(
        archive.is_file(),
        "{} is not there. Build it with `bash tools/build badolkhup` at the root of the repository, \
         or set BADOLKHUP_LIB_DIR to the folder that holds {ARCHIVE}.",
        archive.display()
    );
    // The linker runs in another folder than this program.
    let folder = folder.canonicalize().expect("the folder of the archive has a path");
    println!("cargo::rustc-link-search=native={}", folder.display());
    println!("cargo::rustc-link-lib=static=badolkhup");
    // The tests link examples in C against the same archive, and compare its symbols with the header.
    println!("cargo::rustc-env=BADOLKHUP_ARCHIVE={}", folder.join(ARCHIVE).display());
}
