//! Links the proved archive. EXHASH_LIB names it or its directory, from the repository's root where
//! the path is relative; unset, it is where `make library` writes it.

use std::env;
use std::path::{Path, PathBuf};

const ARCHIVE: &str = "libexhash.a";

fn main() {
    let archive = archive();
    println!("cargo::rerun-if-env-changed=EXHASH_LIB");
    println!("cargo::rerun-if-changed={}", archive.display());
    match (archive.is_file(), archive.parent(), archive.file_name()) {
        (true, Some(directory), Some(name)) => {
            println!("cargo::rustc-link-search=native={}", directory.display());
            println!("cargo::rustc-link-lib=static:+verbatim={}", name.display());
        }
        _ => println!(
            "cargo::error=no archive at {}: run `make library`, or set EXHASH_LIB to it or its directory",
            archive.display()
        ),
    }
}

fn archive() -> PathBuf {
    let here = Path::new(env!("CARGO_MANIFEST_DIR"));
    let repository = here.ancestors().nth(2).expect("this is rust/exhash");
    let Some(named) = env::var_os("EXHASH_LIB") else {
        return repository.join("target/staticlib").join(ARCHIVE);
    };
    let named = repository.join(named);
    if named.is_dir() {
        named.join(ARCHIVE)
    } else {
        named
    }
}
