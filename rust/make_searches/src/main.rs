//! Writes the searches and their answers: `cargo run -p make_searches DIRECTORY`.

use make_searches::{SEED, SMALL, input, output, searches};
use std::io;
use std::path::{Path, PathBuf};
use std::process::ExitCode;

fn write(directory: &Path) -> io::Result<()> {
    let searches = searches(SEED, SMALL);
    std::fs::create_dir_all(directory)?;
    std::fs::write(directory.join("stdin"), input(&searches))?;
    std::fs::write(directory.join("stdout"), output(&searches))
}

fn main() -> ExitCode {
    let Some(directory) = std::env::args_os().nth(1).map(PathBuf::from) else {
        eprintln!("usage: make_searches DIRECTORY");
        return ExitCode::FAILURE;
    };
    match write(&directory) {
        Ok(()) => ExitCode::SUCCESS,
        Err(error) => {
            eprintln!("{}: {error}", directory.display());
            ExitCode::FAILURE
        }
    }
}
