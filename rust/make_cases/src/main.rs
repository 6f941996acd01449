//! Writes the cases to a file: `cargo run -p make_cases FILE`.

use make_cases::{CASES, SEED, bytes, cases};
use std::process::ExitCode;

fn main() -> ExitCode {
    let Some(file) = std::env::args_os().nth(1) else {
        eprintln!("usage: make_cases FILE");
        return ExitCode::FAILURE;
    };
    match std::fs::write(&file, bytes(&cases(SEED, CASES))) {
        Ok(()) => ExitCode::SUCCESS,
        Err(error) => {
            eprintln!("{}: {error}", file.display());
            ExitCode::FAILURE
        }
    }
}
