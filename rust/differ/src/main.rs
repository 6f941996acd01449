//! The full comparison: `cargo run --release -p differ [SEED]`.

use differ::{Sizes, Tally, compare, errors, outcomes_met};
use std::process::ExitCode;
use std::time::Instant;

const SIZES: Sizes = Sizes {
    commands: 200_000,
    sessions: 2_000,
    large_sessions: 500,
    streams: 20_000,
    stores: 20_000,
    states: 20_000,
    comparisons: 20_000,
    newer_values: 20_000,
};

fn main() -> ExitCode {
    let argument = std::env::args().nth(1);
    let Ok(seed) = argument.as_deref().unwrap_or("1").parse() else {
        eprintln!("usage: differ [SEED]");
        return ExitCode::FAILURE;
    };
    println!("seed {seed}");
    let start = Instant::now();
    let tallies = match compare(seed, &SIZES) {
        Ok(tallies) => tallies,
        Err(failure) => {
            println!("{failure}");
            return ExitCode::FAILURE;
        }
    };
    print_tallies(&tallies);
    for (line, count) in errors(&tallies) {
        println!("{count} replies {line}");
    }
    for ((option, came_to), count) in outcomes_met(&tallies) {
        println!("{count} {option} {came_to}");
        if count == 0 {
            println!("no difference, but this was not met");
            return ExitCode::FAILURE;
        }
    }
    println!("no difference, {:.1} s", start.elapsed().as_secs_f64());
    ExitCode::SUCCESS
}

fn print_tallies(tallies: &[(&str, Tally)]) {
    println!(
        "                 cases  checks    calls refused 1 refused 2 refused 3 refused 11  records   MB alike"
    );
    for (kind, tally) in tallies {
        let Tally {
            cases,
            checks,
            calls,
            records,
            bytes,
            ..
        } = tally;
        let [state, store, short, instant] = [1, 2, 3, 11].map(|number| tally.answered(number));
        let megabytes = bytes / 1_000_000;
        println!(
            "{kind:14} {cases:7} {checks:7} {calls:8} {state:9} {store:9} {short:9} {instant:10} {records:8} {megabytes:10}"
        );
    }
}
