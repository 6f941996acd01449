//! A small comparison, for builds without optimization.

use differ::{Sizes, Tally, compare, errors, outcomes_met};
use model::reply::Refusal;

const SIZES: Sizes = Sizes {
    commands: 20_000,
    sessions: 50,
    large_sessions: 2,
    streams: 1_000,
    stores: 1_000,
    states: 1_000,
    comparisons: 2_000,
    newer_values: 1_000,
};

type Tallies = [(&'static str, Tally)];

#[test]
fn the_library_agrees_with_the_model() {
    let tallies = match compare(3, &SIZES) {
        Ok(tallies) => tallies,
        Err(failure) => panic!("{failure}"),
    };
    assert_all_compared(&tallies);
    for number in [0, 1, 2, 3, 11] {
        let answers = tallies.iter().map(|(_, tally)| tally.answered(number));
        assert!(answers.sum::<u64>() > 0, "{number}");
    }
    assert_eq!(errors(&tallies).len(), Refusal::ALL.len());
    for ((what, came_to), count) in outcomes_met(&tallies) {
        let least = if let "GT" | "VER 0" = what { 20 } else { 0 };
        assert!(count > least, "{count} {what} {came_to}");
    }
}

/// As many cases of each kind as there should be, and as many calls where that is fixed.
fn assert_all_compared(tallies: &Tallies) {
    let cases: Vec<u64> = tallies.iter().map(|(_, tally)| tally.cases).collect();
    let Sizes {
        commands,
        sessions,
        large_sessions,
        streams,
        stores,
        states,
        comparisons,
        newer_values,
    } = SIZES;
    let fed = [commands, sessions, large_sessions, streams, stores, states];
    assert_eq!(cases, [&fed[..], &[comparisons, newer_values]].concat());
    let count = |kind: &str, count: fn(&Tally) -> u64| {
        let (_, tally) = tallies.iter().find(|(name, _)| *name == kind).unwrap();
        count(tally)
    };
    assert_eq!(count("commands", |tally| tally.records), commands);
    assert_eq!(count("stores", |tally| tally.checks), 3 * stores);
    assert_eq!(count("stores", |tally| tally.calls), 3 * stores);
    assert_eq!(count("states", |tally| tally.calls), 2 * states);
    assert_eq!(count("comparisons", |tally| tally.calls), 2 * comparisons);
    assert_eq!(count("newer values", |tally| tally.calls), 6 * newer_values);
}
