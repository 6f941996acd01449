//! The proved library and the model side by side: the same calls on the same bytes, and every
//! number, state, store and reply buffer compared.

#![forbid(unsafe_code)]

mod kinds;
mod outcomes;
mod pair;
mod side_by_side;
mod side_outcomes;

use generate::{Generator, Random};
use kinds::Kind;
use outcomes::OUTCOMES;
use pair::Pair;
use side_outcomes::SIDE_OUTCOMES;
use std::fmt;

pub use outcomes::Outcome;
pub use pair::Tally;

/// How many cases of each kind.
#[derive(Clone, Copy, Debug)]
pub struct Sizes {
    pub commands: u64,
    pub sessions: u64,
    pub large_sessions: u64,
    pub streams: u64,
    pub stores: u64,
    pub states: u64,
    pub comparisons: u64,
    pub newer_values: u64,
}

/// The case in which the two differ.
#[derive(Debug)]
pub struct Failure {
    kind: &'static str,
    seed: u64,
    number: u64,
    what: String,
}

impl fmt::Display for Failure {
    fn fmt(&self, formatter: &mut fmt::Formatter) -> fmt::Result {
        let Failure {
            kind,
            seed,
            number,
            what,
        } = self;
        write!(formatter, "seed {seed}, {kind} {number}:\n{what}")
    }
}

/// All cases of a seed; what was compared, by kind, or the first case that differs.
pub fn compare(seed: u64, sizes: &Sizes) -> Result<Vec<(&'static str, Tally)>, Failure> {
    let kinds: [(&str, Kind, u64); 8] = [
        ("commands", kinds::command, sizes.commands),
        ("sessions", kinds::session, sizes.sessions),
        ("large sessions", kinds::large_session, sizes.large_sessions),
        ("streams", kinds::stream, sizes.streams),
        ("stores", kinds::stores, sizes.stores),
        ("states", kinds::states, sizes.states),
        ("comparisons", side_by_side::comparison, sizes.comparisons),
        (
            "newer values",
            side_by_side::newer_value,
            sizes.newer_values,
        ),
    ];
    let tally = |(name, kind, count)| Ok((name, compare_kind(seed, name, kind, count)?));
    kinds.into_iter().map(tally).collect()
}

/// Each case has a generator of its own, so it is the same whatever the others do.
fn compare_kind(seed: u64, name: &'static str, kind: Kind, count: u64) -> Result<Tally, Failure> {
    let mut seeds = Random::new(seed);
    let mut pair = Pair::default();
    for number in 0..count {
        let mut generator = Generator::new(seeds.number());
        kind(&mut generator, &mut pair).map_err(|what| Failure {
            kind: name,
            seed,
            number,
            what,
        })?;
        pair.tally.cases += 1;
    }
    Ok(pair.tally)
}

/// The error lines met in all kinds together, with how often.
pub fn errors<'t>(tallies: &'t [(&str, Tally)]) -> Vec<(&'t str, u64)> {
    let mut all = std::collections::BTreeMap::new();
    for (line, count) in tallies.iter().flat_map(|(_, tally)| &tally.errors) {
        *all.entry(line.as_str()).or_default() += count;
    }
    all.into_iter().collect()
}

/// How often GT and VER 0, and then two stores, came to each of their outcomes in all kinds together.
pub fn outcomes_met(tallies: &[(&str, Tally)]) -> Vec<(Outcome, u64)> {
    let outcomes = OUTCOMES.into_iter().chain(SIDE_OUTCOMES);
    let met = outcomes.map(|outcome| {
        let counts = tallies
            .iter()
            .filter_map(|(_, tally)| tally.outcomes.get(&outcome));
        (outcome, counts.sum())
    });
    met.collect()
}
