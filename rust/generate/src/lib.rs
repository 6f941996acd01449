//! Seeded inputs for comparing two implementations of paper 01: commands, clocks, stores, feeder
//! states, streams and ways to cut them, pairs of stores, and searches. The same seed gives the same
//! inputs.
//!
//! Nothing here depends on an implementation; what is well formed is made so by hand.

#![forbid(unsafe_code)]

mod command;
mod feeder;
pub mod layout;
mod pairs;
mod random;
mod searches;
mod store;
mod stream;
mod text;
mod words;

pub use command::names;
pub use feeder::State;
use layout::{LEAST_LISTING_BUFFER, LEAST_REPLY_BUFFER};
pub use pairs::Stores;
pub use random::Random;
pub use searches::{MOST_SLOTS_SEARCHED, Search};
pub use stream::record;

/// The longest reply buffer that is lent.
pub const LONGEST_REPLY_BUFFER: usize = LEAST_REPLY_BUFFER + 4_000;
/// The longest output for a listing that is lent.
pub const LONGEST_LISTING_BUFFER: usize = LEAST_LISTING_BUFFER + 4_000;

/// The source of all inputs.
#[derive(Clone, Debug)]
pub struct Generator {
    random: Random,
}

impl Generator {
    pub fn new(seed: u64) -> Generator {
        Generator {
            random: Random::new(seed),
        }
    }

    /// A reply buffer's length: mostly just enough, sometimes too little or more.
    pub fn reply_buffer_length(&mut self) -> usize {
        self.buffer_length(LEAST_REPLY_BUFFER, LONGEST_REPLY_BUFFER)
    }

    /// An output's length for a listing, chosen likewise.
    pub fn listing_buffer_length(&mut self) -> usize {
        self.buffer_length(LEAST_LISTING_BUFFER, LONGEST_LISTING_BUFFER)
    }

    fn buffer_length(&mut self, least: usize, longest: usize) -> usize {
        match self.random.below(16) {
            0 => self.random.pick(&[0, 1, least - 1]),
            1 => self.random.pick(&[least + 1, longest]),
            _ => least,
        }
    }
}
