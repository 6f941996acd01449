//! Searches with the model's answers, as bytes that a program in any language can read.
//!
//! The searches follow one another to the end. Each has three parts in this order:
//!
//! 1. the store: its size, 4 bytes, low byte first, and then its bytes,
//! 2. the key: its length, 1 byte, and then its bytes,
//! 3. the field, likewise.
//!
//! Every store is well formed. The answers are text, a line for each search: the number of the slot
//! that holds the key and field, or `-` where none does, a space, and the number of bytes compared.

#![forbid(unsafe_code)]

use generate::{Generator, Search};
use model::search;
use std::fmt::Write;

pub const SEED: u64 = 3;
/// The searches of small stores; those of the ear tags come after them.
pub const SMALL: usize = 150;

pub fn searches(seed: u64, small: usize) -> Vec<Search> {
    let mut generator = Generator::new(seed);
    let mut searches: Vec<Search> = (0..small).map(|_| generator.search()).collect();
    searches.extend(generator.full_store_searches());
    searches
}

/// The searches in the form described above. No name is longer than its length can say.
pub fn input(searches: &[Search]) -> Vec<u8> {
    let mut bytes = Vec::new();
    for Search { store, key, field } in searches {
        bytes.extend_from_slice(&(store.len() as u32).to_le_bytes());
        bytes.extend_from_slice(store);
        for name in [key, field] {
            bytes.push(name.len() as u8);
            bytes.extend_from_slice(name);
        }
    }
    bytes
}

/// The model's answers.
pub fn output(searches: &[Search]) -> String {
    let mut lines = String::new();
    for Search { store, key, field } in searches {
        let searched = search(store, key, field);
        let slot = match searched.slot {
            Some(number) => number.to_string(),
            None => "-".to_string(),
        };
        writeln!(lines, "{slot} {}", searched.compared).expect("a string takes every line");
    }
    lines
}
