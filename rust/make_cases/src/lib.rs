//! Cases with the model's answers, as bytes that a program in any language can read.
//!
//! The cases follow one another to the end. Each has six parts in this order:
//!
//! 1. the store before,
//! 2. the stream,
//! 3. the joined replies,
//! 4. the number of bytes skipped,
//! 5. the bytes left waiting,
//! 6. the store after.
//!
//! Part 4 is a number of 8 bytes, low byte first. Every other part is its length, 4 bytes, low byte
//! first, and then its bytes, at most `LONGEST_PART` of them. A store has 1 to 3 slots.

#![forbid(unsafe_code)]

use generate::Generator;
use generate::layout::store_size;
use model::feeder::whole;

pub const SEED: u64 = 2;
pub const CASES: usize = 300;
pub const LONGEST_PART: usize = 1_500;
const SESSION_RECORDS: usize = 6;
const MOST_SLOTS: usize = 3;

/// A stream, and what the definition for one uncut stream gives for it.
#[derive(Clone, Debug, PartialEq, Eq)]
pub struct Case {
    pub store: Vec<u8>,
    pub stream: Vec<u8>,
    pub replies: Vec<u8>,
    pub skipped: u64,
    pub waiting: Vec<u8>,
    pub store_after: Vec<u8>,
}

/// Makes a stream for a store.
type StreamMaker = fn(&mut Generator, &[u8]) -> Vec<u8>;

/// The first cases of a seed whose parts are all short enough; every other stream is a session.
pub fn cases(seed: u64, count: usize) -> Vec<Case> {
    let mut generator = Generator::new(seed);
    let makers: [StreamMaker; 2] = [Generator::stream, session];
    let cases = makers.into_iter().cycle().map(|make_stream| {
        let store = generator.store();
        let stream = make_stream(&mut generator, &store);
        answered(store, stream)
    });
    cases.filter(is_short).take(count).collect()
}

/// Records one after another, each made for the store that the one before leaves.
fn session(generator: &mut Generator, store: &[u8]) -> Vec<u8> {
    let mut store = store.to_vec();
    let mut stream = Vec::new();
    for _ in 0..SESSION_RECORDS {
        let record = generator.record(&store);
        whole(&record, &mut store);
        stream.extend(record);
    }
    stream
}

fn answered(store: Vec<u8>, stream: Vec<u8>) -> Case {
    let mut store_after = store.clone();
    let uncut = whole(&stream, &mut store_after);
    Case {
        replies: uncut.replies,
        skipped: uncut.skipped as u64,
        waiting: uncut.rest.to_vec(),
        store,
        store_after,
        stream,
    }
}

fn is_short(case: &Case) -> bool {
    let parts = [&case.stream, &case.replies];
    case.store.len() <= store_size(MOST_SLOTS)
        && parts.iter().all(|part| part.len() <= LONGEST_PART)
}

/// The cases in the form described above.
pub fn bytes(cases: &[Case]) -> Vec<u8> {
    let mut bytes = Vec::new();
    for case in cases {
        push_part(&mut bytes, &case.store);
        push_part(&mut bytes, &case.stream);
        push_part(&mut bytes, &case.replies);
        bytes.extend_from_slice(&case.skipped.to_le_bytes());
        push_part(&mut bytes, &case.waiting);
        push_part(&mut bytes, &case.store_after);
    }
    bytes
}

/// No part is longer than `LONGEST_PART`, so its length fits.
fn push_part(bytes: &mut Vec<u8>, part: &[u8]) {
    bytes.extend_from_slice(&(part.len() as u32).to_le_bytes());
    bytes.extend_from_slice(part);
}
