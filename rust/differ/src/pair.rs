//! One feeding call made by both implementations, and everything compared.

use crate::outcomes::Outcome;
use exhash::interface;
use generate::layout::MOST_WAITING;
use generate::{LONGEST_REPLY_BUFFER, State};
use std::collections::BTreeMap;
use std::fmt::{self, Write};

/// Longer than the largest buffer lent, so that bytes past its end are compared too.
pub const REPLY_SPACE: usize = LONGEST_REPLY_BUFFER + 4_000;

/// What one implementation holds.
#[derive(Clone, PartialEq, Eq)]
struct Memory {
    waiting: [u8; MOST_WAITING],
    count: usize,
    store: Vec<u8>,
    reply: Vec<u8>,
}

/// The numbers of a call's answer.
#[derive(Clone, Copy, Debug, PartialEq, Eq)]
pub struct Call {
    pub refusal: u32,
    pub used: usize,
    pub skipped: usize,
    pub reply_len: usize,
}

/// How much was really compared.
#[derive(Clone, Debug, Default)]
pub struct Tally {
    pub cases: u64,
    pub calls: u64,
    /// Calls by what they answered: 0 or the refusal.
    pub answers: BTreeMap<u32, u64>,
    pub records: u64,
    pub checks: u64,
    pub bytes: u64,
    /// Error lines by their text.
    pub errors: BTreeMap<String, u64>,
    /// What GT and VER 0 came to in records that were fed one by one, and what two stores came to.
    pub outcomes: BTreeMap<Outcome, u64>,
}

impl Tally {
    /// One call more, with what it answered and how many bytes were compared.
    pub fn add_call(&mut self, refusal: u32, bytes: usize) {
        self.calls += 1;
        *self.answers.entry(refusal).or_default() += 1;
        self.bytes += bytes as u64;
    }

    pub fn add_outcome(&mut self, outcome: Outcome) {
        *self.outcomes.entry(outcome).or_default() += 1;
    }

    /// How many calls answered a number.
    pub fn answered(&self, number: u32) -> u64 {
        self.answers.get(&number).copied().unwrap_or(0)
    }
}

/// Both implementations, each with its own memory.
pub struct Pair {
    library: Memory,
    model: Memory,
    before: Memory,
    pub tally: Tally,
}

impl Memory {
    fn feed_library(&mut self, piece: &[u8], buffer: usize) -> Call {
        let state = interface::State {
            waiting: self.waiting,
            count: self.count,
        };
        let reply = &mut self.reply[..buffer];
        let answer = interface::feed(state, piece, &mut self.store, reply);
        self.waiting = answer.state.waiting;
        self.count = answer.state.count;
        Call {
            refusal: answer.refusal,
            used: answer.used,
            skipped: answer.skipped,
            reply_len: answer.reply_len,
        }
    }

    fn feed_model(&mut self, piece: &[u8], buffer: usize) -> Call {
        let state = model::Feeder {
            waiting: self.waiting,
            count: self.count,
        };
        let reply = &mut self.reply[..buffer];
        let fed = model::feed(state, piece, &mut self.store, reply);
        self.waiting = fed.feeder.waiting;
        self.count = fed.feeder.count;
        Call {
            refusal: fed.refusal,
            used: fed.used,
            skipped: fed.skipped,
            reply_len: fed.reply_len,
        }
    }

    /// Sets state and store, and every byte of the reply buffer.
    fn begin(&mut self, state: &State, store: &[u8], fill: u8) {
        self.waiting = state.waiting;
        self.count = state.count;
        self.store.clear();
        self.store.extend_from_slice(store);
        self.reply.fill(fill);
    }

    fn size(&self) -> usize {
        MOST_WAITING + size_of::<usize>() + self.store.len() + self.reply.len()
    }
}

impl Default for Pair {
    fn default() -> Pair {
        let memory = Memory {
            waiting: [0; MOST_WAITING],
            count: 0,
            store: Vec::new(),
            reply: vec![0; REPLY_SPACE],
        };
        Pair {
            library: memory.clone(),
            model: memory.clone(),
            before: memory,
            tally: Tally::default(),
        }
    }
}

impl Pair {
    /// The same state, store and reply buffer for both.
    pub fn begin(&mut self, state: &State, store: &[u8], fill: u8) {
        self.library.begin(state, store, fill);
        self.model.begin(state, store, fill);
    }

    pub fn store(&self) -> &[u8] {
        &self.library.store
    }

    /// The store before the last call.
    pub fn store_before(&self) -> &[u8] {
        &self.before.store
    }

    pub fn waiting(&self) -> &[u8] {
        &self.library.waiting[..self.library.count]
    }

    pub fn reply(&self, call: Call) -> &[u8] {
        &self.library.reply[..call.reply_len]
    }

    /// One call with the first `buffer` bytes of the reply space; an error says what differs.
    pub fn feed(&mut self, piece: &[u8], buffer: usize) -> Result<Call, String> {
        self.before.waiting = self.library.waiting;
        self.before.count = self.library.count;
        self.before.store.clone_from(&self.library.store);
        let ours = self.library.feed_library(piece, buffer);
        let models = self.model.feed_model(piece, buffer);
        self.compare(piece, buffer, ours, models)?;
        self.count(ours);
        Ok(ours)
    }

    /// Both answers and both memories.
    fn compare(&self, piece: &[u8], buffer: usize, ours: Call, models: Call) -> Result<(), String> {
        if ours == models && self.library == self.model {
            return Ok(());
        }
        let text = self.describe(piece, buffer, ours, models);
        Err(text.unwrap_or_default())
    }

    /// The store's check alone.
    pub fn check(&mut self, store: &[u8]) -> Result<(), String> {
        let (ours, models) = (interface::store_check(store), model::store_check(store));
        if ours != models {
            let store = hex(store);
            return Err(format!("store check {ours}, model {models}\nstore {store}"));
        }
        self.tally.checks += 1;
        Ok(())
    }

    fn count(&mut self, call: Call) {
        let tally = &mut self.tally;
        tally.add_call(call.refusal, self.library.size());
        if call.reply_len == 0 {
            return;
        }
        tally.records += 1;
        let reply = &self.library.reply[..call.reply_len];
        if reply.starts_with(b"-") {
            let line = String::from_utf8_lossy(reply.trim_ascii_end());
            *tally.errors.entry(line.into_owned()).or_default() += 1;
        }
    }

    fn describe(
        &self,
        piece: &[u8],
        buffer: usize,
        ours: Call,
        models: Call,
    ) -> Result<String, fmt::Error> {
        let Memory {
            waiting,
            count,
            store,
            ..
        } = &self.before;
        let mut text = String::new();
        writeln!(text, "library {ours:?}\nmodel   {models:?}")?;
        let (library, model) = (&self.library, &self.model);
        difference(&mut text, "waiting", &library.waiting, &model.waiting)?;
        writeln!(text, "count {}, model {}", library.count, model.count)?;
        difference(&mut text, "store", &library.store, &model.store)?;
        difference(&mut text, "reply", &library.reply, &model.reply)?;
        writeln!(text, "before: count {count}, waiting {}", hex(waiting))?;
        writeln!(text, "before: store {}", hex(store))?;
        writeln!(text, "reply buffer of {buffer} bytes")?;
        writeln!(text, "piece {}", hex(piece))?;
        Ok(text)
    }
}

/// The first and the last byte that differ, and the bytes from one to the other.
pub fn difference(text: &mut String, what: &str, ours: &[u8], models: &[u8]) -> fmt::Result {
    let differs = |(ours, models): (&u8, &u8)| ours != models;
    let mut bytes = ours.iter().zip(models);
    let Some(first) = bytes.clone().position(differs) else {
        return writeln!(text, "{what}: the same");
    };
    let last = bytes.rposition(differs).unwrap_or(first);
    let (ours, models) = (hex(&ours[first..=last]), hex(&models[first..=last]));
    writeln!(
        text,
        "{what}: bytes {first} to {last}: {ours}, model {models}"
    )
}

pub fn hex(bytes: &[u8]) -> String {
    bytes.iter().map(|byte| format!("{byte:02x}")).collect()
}

#[cfg(test)]
mod tests {
    use super::*;
    use generate::layout::{LEAST_REPLY_BUFFER, store_size};

    /// A pair whose two memories differ as `damage` says, fed once.
    fn feed_after(damage: fn(&mut Memory)) -> Result<Call, String> {
        let mut pair = Pair::default();
        let state = State {
            waiting: [0; MOST_WAITING],
            count: 0,
        };
        pair.begin(&state, &[0; store_size(1)], 7);
        damage(&mut pair.library);
        pair.feed(b"x", LEAST_REPLY_BUFFER)
    }

    #[test]
    fn every_difference_is_reported() {
        let fed = feed_after(|_| {}).unwrap();
        assert_eq!((fed.used, fed.skipped), (1, 1));
        let reported = |damage| feed_after(damage).unwrap_err();
        assert!(reported(|memory| memory.count = 2000).contains("count 2000, model 0"));
        assert!(reported(|memory| memory.waiting[9] = 1).contains("waiting: bytes 9 to 9: 01"));
        assert!(reported(|memory| memory.store[0] = 1).contains("store: bytes 0 to 0: 01"));
        let past_the_end = |memory: &mut Memory| memory.reply[REPLY_SPACE - 1] = 8;
        let last = REPLY_SPACE - 1;
        let expected = format!("reply: bytes {last} to {last}: 08, model 07");
        assert!(reported(past_the_end).contains(&expected));
    }

    #[test]
    fn every_number_is_compared() {
        let pair = Pair::default();
        let call = Call {
            refusal: 0,
            used: 1,
            skipped: 1,
            reply_len: 0,
        };
        assert_eq!(pair.compare(b"x", 0, call, call), Ok(()));
        for other in [
            Call { refusal: 2, ..call },
            Call { used: 0, ..call },
            Call { skipped: 0, ..call },
            Call {
                reply_len: 5,
                ..call
            },
        ] {
            assert!(pair.compare(b"x", 0, call, other).is_err());
        }
    }
}
