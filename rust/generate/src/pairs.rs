//! Pairs of stores that share entries, with instants for both and names to ask them for.

use crate::Generator;
use crate::layout::{
    CLOCK, EXPIRING, EXPIRY, HEADER, HELD, LONGEST_FIELD, LONGEST_KEY, LONGEST_VALUE, MOST_SLOTS,
    SLOT, STATE, TIME_LIMIT, VALUE, VALUE_LENGTH, VERSION, store_size,
};
use crate::random::Random;
use crate::store::{clock_of, expiry, low_first, name_of, store_clock, write_entry};
use crate::text::{FIELDS, KEYS, LONG_FIELDS, LONG_KEYS, TELLING_VERSIONS, VALUES, VERSIONS};

/// Two stores, the first and the second.
pub type Stores = [Vec<u8>; 2];

impl Generator {
    /// Two well-formed stores. Entries of one are alike, changed or missing in the other, and some are
    /// only there; their slots are others. Now and then both are full.
    pub fn stores(&mut self) -> Stores {
        if self.random.once_in(128) {
            return self.full_stores();
        }
        let store = self.store();
        let other = self.store_beside(&store);
        if self.random.once_in(2) {
            [store, other]
        } else {
            [other, store]
        }
    }

    /// Two stores of which the first, the second or both are not well formed.
    pub fn damaged_stores(&mut self) -> Stores {
        let mut stores = self.stores();
        let [first, second] = &mut stores;
        let which = self.random.below(3);
        if which != 1 {
            self.damage(first);
        }
        if which != 0 {
            self.damage(second);
        }
        stores
    }

    /// Two stores of the most slots, all held, with names and values as long as can be: they have all
    /// names in common or none.
    fn full_stores(&mut self) -> Stores {
        let lasting = self.random.once_in(2);
        let letters = [self.random.pick(b"kl"), self.random.pick(b"kl")];
        letters.map(|letter| {
            let mut store = vec![0; store_size(MOST_SLOTS)];
            for (number, slot) in store[HEADER..].chunks_exact_mut(SLOT).enumerate() {
                let field = format!("{number:0LONGEST_FIELD$}");
                let (key, value) = ([letter; LONGEST_KEY], [letter; LONGEST_VALUE]);
                let random = &mut self.random;
                write_entry(slot, &key, field.as_bytes(), &value, random, 0);
                if lasting {
                    remove_expiry(slot);
                }
            }
            store
        })
    }

    /// A store that shares entries with another, in a number and an order of slots of its own.
    fn store_beside(&mut self, store: &[u8]) -> Vec<u8> {
        let clock = self.clock_beside(store);
        let mut entries = Vec::new();
        for slot in held(store) {
            if !self.random.once_in(4) {
                entries.push(self.shared(slot, clock));
            }
        }
        let is_new = |slot: &&[u8]| held(store).all(|other| name_of(other) != name_of(slot));
        let new = self.store();
        entries.extend(held(&new).filter(is_new).take(4).map(<[u8]>::to_vec));
        self.placed(entries, clock)
    }

    fn clock_beside(&mut self, store: &[u8]) -> u64 {
        let (clock, random) = (clock_of(store), &mut self.random);
        let later = random.pick(&[1, 2, 500]);
        match random.below(4) {
            0 | 1 => clock,
            2 => clock.saturating_add(later).min(TIME_LIMIT - 1),
            _ => store_clock(random),
        }
    }

    /// An entry as it is, or with one or two of its parts changed.
    fn shared(&mut self, slot: &[u8], clock: u64) -> Vec<u8> {
        let mut slot = slot.to_vec();
        for _ in 0..self.random.pick(&[0, 0, 1, 1, 1, 2]) {
            change(&mut slot, clock, &mut self.random);
        }
        slot
    }

    /// A store with entries in any of its slots, as many as have room.
    fn placed(&mut self, mut entries: Vec<Vec<u8>>, clock: u64) -> Vec<u8> {
        let empty = self.random.between(usize::from(entries.is_empty()), 2);
        entries.resize(entries.len() + empty, vec![0; SLOT]);
        for last in (1..entries.len()).rev() {
            entries.swap(last, self.random.below(last + 1));
        }
        entries.truncate(MOST_SLOTS);
        let mut store = vec![0; HEADER];
        store[CLOCK].copy_from_slice(&clock.to_le_bytes());
        store.extend(entries.concat());
        store
    }

    /// An instant for two stores: around their clocks, their expiries and the limit, mostly one that
    /// is not earlier than either clock.
    pub fn instant(&mut self, stores: &Stores) -> u64 {
        let latest = clock_of(&stores[0]).max(clock_of(&stores[1]));
        let store = &stores[self.random.below(2)];
        let expiry = low_first(&self.held_slot(store)[EXPIRY]);
        let random = &mut self.random;
        let near = [0, 1, 2][random.below(3)];
        let around = |instant: u64| instant.saturating_add(near).saturating_sub(1);
        let instant = match random.below(8) {
            0..=2 => around(clock_of(store)),
            3..=5 => around(expiry),
            6 if random.once_in(2) => random.pick(&[0, 1, around(TIME_LIMIT), u64::MAX]),
            _ => latest.saturating_add(random.pick(&[0, 1, 2, 500, 1000])),
        };
        if random.once_in(4) {
            instant
        } else {
            instant.max(latest)
        }
    }

    /// A key and a field to ask two stores for: mostly those of an entry, else missing or too long.
    pub fn name(&mut self, stores: &Stores) -> (Vec<u8>, Vec<u8>) {
        let store = &stores[self.random.below(2)];
        let held = name_of(self.held_slot(store));
        let random = &mut self.random;
        let any: (&[u8], &[u8]) = (random.pick(&KEYS), random.pick(&FIELDS));
        let (key, field) = held.unwrap_or(any);
        let (mut key, mut field) = (key.to_vec(), field.to_vec());
        match random.below(16) {
            0 => (key, field) = (any.0.to_vec(), any.1.to_vec()),
            1 => key.push(b'0'),
            2 => field.push(b'F'),
            3 => key = random.pick(&LONG_KEYS).to_vec(),
            4 => field = random.pick(&LONG_FIELDS).to_vec(),
            _ => {}
        }
        (key, field)
    }
}

/// The held slots of a store.
fn held(store: &[u8]) -> impl Iterator<Item = &[u8]> {
    let slots = store[HEADER..].chunks_exact(SLOT);
    slots.filter(|slot| name_of(slot).is_some())
}

/// Gives a held slot another value, version or expiry; the new one may by chance be the old.
fn change(slot: &mut [u8], clock: u64, random: &mut Random) {
    match random.below(7) {
        0 => {
            let value = random.pick(&VALUES);
            slot[VALUE_LENGTH] = value.len() as u8;
            slot[VALUE].fill(0);
            slot[VALUE][..value.len()].copy_from_slice(value);
        }
        // One zero byte more: the places alike, the lengths not.
        1 => slot[VALUE_LENGTH] = (slot[VALUE_LENGTH] + 1).min(LONGEST_VALUE as u8),
        2 => slot[VERSION].copy_from_slice(&random.pick(&VERSIONS).to_le_bytes()),
        3 => slot[VERSION].copy_from_slice(&random.pick(&TELLING_VERSIONS).to_le_bytes()),
        4 | 5 => {
            slot[STATE] = EXPIRING;
            slot[EXPIRY].copy_from_slice(&expiry(random, clock).to_le_bytes());
        }
        _ => remove_expiry(slot),
    }
}

fn remove_expiry(slot: &mut [u8]) {
    slot[STATE] = HELD;
    slot[EXPIRY].fill(0);
}
