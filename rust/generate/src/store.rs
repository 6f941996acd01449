//! Stores, well formed and damaged, and clocks around their expiries.

use crate::Generator;
use crate::layout::{
    CLOCK, EMPTY, EXPIRING, EXPIRY, FIELD, FIELD_LENGTH, HEADER, HELD, KEY, KEY_LENGTH,
    LONGEST_FIELD, LONGEST_KEY, LONGEST_VALUE, MOST_SLOTS, RESERVED, SLOT, STATE, TIME_LIMIT,
    VALUE, VALUE_LENGTH, VERSION, store_size,
};
use crate::random::Random;
use crate::text::{FIELDS, KEYS, VALUES, VERSIONS};
use std::ops::Range;

impl Generator {
    /// A well-formed store of 1 to 4 slots, now and then of the most.
    pub fn store(&mut self) -> Vec<u8> {
        if self.random.once_in(256) {
            self.large_store()
        } else {
            let slots = self.random.between(1, 4);
            self.store_of(slots)
        }
    }

    /// A well-formed store of the most slots, sometimes all of one key and as long as can be.
    pub fn large_store(&mut self) -> Vec<u8> {
        let full = self.random.once_in(4);
        let mut store = self.store_of(MOST_SLOTS);
        let clock = clock_of(&store);
        for (at, slot) in store[HEADER..].chunks_exact_mut(SLOT).enumerate().skip(8) {
            let mut field = [b'f'; LONGEST_FIELD];
            field[..3].copy_from_slice(&[
                b'0' + (at / 100) as u8,
                b'0' + (at / 10 % 10) as u8,
                b'0' + (at % 10) as u8,
            ]);
            let random = &mut self.random;
            if full {
                write_entry(slot, b"m", &field, &[b'v'; LONGEST_VALUE], random, clock);
            } else if !random.once_in(64) {
                let length = random.between(3, LONGEST_FIELD);
                let (key, value) = (random.pick(&KEYS), random.pick(&VALUES));
                write_entry(slot, key, &field[..length], value, random, clock);
            }
        }
        store
    }

    /// The first slots filled from the small sets, no name twice.
    fn store_of(&mut self, slots: usize) -> Vec<u8> {
        let random = &mut self.random;
        let clock = store_clock(random);
        let mut store = vec![0; store_size(slots)];
        store[CLOCK].copy_from_slice(&clock.to_le_bytes());
        for at in 0..slots.min(8) {
            // The first key and the first fields are the most frequent.
            let key = KEYS[random.below(KEYS.len()) * random.below(2)];
            let field = FIELDS[random.below(FIELDS.len()).min(random.below(FIELDS.len()))];
            let (before, slot) = store[HEADER..].split_at_mut(SLOT * at);
            let taken = before
                .chunks_exact(SLOT)
                .any(|slot| name_of(slot) == Some((key, field)));
            if !taken && !random.once_in(4) {
                let value = random.pick(&VALUES);
                write_entry(&mut slot[..SLOT], key, field, value, random, clock);
            }
        }
        store
    }

    /// A store that is not well formed: one byte or one rule of a well-formed one is broken.
    pub fn damaged_store(&mut self) -> Vec<u8> {
        let mut store = self.store();
        self.damage(&mut store);
        store
    }

    /// Breaks one byte or one rule of a well-formed store.
    pub(crate) fn damage(&mut self, store: &mut Vec<u8>) {
        match self.random.below(4) {
            0 => self.damage_length(store),
            1 => self.damage_header(store),
            2 => self.repeat_a_name(store),
            _ => self.damage_a_slot(store),
        }
    }

    /// A well-formed store with one byte changed: it may be well formed still.
    pub fn store_with_one_byte_changed(&mut self) -> Vec<u8> {
        let mut store = self.store();
        let at = self.random.below(store.len());
        store[at] = match self.random.below(4) {
            0 => 0,
            1 => store[at].wrapping_add(1),
            2 => store[at].wrapping_sub(1),
            _ => self.random.byte(),
        };
        store
    }

    fn damage_length(&mut self, store: &mut Vec<u8>) {
        let length = store.len();
        let lengths = [
            0,
            1,
            HEADER - 1,
            HEADER,
            length - 1,
            length + 1,
            length - SLOT / 2,
            store_size(MOST_SLOTS + 1),
        ];
        store.resize(self.random.pick(&lengths), 0);
    }

    fn damage_header(&mut self, store: &mut [u8]) {
        if self.random.once_in(2) {
            let clock = self.random.pick(&[TIME_LIMIT, TIME_LIMIT + 1, u64::MAX]);
            store[CLOCK].copy_from_slice(&clock.to_le_bytes());
        } else {
            let at = one_of(RESERVED, &mut self.random);
            store[at] = above(0, &mut self.random);
        }
    }

    /// Two held slots with the same key and field.
    fn repeat_a_name(&mut self, store: &mut Vec<u8>) {
        if store.len() < store_size(2) {
            store.resize(store_size(2), 0);
        }
        let clock = clock_of(store);
        let slots = slots_of(store);
        let first = self.random.below(slots);
        let second = (first + self.random.between(1, slots - 1)) % slots;
        let random = &mut self.random;
        let (key, field) = (random.pick(&KEYS), random.pick(&FIELDS));
        for slot in [first, second] {
            let start = store_size(slot);
            let value = random.pick(&VALUES);
            write_entry(
                &mut store[start..start + SLOT],
                key,
                field,
                value,
                random,
                clock,
            );
        }
    }

    fn damage_a_slot(&mut self, store: &mut [u8]) {
        let start = store_size(self.random.below(slots_of(store)));
        let slot = &mut store[start..start + SLOT];
        let random = &mut self.random;
        match random.below(8) {
            0 => slot[STATE] = above(EXPIRING.into(), random),
            1 => slot[KEY_LENGTH] = above(LONGEST_KEY, random),
            2 => slot[FIELD_LENGTH] = above(LONGEST_FIELD, random),
            3 => slot[VALUE_LENGTH] = above(LONGEST_VALUE, random),
            4 => {
                slot[STATE] = HELD;
                slot[one_of(EXPIRY, random)] = above(0, random);
            }
            5 => {
                let expiry = random.pick(&[TIME_LIMIT + 1, u64::MAX]);
                slot[STATE] = EXPIRING;
                slot[EXPIRY].copy_from_slice(&expiry.to_le_bytes());
            }
            6 => {
                slot.fill(0);
                slot[one_of(KEY_LENGTH..SLOT, random)] = above(0, random);
            }
            _ => fill_beyond_a_length(slot, random),
        }
    }

    /// A record's clock: around the store's clock, its expiries and the limit.
    pub fn clock(&mut self, store: &[u8]) -> u64 {
        let slot = self.slot(store);
        let expiry = low_first(&slot[EXPIRY]);
        let random = &mut self.random;
        let near = [0, 1, 2][random.below(3)];
        match random.below(8) {
            0..=2 => clock_of(store).saturating_add(near).saturating_sub(1),
            3 | 4 => expiry.saturating_add(near).saturating_sub(1),
            5 => random.pick(&[0, 1, 1000, 1_000_000]),
            6 if random.once_in(4) => TIME_LIMIT + near - 1,
            6 if random.once_in(8) => random.pick(&[u64::MAX, 1 << 63, 1 << 42]),
            _ => clock_of(store).saturating_add(random.pick(&[500, 999, 1000, 1001])),
        }
    }

    /// One of the store's slots.
    pub(crate) fn slot<'s>(&mut self, store: &'s [u8]) -> &'s [u8] {
        let start = store_size(self.random.below(slots_of(store)));
        store.get(start..start + SLOT).unwrap_or(&[0; SLOT])
    }

    /// One of the store's slots, a held one more often.
    pub(crate) fn held_slot<'s>(&mut self, store: &'s [u8]) -> &'s [u8] {
        let slot = self.slot(store);
        match name_of(slot) {
            Some(_) => slot,
            None => self.slot(store),
        }
    }
}

pub(crate) fn store_clock(random: &mut Random) -> u64 {
    let clocks = [0, 1, 999, 1000, 1_000_000, 1_700_000_000_000];
    let late = [TIME_LIMIT - 1, TIME_LIMIT - 2, TIME_LIMIT - 1000];
    if random.once_in(16) {
        random.pick(&late)
    } else {
        random.pick(&clocks)
    }
}

/// As many slots as there are whole ones.
fn slots_of(store: &[u8]) -> usize {
    store.len().saturating_sub(HEADER) / SLOT
}

/// A place among some.
fn one_of(places: Range<usize>, random: &mut Random) -> usize {
    random.between(places.start, places.end - 1)
}

/// A byte above a number.
fn above(number: usize, random: &mut Random) -> u8 {
    random.between(number + 1, 255) as u8
}

pub(crate) fn clock_of(store: &[u8]) -> u64 {
    low_first(store.get(CLOCK).unwrap_or(&[]))
}

pub(crate) fn low_first(bytes: &[u8]) -> u64 {
    let append = |number: u64, byte: &u8| number << 8 | u64::from(*byte);
    bytes.iter().rev().fold(0, append)
}

/// Key and field of a held slot.
pub(crate) fn name_of(slot: &[u8]) -> Option<(&[u8], &[u8])> {
    let key = slot.get(KEY)?.get(..usize::from(slot[KEY_LENGTH]))?;
    let field = slot.get(FIELD)?.get(..usize::from(slot[FIELD_LENGTH]))?;
    (slot[STATE] != EMPTY).then_some((key, field))
}

pub(crate) fn write_entry(
    slot: &mut [u8],
    key: &[u8],
    field: &[u8],
    value: &[u8],
    random: &mut Random,
    clock: u64,
) {
    slot.fill(0);
    slot[STATE] = random.between(HELD.into(), EXPIRING.into()) as u8;
    slot[KEY_LENGTH] = key.len() as u8;
    slot[FIELD_LENGTH] = field.len() as u8;
    slot[VALUE_LENGTH] = value.len() as u8;
    slot[VERSION].copy_from_slice(&random.pick(&VERSIONS).to_le_bytes());
    if slot[STATE] == EXPIRING {
        slot[EXPIRY].copy_from_slice(&expiry(random, clock).to_le_bytes());
    }
    slot[KEY][..key.len()].copy_from_slice(key);
    slot[FIELD][..field.len()].copy_from_slice(field);
    slot[VALUE][..value.len()].copy_from_slice(value);
}

/// Around a clock, or at the ends.
pub(crate) fn expiry(random: &mut Random, clock: u64) -> u64 {
    let near = [
        clock.saturating_sub(1),
        clock,
        clock + 1,
        clock + 2,
        clock + 500,
        clock + 1001,
    ];
    let ends = [0, 1, TIME_LIMIT - 1, TIME_LIMIT];
    if random.once_in(6) {
        random.pick(&ends)
    } else {
        TIME_LIMIT.min(random.pick(&near))
    }
}

/// A held slot with a byte that is not zero beyond one of its lengths.
fn fill_beyond_a_length(slot: &mut [u8], random: &mut Random) {
    let places = [
        (KEY_LENGTH, KEY),
        (FIELD_LENGTH, FIELD),
        (VALUE_LENGTH, VALUE),
    ];
    let (which, place) = &places[random.below(places.len())];
    slot[STATE] = slot[STATE].max(HELD);
    let length = usize::from(slot[*which]).min(place.len() - 1);
    slot[*which] = length as u8;
    slot[one_of(place.start + length..place.end, random)] = above(0, random);
}
