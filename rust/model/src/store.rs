//! The store's bytes.

use crate::integer::low_first;
use crate::layout::{
    CLOCK, EMPTY, EXPIRY, FIELD, FIELD_LENGTH, HEADER, HELD, HELD_WITH_EXPIRY, KEY, KEY_LENGTH,
    MOST_SLOTS, RESERVED, SLOT, STATE, TIME_LIMIT, VALUE, VALUE_LENGTH, VERSION,
};
use crate::time;

/// One slot's bytes.
pub type Slot = [u8; SLOT];

const EMPTY_SLOT: Slot = [0; SLOT];

/// An entry's name: a key and one of its fields.
#[derive(Clone, Copy, Debug, PartialEq, Eq, Hash)]
pub struct Name<'a> {
    pub key: &'a [u8],
    pub field: &'a [u8],
}

/// What a held slot says.
pub struct Entry<'a> {
    pub name: Name<'a>,
    pub value: &'a [u8],
    pub version: u32,
    pub expiry: Option<u64>,
}

pub fn is_held(slot: &Slot) -> bool {
    slot[STATE] != EMPTY
}

pub fn is_live(slot: &Slot, now: u64) -> bool {
    is_held(slot) && time::is_live(expiry(slot), now)
}

pub fn key(slot: &Slot) -> &[u8] {
    first(&slot[KEY], slot[KEY_LENGTH])
}

pub fn field(slot: &Slot) -> &[u8] {
    first(&slot[FIELD], slot[FIELD_LENGTH])
}

pub fn name(slot: &Slot) -> Name<'_> {
    Name {
        key: key(slot),
        field: field(slot),
    }
}

pub fn value(slot: &Slot) -> &[u8] {
    first(&slot[VALUE], slot[VALUE_LENGTH])
}

pub fn version(slot: &Slot) -> u32 {
    low_first(&slot[VERSION]) as u32
}

pub fn expiry(slot: &Slot) -> Option<u64> {
    (slot[STATE] == HELD_WITH_EXPIRY).then(|| expiry_bytes(slot))
}

pub fn set_version(slot: &mut Slot, version: u32) {
    slot[VERSION].copy_from_slice(&version.to_le_bytes());
}

pub fn set_expiry(slot: &mut Slot, expiry: Option<u64>) {
    slot[STATE] = match expiry {
        None => HELD,
        Some(_) => HELD_WITH_EXPIRY,
    };
    slot[EXPIRY].copy_from_slice(&expiry.unwrap_or(0).to_le_bytes());
}

/// The entry's lengths have passed check 14.
pub fn write(slot: &mut Slot, entry: &Entry) {
    *slot = EMPTY_SLOT;
    slot[KEY_LENGTH] = entry.name.key.len() as u8;
    slot[FIELD_LENGTH] = entry.name.field.len() as u8;
    slot[VALUE_LENGTH] = entry.value.len() as u8;
    set_version(slot, entry.version);
    set_expiry(slot, entry.expiry);
    fill(&mut slot[KEY], entry.name.key);
    fill(&mut slot[FIELD], entry.name.field);
    fill(&mut slot[VALUE], entry.value);
}

/// "An empty slot is all zero."
pub fn clear(slot: &mut Slot) {
    *slot = EMPTY_SLOT;
}

fn expiry_bytes(slot: &Slot) -> u64 {
    low_first(&slot[EXPIRY])
}

fn first(place: &[u8], length: u8) -> &[u8] {
    place.get(..usize::from(length)).unwrap_or(place)
}

fn fill(place: &mut [u8], text: &[u8]) {
    for (to, from) in place.iter_mut().zip(text) {
        *to = *from;
    }
}

/// A lent store of the right length, as its clock and its slots.
pub struct Store<'a> {
    header: &'a mut [u8; HEADER],
    slots: &'a mut [Slot],
}

impl<'a> Store<'a> {
    /// None if the bytes are not a header and 1 to `MOST_SLOTS` slots.
    pub fn view(bytes: &'a mut [u8]) -> Option<Store<'a>> {
        let (header, places) = bytes.split_first_chunk_mut()?;
        let (slots, rest) = places.as_chunks_mut();
        is_length(slots.len(), rest.len()).then_some(Store { header, slots })
    }

    pub fn clock(&self) -> u64 {
        low_first(&self.header[CLOCK])
    }

    pub fn set_clock(&mut self, now: u64) {
        self.header[CLOCK].copy_from_slice(&now.to_le_bytes());
    }

    /// The slot of a live entry. A dead one is removed: "every dead entry it names is removed".
    pub fn lookup(&mut self, name: Name, now: u64) -> Option<&mut Slot> {
        let is_named = |slot: &&mut Slot| is_held(slot) && self::name(slot) == name;
        let slot = self.slots.iter_mut().find(is_named)?;
        if is_live(slot, now) {
            return Some(slot);
        }
        clear(slot);
        None
    }

    /// "A new entry goes in the lowest empty slot, else over the lowest dead one."
    pub fn free_slot(&mut self, now: u64) -> Option<&mut Slot> {
        let lowest_empty = self.slots.iter().position(|slot| !is_held(slot));
        let lowest_dead = || self.slots.iter().position(|slot| !is_live(slot, now));
        let lowest = lowest_empty.or_else(lowest_dead)?;
        self.slots.get_mut(lowest)
    }

    /// How many slots are empty or dead.
    pub fn room(&self, now: u64) -> usize {
        let free = self.slots.iter().filter(|slot| !is_live(slot, now));
        free.count()
    }

    /// The held slots of a key, in slot order.
    pub fn held<'s>(&'s self, wanted: &'s [u8]) -> impl Iterator<Item = &'s Slot> {
        let of_key = move |slot: &&Slot| is_held(slot) && key(slot) == wanted;
        self.slots.iter().filter(of_key)
    }

    /// The live slots of a key, in slot order.
    pub fn live<'s>(&'s self, key: &'s [u8], now: u64) -> impl Iterator<Item = &'s Slot> {
        self.held(key).filter(move |slot| is_live(slot, now))
    }

    /// "A key exists if it has a live entry."
    pub fn key_exists(&self, key: &[u8], now: u64) -> bool {
        self.live(key, now).next().is_some()
    }
}

fn is_length(slots: usize, rest: usize) -> bool {
    (1..=MOST_SLOTS).contains(&slots) && rest == 0
}

/// 0, or 2 if the store is not well formed.
pub fn store_check(store: &[u8]) -> u32 {
    if contents(store).is_some() { 0 } else { 2 }
}

/// The clock and the slots of a well-formed store.
#[derive(Clone, Copy)]
pub struct Contents<'a> {
    pub clock: u64,
    pub slots: &'a [Slot],
}

/// None if the store is not well formed.
pub fn contents(store: &[u8]) -> Option<Contents<'_>> {
    let (header, places) = store.split_first_chunk::<HEADER>()?;
    let (slots, rest) = places.as_chunks();
    let clock = low_first(&header[CLOCK]);
    let is_well_formed = is_length(slots.len(), rest.len())
        && clock < TIME_LIMIT
        && is_zero(&header[RESERVED])
        && slots.iter().all(is_slot_well_formed)
        && are_distinct(slots);
    is_well_formed.then_some(Contents { clock, slots })
}

fn is_slot_well_formed(slot: &Slot) -> bool {
    let expiry_fits = match slot[STATE] {
        EMPTY => return is_zero(slot),
        HELD => expiry_bytes(slot) == 0,
        HELD_WITH_EXPIRY => expiry_bytes(slot) <= TIME_LIMIT,
        _ => false,
    };
    expiry_fits
        && is_zero_beyond(&slot[KEY], slot[KEY_LENGTH])
        && is_zero_beyond(&slot[FIELD], slot[FIELD_LENGTH])
        && is_zero_beyond(&slot[VALUE], slot[VALUE_LENGTH])
}

/// "Places beyond a length are zero"; the length is no longer than the place.
fn is_zero_beyond(place: &[u8], length: u8) -> bool {
    place.get(usize::from(length)..).is_some_and(is_zero)
}

/// The bytes are joined by or, which is faster than leaving at the first that is not zero.
pub(crate) fn is_zero(bytes: &[u8]) -> bool {
    bytes.iter().fold(0, |all, byte| all | byte) == 0
}

/// "No two held slots have the same key and field": sorted, each is below the next.
fn are_distinct(slots: &[Slot]) -> bool {
    let mut held = [&EMPTY_SLOT; MOST_SLOTS];
    let mut count = 0;
    for (place, slot) in held
        .iter_mut()
        .zip(slots.iter().filter(|slot| is_held(slot)))
    {
        *place = slot;
        count += 1;
    }
    let held = &mut held[..count];
    held.sort_unstable_by_key(|slot| key_and_field(slot));
    held.is_sorted_by(|slot, next| key_and_field(slot) < key_and_field(next))
}

/// With zero beyond the lengths, the two places and the two lengths tell key and field.
fn key_and_field(slot: &Slot) -> (&[u8], &[u8]) {
    (
        &slot[KEY.start..FIELD.end],
        &slot[KEY_LENGTH..=FIELD_LENGTH],
    )
}
