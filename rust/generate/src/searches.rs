//! Stores to search for a name that most of their slots nearly hold.

use crate::Generator;
use crate::layout::{
    CLOCK, FIELD, HEADER, KEY, LONGEST_FIELD, LONGEST_KEY, MOST_SLOTS, SLOT, store_size,
};
use crate::random::Random;
use crate::store::{clock_of, name_of, store_clock, write_entry};
use crate::text::VALUES;

/// A store has at most so many slots, but for that of the ear tags.
pub const MOST_SLOTS_SEARCHED: usize = 12;
/// Lengths around the ends of words of eight bytes; the longest are there twice, to be met together.
const KEY_LENGTHS: [usize; 9] = [0, 1, 3, 7, 8, 9, 15, 16, 16];
const FIELD_LENGTHS: [usize; 13] = [0, 1, 7, 8, 9, 15, 16, 17, 24, 25, 31, 32, 32];
/// Lengths that no slot has, up to the most that one byte tells.
const TOO_LONG_KEYS: [usize; 4] = [17, 32, 112, 255];
const TOO_LONG_FIELDS: [usize; 3] = [33, 96, 255];
/// Places in a name where words of eight bytes end and begin.
const PLACES: [usize; 6] = [7, 8, 15, 16, 23, 24];
const LETTERS: [u8; 6] = [b'a', b'b', b'c', b'0', 0, 255];

/// A store, and a key and field to search it for.
#[derive(Clone, Debug, PartialEq, Eq)]
pub struct Search {
    pub store: Vec<u8>,
    pub key: Vec<u8>,
    pub field: Vec<u8>,
}

#[derive(Clone, PartialEq, Eq)]
struct Name {
    key: Vec<u8>,
    field: Vec<u8>,
}

impl Generator {
    /// A well-formed store of 1 to 12 slots and a name, now and then too long for any slot.
    pub fn search(&mut self) -> Search {
        let random = &mut self.random;
        let name = Name::drawn(random);
        let slots = random.between(1, MOST_SLOTS_SEARCHED);
        let store = store_around(&name, slots, random);
        let Name { key, field } = if random.once_in(8) {
            too_long(&name, &store, random)
        } else {
            name
        };
        Search { store, key, field }
    }

    /// Searches of a mob of ear tags, alike in their first 12 digits, that fills the store: for two that
    /// are held, the last among them, for one that is not, and for one of another mob.
    pub fn full_store_searches(&mut self) -> Vec<Search> {
        let field = |number: usize| format!("826000123{number:06}").into_bytes();
        let mut store = vec![0; store_size(MOST_SLOTS)];
        for (number, slot) in store[HEADER..].chunks_exact_mut(SLOT).enumerate() {
            write_entry(slot, b"mob", &field(number), b"2", &mut self.random, 0);
        }
        let last = MOST_SLOTS - 1;
        let middle = self.random.between(1, last - 1);
        let names = [
            ("mob", middle),
            ("mob", last),
            ("mob", last + 1),
            ("mub", last),
        ];
        let search = |(key, number): (&str, usize)| Search {
            store: store.clone(),
            key: key.as_bytes().to_vec(),
            field: field(number),
        };
        names.map(search).to_vec()
    }
}

impl Name {
    /// Any name, and often the empty one.
    fn drawn(random: &mut Random) -> Name {
        if random.once_in(12) {
            return Name {
                key: Vec::new(),
                field: Vec::new(),
            };
        }
        let (key, field) = if random.once_in(3) {
            let key = random.between(0, LONGEST_KEY);
            (key, random.between(0, LONGEST_FIELD))
        } else {
            (random.pick(&KEY_LENGTHS), random.pick(&FIELD_LENGTHS))
        };
        Name {
            key: letters(key, random),
            field: letters(field, random),
        }
    }

    /// A name that mostly differs in a byte, in a length, in where the key ends, or in its whole key.
    fn near(&self, random: &mut Random) -> Name {
        let mut name = self.clone();
        match random.below(10) {
            0..=2 => {
                change(&mut name.key, random);
                if random.once_in(4) {
                    change(&mut name.field, random);
                }
            }
            3..=5 => change(&mut name.field, random),
            6 => change_length(&mut name.key, LONGEST_KEY, random),
            7 => change_length(&mut name.field, LONGEST_FIELD, random),
            8 => name.move_a_byte(random),
            _ => name.key = letters(random.pick(&KEY_LENGTHS), random),
        }
        name
    }

    /// The same bytes, but one of the key's counts to the field or the other way.
    fn move_a_byte(&mut self, random: &mut Random) {
        if random.once_in(2) && self.key.len() < LONGEST_KEY && !self.field.is_empty() {
            self.key.push(self.field.remove(0));
        } else if self.field.len() < LONGEST_FIELD
            && let Some(byte) = self.key.pop()
        {
            self.field.insert(0, byte);
        }
    }
}

fn letters(length: usize, random: &mut Random) -> Vec<u8> {
    (0..length).map(|_| random.pick(&LETTERS)).collect()
}

/// Changes one bit of one byte, and sometimes the bytes after it too.
fn change(bytes: &mut [u8], random: &mut Random) {
    let Some(last) = bytes.len().checked_sub(1) else {
        return;
    };
    let at = match random.below(4) {
        0 => 0,
        1 => last,
        2 => random.pick(&PLACES).min(last),
        _ => random.between(0, last),
    };
    bytes[at] ^= 1 << random.below(8);
    if random.once_in(2) {
        bytes[at + 1..].fill_with(|| random.pick(&LETTERS));
    }
}

/// Takes the last byte away, or adds one, often zero.
fn change_length(bytes: &mut Vec<u8>, longest: usize, random: &mut Random) {
    if bytes.len() == longest || (random.once_in(3) && !bytes.is_empty()) {
        bytes.pop();
    } else {
        let byte = random.pick(&[0, 0, b'a']);
        bytes.push(byte);
    }
}

/// A store whose slots are empty, hold names near the given one, or the name itself in one of them.
fn store_around(name: &Name, slots: usize, random: &mut Random) -> Vec<u8> {
    let mut store = vec![0; store_size(slots)];
    let clock = store_clock(random);
    store[CLOCK].copy_from_slice(&clock.to_le_bytes());
    let home = match random.below(4) {
        0 => None,
        1 => Some(slots - 1),
        _ => Some(random.below(slots)),
    };
    for at in 0..slots {
        let near = name.near(random);
        if home == Some(at) {
            hold(&mut store, at, name, random);
        } else if near != *name && !random.once_in(6) && !is_held(&store, &near) {
            hold(&mut store, at, &near, random);
        }
    }
    store
}

fn is_held(store: &[u8], name: &Name) -> bool {
    let mut slots = store[HEADER..].chunks_exact(SLOT);
    slots.any(|slot| name_of(slot) == Some((&name.key, &name.field)))
}

fn hold(store: &mut [u8], at: usize, name: &Name, random: &mut Random) {
    let (clock, value) = (clock_of(store), random.pick(&VALUES));
    let slot = &mut store[store_size(at)..][..SLOT];
    write_entry(slot, &name.key, &name.field, value, random, clock);
}

/// The name with its key, its field or both longer than any slot has: the first slot's bytes from that
/// place on, then zeros.
fn too_long(name: &Name, store: &[u8], random: &mut Random) -> Name {
    let slot = &store[HEADER..][..SLOT];
    let beyond = |start: usize, length: usize| {
        let mut bytes = slot[start..].to_vec();
        bytes.resize(length, 0);
        bytes
    };
    let mut name = name.clone();
    let which = random.below(3);
    if which != 1 {
        name.key = beyond(KEY.start, random.pick(&TOO_LONG_KEYS));
    }
    if which != 0 {
        name.field = beyond(FIELD.start, random.pick(&TOO_LONG_FIELDS));
    }
    name
}
