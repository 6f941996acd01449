//! What the searches of small stores come to: each thing at least some times.

use generate::Search;
use generate::layout::{
    CLOCK, EMPTY, EXPIRING, EXPIRY, FIELD, FIELD_LENGTH, HEADER, KEY, KEY_LENGTH, LONGEST_FIELD,
    LONGEST_KEY, SLOT, STATE,
};
use make_searches::{SEED, SMALL, searches};
use std::collections::BTreeMap;

const LEAST: usize = 3;

const OF_SEARCHES: [&str; 15] = [
    "found",
    "not found",
    "found in the last slot",
    "found after its field under another key",
    "found, dead",
    "found, empty key",
    "found, empty field",
    "found, both empty",
    "found, both empty, after an empty slot",
    "found, as long as can be",
    "key too long",
    "field too long",
    "key of 255 bytes",
    "field of 255 bytes",
    "both too long",
];

/// Of slots that a search goes past.
const OF_SLOTS: [&str; 11] = [
    "empty slot",
    "other key length",
    "other field length",
    "same field, other key as long",
    "same field, other key not as long",
    "same key, other field not as long",
    "same bytes, another end of the key",
    "key with zeros more or less",
    "field with zeros more or less",
    "empty key, field compared",
    "dead, compared",
];

/// Of keys and of fields as long as the wanted ones.
const OF_DIFFERENCES: [&str; 8] = [
    "differs in its first byte",
    "differs in its last byte",
    "differs beyond byte 8",
    "differs at a word's end",
    "differs at a word's start",
    "differs in a highest bit",
    "differs in one byte, not the last",
    "differs in later bytes too",
];
const OF_FIELDS: [&str; 2] = ["differs beyond byte 16", "differs beyond byte 24"];

fn slots_of(store: &[u8]) -> Vec<&[u8]> {
    store[HEADER..].chunks_exact(SLOT).collect()
}

fn is_empty(slot: &[u8]) -> bool {
    slot[STATE] == EMPTY
}

fn key_of(slot: &[u8]) -> &[u8] {
    &slot[KEY][..slot[KEY_LENGTH].into()]
}

fn field_of(slot: &[u8]) -> &[u8] {
    &slot[FIELD][..slot[FIELD_LENGTH].into()]
}

fn holds(slot: &[u8], key: &[u8], field: &[u8]) -> bool {
    !is_empty(slot) && (key_of(slot), field_of(slot)) == (key, field)
}

/// "An entry is live if it has no expiry or now is less than its expiry, otherwise dead."
fn is_dead(slot: &[u8], store: &[u8]) -> bool {
    let number = |bytes: &[u8]| u64::from_le_bytes(bytes.try_into().unwrap());
    slot[STATE] == EXPIRING && number(&slot[EXPIRY]) <= number(&store[CLOCK])
}

/// Whether one of two names is the other and zeros.
fn is_padded(one: &[u8], other: &[u8]) -> bool {
    let longer = |long: &[u8], short: &[u8]| {
        let beyond = long.strip_prefix(short).unwrap_or_default();
        !beyond.is_empty() && beyond.iter().all(|byte| *byte == 0)
    };
    longer(one, other) || longer(other, one)
}

/// How often each thing was met.
#[derive(Default)]
struct Met {
    counts: BTreeMap<String, usize>,
}

impl Met {
    fn meet(&mut self, things: &[(bool, &str)]) {
        for (_, what) in things.iter().filter(|(is_met, _)| *is_met) {
            *self.counts.entry(what.to_string()).or_insert(0) += 1;
        }
    }

    /// A search, with the slots up to its end.
    fn search(&mut self, search: &Search) {
        let Search { store, key, field } = search;
        let slots = slots_of(store);
        let found = slots.iter().position(|slot| holds(slot, key, field));
        let past = &slots[..found.unwrap_or(slots.len())];
        for slot in past {
            self.slot(slot, search);
        }
        match found {
            Some(number) => self.found(slots[number], past, search),
            None => self.meet(&[(true, "not found")]),
        }
        let (long_key, long_field) = (key.len() > LONGEST_KEY, field.len() > LONGEST_FIELD);
        self.meet(&[
            (long_key, "key too long"),
            (long_field, "field too long"),
            (long_key && long_field, "both too long"),
            (key.len() == 255, "key of 255 bytes"),
            (field.len() == 255, "field of 255 bytes"),
        ]);
    }

    /// The slot that ends a search, and those before it.
    fn found(&mut self, slot: &[u8], past: &[&[u8]], search: &Search) {
        let Search { store, key, field } = search;
        let is_last = !past.is_empty() && past.len() + 1 == slots_of(store).len();
        let has_field = |slot: &&[u8]| !is_empty(slot) && field_of(slot) == field;
        let (no_key, no_field) = (key.is_empty(), field.is_empty());
        let after_empty = past.iter().any(|slot| is_empty(slot));
        let longest = key.len() == LONGEST_KEY && field.len() == LONGEST_FIELD;
        let after_another = past.iter().any(has_field);
        self.meet(&[
            (true, "found"),
            (is_last, "found in the last slot"),
            (after_another, "found after its field under another key"),
            (is_dead(slot, store), "found, dead"),
            (no_key && !no_field, "found, empty key"),
            (no_field && !no_key, "found, empty field"),
            (no_key && no_field, "found, both empty"),
            (
                no_key && no_field && after_empty,
                "found, both empty, after an empty slot",
            ),
            (longest, "found, as long as can be"),
        ]);
    }

    /// A slot that a search goes past.
    fn slot(&mut self, slot: &[u8], Search { store, key, field }: &Search) {
        if is_empty(slot) {
            return self.meet(&[(true, "empty slot")]);
        }
        let (held_key, held_field) = (key_of(slot), field_of(slot));
        let as_long = (held_key.len() == key.len(), held_field.len() == field.len());
        let same = (held_key == key, held_field == field);
        let same_bytes = [held_key, held_field].concat() == [&key[..], field].concat();
        self.meet(&[
            (!as_long.0, "other key length"),
            (as_long.0 && !as_long.1, "other field length"),
            (same.1 && as_long.0, "same field, other key as long"),
            (same.1 && !as_long.0, "same field, other key not as long"),
            (same.0 && !as_long.1, "same key, other field not as long"),
            (same_bytes, "same bytes, another end of the key"),
            (
                is_padded(held_key, key) && same.1,
                "key with zeros more or less",
            ),
            (
                is_padded(held_field, field) && same.0,
                "field with zeros more or less",
            ),
        ]);
        if as_long == (true, true) {
            let no_key = key.is_empty();
            self.meet(&[
                (no_key, "empty key, field compared"),
                (is_dead(slot, store), "dead, compared"),
            ]);
            match same.0 {
                false => self.difference("key", held_key, key),
                true => self.difference("field", held_field, field),
            }
        }
    }

    /// Names as long as one another, compared up to where they differ.
    fn difference(&mut self, which: &str, held: &[u8], wanted: &[u8]) {
        let pairs = held.iter().zip(wanted);
        let at = pairs.take_while(|(held, wanted)| held == wanted).count();
        let last = held.len() - 1;
        let later = held[at + 1..] != wanted[at + 1..];
        let things = [
            (at == 0 && last > 0, "differs in its first byte"),
            (at == last && last > 0, "differs in its last byte"),
            (at >= 8, "differs beyond byte 8"),
            (at >= 16, "differs beyond byte 16"),
            (at >= 24, "differs beyond byte 24"),
            (at % 8 == 7, "differs at a word's end"),
            (at > 0 && at % 8 == 0, "differs at a word's start"),
            (held[at] ^ wanted[at] == 1 << 7, "differs in a highest bit"),
            (at < last && !later, "differs in one byte, not the last"),
            (later, "differs in later bytes too"),
        ];
        for (is_met, what) in things {
            self.meet(&[(is_met, &format!("{which} {what}"))]);
        }
    }
}

#[test]
fn the_searches_meet_everything() {
    let mut met = Met::default();
    for search in &searches(SEED, SMALL)[..SMALL] {
        met.search(search);
    }
    println!("searches: {:#?}", met.counts);
    let of = |which: &str, what: &[&str]| {
        let named = what.iter().map(|what| format!("{which}{what}"));
        named.collect::<Vec<_>>()
    };
    let expected = [
        of("", &OF_SEARCHES),
        of("", &OF_SLOTS),
        of("key ", &OF_DIFFERENCES),
        of("field ", &OF_DIFFERENCES),
        of("field ", &OF_FIELDS),
    ]
    .concat();
    for what in &expected {
        let count = met.counts.get(what).copied().unwrap_or(0);
        assert!(count >= LEAST, "{what}: {count}");
    }
    assert_eq!(met.counts.len(), expected.len());
}
