//! M-103: the search for a key and field, with the number of bytes that it compares.

use crate::layout::{FIELD_LENGTH, HEADER, KEY_LENGTH};
use crate::store::{self, Slot};

/// What a search answers.
#[derive(Clone, Copy, Debug, PartialEq, Eq)]
pub struct Searched {
    /// The slot that holds the key and field, dead or live.
    pub slot: Option<usize>,
    pub compared: usize,
}

/// "Slots in ascending order and ended by a match." The store is well formed.
pub fn search(store: &[u8], key: &[u8], field: &[u8]) -> Searched {
    let (slots, _) = store[HEADER..].as_chunks();
    let mut compared = 0;
    'slots: for (number, slot) in slots.iter().enumerate() {
        if is_skipped(slot, key, field) {
            continue;
        }
        // "Those up to and with the first that differs, or all, key before field."
        let held = store::key(slot).iter().chain(store::field(slot));
        for (held, wanted) in held.zip(key.iter().chain(field)) {
            compared += 1;
            if held != wanted {
                continue 'slots;
            }
        }
        return Searched {
            slot: Some(number),
            compared,
        };
    }
    Searched {
        slot: None,
        compared,
    }
}

/// "Skip a slot as soon as it is empty or its key or field length differs."
fn is_skipped(slot: &Slot, key: &[u8], field: &[u8]) -> bool {
    !store::is_held(slot)
        || usize::from(slot[KEY_LENGTH]) != key.len()
        || usize::from(slot[FIELD_LENGTH]) != field.len()
}
