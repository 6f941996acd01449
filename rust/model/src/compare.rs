//! Two stores side by side at an instant: the listing of their differences, and the newer value of one
//! field.

use crate::layout::{LEAST_LISTING_BUFFER, TIME_LIMIT, VALUE, store_size};
use crate::store::{self, Contents, Name, Slot};
use std::collections::HashMap;
use std::io::Write;

/// What the listing's call answers.
#[derive(Clone, Copy, Debug, PartialEq, Eq)]
pub struct Compared {
    pub refusal: u32,
    /// The listing's bytes, at the output's start.
    pub written: usize,
}

/// The store that has the newer value.
#[derive(Clone, Copy, Debug, PartialEq, Eq)]
pub enum Which {
    Neither = 0,
    First = 1,
    Second = 2,
}

/// Where the newer value stands: `size` bytes from `start` on in that store.
#[derive(Clone, Copy, Debug, PartialEq, Eq)]
pub struct NewerPlace {
    pub refusal: u32,
    pub which: Which,
    pub start: usize,
    pub size: usize,
}

/// A slot, and its number in the store.
type Numbered<'a> = (usize, &'a Slot);

/// Writes one line for each difference; "bytes beyond keep theirs".
pub fn compare(first: &[u8], second: &[u8], instant: u64, out: &mut [u8]) -> Compared {
    match both(first, second, instant) {
        Err(refusal) => Compared {
            refusal,
            written: 0,
        },
        Ok(_) if out.len() < LEAST_LISTING_BUFFER => Compared {
            refusal: 3,
            written: 0,
        },
        Ok([first, second]) => Compared {
            refusal: 0,
            written: list(first, second, instant, out),
        },
    }
}

/// "Store not well formed 2 (first store, then second), instant earlier than a clock or at least
/// 4,102,444,800,000 is 11."
fn both<'a>(first: &'a [u8], second: &'a [u8], instant: u64) -> Result<[Contents<'a>; 2], u32> {
    let first = store::contents(first).ok_or(2_u32)?;
    let second = store::contents(second).ok_or(2_u32)?;
    if instant < first.clock || instant < second.clock || instant >= TIME_LIMIT {
        return Err(11);
    }
    Ok([first, second])
}

/// "First for the first store's slots in order, then for entries only in the second, in its slot
/// order." Answers how many bytes were written.
fn list(first: Contents, second: Contents, instant: u64, out: &mut [u8]) -> usize {
    let in_first = live_by_name(first, instant);
    let in_second = live_by_name(second, instant);
    let size = out.len();
    let mut rest = out;
    for (number, slot) in live(first, instant) {
        match in_second.get(&store::name(slot)) {
            None => write_line(&mut rest, '<', number, slot),
            Some(other) if differ(slot, other) => write_line(&mut rest, '~', number, slot),
            Some(_) => {}
        }
    }
    for (number, slot) in live(second, instant) {
        if !in_first.contains_key(&store::name(slot)) {
            write_line(&mut rest, '>', number, slot);
        }
    }
    size - rest.len()
}

/// "Another value, version or expiry."
fn differ(slot: &Slot, other: &Slot) -> bool {
    let told = |slot| {
        (
            store::value(slot),
            store::version(slot),
            store::expiry(slot),
        )
    };
    told(slot) != told(other)
}

/// "Then a space, key length, space, field length, space, slot number ..., newline." The longest
/// listing, two stores of the most slots with nothing in common, is well under the least output.
fn write_line(rest: &mut &mut [u8], mark: char, number: usize, slot: &Slot) {
    let (key, field) = (store::key(slot).len(), store::field(slot).len());
    writeln!(rest, "{mark} {key} {field} {number}").expect("there is room for every line");
}

/// The slots that are live at the instant, in order.
fn live(contents: Contents<'_>, instant: u64) -> impl Iterator<Item = Numbered<'_>> {
    let numbered = contents.slots.iter().enumerate();
    numbered.filter(move |(_, slot)| store::is_live(slot, instant))
}

fn live_by_name(contents: Contents<'_>, instant: u64) -> HashMap<Name<'_>, &Slot> {
    let named = |(_, slot)| (store::name(slot), slot);
    live(contents, instant).map(named).collect()
}

/// The place of "whichever store's bytes holds the higher version, the first store's on a tie; if only
/// one has it live, that one's".
pub fn newer(first: &[u8], second: &[u8], key: &[u8], field: &[u8], instant: u64) -> NewerPlace {
    let [first, second] = match both(first, second, instant) {
        Ok(contents) => contents,
        Err(refusal) => return nowhere(refusal),
    };
    let name = Name { key, field };
    let find = |contents| live(contents, instant).find(|(_, slot)| store::name(slot) == name);
    match (find(first), find(second)) {
        (Some((_, older)), Some(slot)) if store::version(slot.1) > store::version(older) => {
            value_of(Which::Second, slot)
        }
        (Some(slot), _) => value_of(Which::First, slot),
        (None, Some(slot)) => value_of(Which::Second, slot),
        (None, None) => nowhere(0),
    }
}

fn value_of(which: Which, (number, slot): Numbered) -> NewerPlace {
    NewerPlace {
        refusal: 0,
        which,
        start: store_size(number) + VALUE.start,
        size: store::value(slot).len(),
    }
}

fn nowhere(refusal: u32) -> NewerPlace {
    NewerPlace {
        refusal,
        which: Which::Neither,
        start: 0,
        size: 0,
    }
}

/// The newer value itself; "an empty part of the first if neither, or on a refusal".
pub fn newer_part<'a>(
    first: &'a [u8],
    second: &'a [u8],
    key: &[u8],
    field: &[u8],
    instant: u64,
) -> &'a [u8] {
    let place = newer(first, second, key, field, instant);
    let store = match place.which {
        Which::Second => second,
        Which::First | Which::Neither => first,
    };
    &store[place.start..][..place.size]
}
