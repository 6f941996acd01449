//! What calls on two stores came to, told from the stores and what was asked.

use self::Entry::{Dead, Live, NotHeld};
use crate::outcomes::Outcome;
use generate::Stores;
use generate::layout::{LEAST_LISTING_BUFFER, LONGEST_FIELD, LONGEST_KEY, MOST_SLOTS, TIME_LIMIT};
use model::store::{self, Contents, Name, Slot, contents};
use std::cmp::Ordering;
use std::collections::{BTreeSet, HashMap};

const LISTING: &str = "listing:";
const NEWER: &str = "newer value:";

const BAD_FIRST: &str = "refused as 2 for the first store alone";
const BAD_SECOND: &str = "refused as 2 for the second store alone";
const BAD_BOTH: &str = "refused as 2 for both stores";
const BAD_AND_LATE: &str = "refused as 2 where 11 applies too";
const EARLY_FIRST: &str = "refused as 11 for the first clock alone";
const EARLY_SECOND: &str = "refused as 11 for the second clock alone";
const EARLY_BOTH: &str = "refused as 11 for both clocks";
const LATE: &str = "refused as 11 for the limit";
const EARLY_AND_SHORT: &str = "refused as 11 where 3 applies too";
const SHORT: &str = "refused as 3";

const ONLY_FIRST: &str = "< not held in the second";
const DEAD_SECOND: &str = "< dead in the second";
const ONLY_SECOND: &str = "> not held in the first";
const DEAD_FIRST: &str = "> dead in the first";
const OTHER_VALUE: &str = "~ for the value alone";
const OTHER_VERSION: &str = "~ for the version alone";
const OTHER_EXPIRY: &str = "~ for the expiry alone";
const SOME_OR_NONE: &str = "~ for an expiry against none";
const MORE: &str = "~ for more than one of them";
const OTHER_SLOT: &str = "~ with another slot in the second";
const ALIKE: &str = "no line, alike in both";
const DEAD: &str = "no line, dead";
const NONE: &str = "no line at all";
const MOST: &str = "as many lines as can be";

const HIGHER_FIRST: &str = "higher in the first";
const HIGHER_SECOND: &str = "higher in the second";
const TIE: &str = "a tie";
const LIVE_FIRST: &str = "only in the first";
const LIVE_SECOND: &str = "only in the second";
const OVER_DEAD_SECOND: &str = "in the first, dead in the second";
const OVER_DEAD_FIRST: &str = "in the second, dead in the first";
const NEITHER_DEAD: &str = "in neither, dead";
const NEITHER_HELD: &str = "in neither, not held";
const EMPTY_FIRST: &str = "an empty value of the first";
const EMPTY_SECOND: &str = "an empty value of the second";
const LONG_KEY: &str = "a key too long, its start is held";
const LONG_FIELD: &str = "a field too long, its start is held";

/// All that the two calls come to.
pub const SIDE_OUTCOMES: [Outcome; 45] = [
    (LISTING, BAD_FIRST),
    (LISTING, BAD_SECOND),
    (LISTING, BAD_BOTH),
    (LISTING, BAD_AND_LATE),
    (LISTING, EARLY_FIRST),
    (LISTING, EARLY_SECOND),
    (LISTING, EARLY_BOTH),
    (LISTING, LATE),
    (LISTING, EARLY_AND_SHORT),
    (LISTING, SHORT),
    (LISTING, ONLY_FIRST),
    (LISTING, DEAD_SECOND),
    (LISTING, ONLY_SECOND),
    (LISTING, DEAD_FIRST),
    (LISTING, OTHER_VALUE),
    (LISTING, OTHER_VERSION),
    (LISTING, OTHER_EXPIRY),
    (LISTING, SOME_OR_NONE),
    (LISTING, MORE),
    (LISTING, OTHER_SLOT),
    (LISTING, ALIKE),
    (LISTING, DEAD),
    (LISTING, NONE),
    (LISTING, MOST),
    (NEWER, BAD_FIRST),
    (NEWER, BAD_SECOND),
    (NEWER, BAD_BOTH),
    (NEWER, BAD_AND_LATE),
    (NEWER, EARLY_FIRST),
    (NEWER, EARLY_SECOND),
    (NEWER, EARLY_BOTH),
    (NEWER, LATE),
    (NEWER, HIGHER_FIRST),
    (NEWER, HIGHER_SECOND),
    (NEWER, TIE),
    (NEWER, LIVE_FIRST),
    (NEWER, LIVE_SECOND),
    (NEWER, OVER_DEAD_SECOND),
    (NEWER, OVER_DEAD_FIRST),
    (NEWER, NEITHER_DEAD),
    (NEWER, NEITHER_HELD),
    (NEWER, EMPTY_FIRST),
    (NEWER, EMPTY_SECOND),
    (NEWER, LONG_KEY),
    (NEWER, LONG_FIELD),
];

/// Outcomes, each once.
type Told = BTreeSet<&'static str>;

/// An entry in one store at an instant, with its slot's number.
#[derive(Clone, Copy)]
enum Entry<'a> {
    NotHeld,
    Dead,
    Live(usize, &'a Slot),
}

/// What the listing of two stores came to, each outcome once.
pub fn of_listing(stores: &Stores, instant: u64, buffer: usize) -> BTreeSet<Outcome> {
    let is_short = buffer < LEAST_LISTING_BUFFER;
    let told = match readable(stores, instant) {
        Err((number, mut told)) => {
            told.extend((number == 11 && is_short).then_some(EARLY_AND_SHORT));
            told
        }
        Ok(_) if is_short => Told::from([SHORT]),
        Ok([first, second]) => of_entries(first, second, instant),
    };
    of_call(LISTING, told)
}

/// What the newer value of one name came to, each outcome once.
pub fn of_newer(stores: &Stores, key: &[u8], field: &[u8], instant: u64) -> BTreeSet<Outcome> {
    let told = match readable(stores, instant) {
        Err((_, told)) => told,
        Ok(contents) => {
            let name = Name { key, field };
            let entries = contents.map(|store| entry(store, name, instant));
            let mut told = of_versions(entries);
            told.extend(of_a_long_name(&contents, name, instant));
            told
        }
    };
    of_call(NEWER, told)
}

fn of_call(call: &'static str, told: Told) -> BTreeSet<Outcome> {
    told.into_iter().map(|came_to| (call, came_to)).collect()
}

/// Both stores' contents, or the refusal and what it came from.
fn readable(stores: &Stores, instant: u64) -> Result<[Contents<'_>; 2], (u32, Told)> {
    let is_late = instant >= TIME_LIMIT;
    let bad = match stores.each_ref().map(|store| contents(store)) {
        [Some(first), Some(second)] => {
            let early = [first, second].map(|store| instant < store.clock);
            let wrong = wrong_instant(early, is_late);
            return wrong.map_or(Ok([first, second]), |why| Err((11, Told::from([why]))));
        }
        [None, Some(_)] => BAD_FIRST,
        [Some(_), None] => BAD_SECOND,
        [None, None] => BAD_BOTH,
    };
    let too = is_late.then_some(BAD_AND_LATE);
    Err((2, [bad].into_iter().chain(too).collect()))
}

fn wrong_instant(early: [bool; 2], is_late: bool) -> Option<&'static str> {
    match (early, is_late) {
        (_, true) => Some(LATE),
        ([true, false], false) => Some(EARLY_FIRST),
        ([false, true], false) => Some(EARLY_SECOND),
        ([true, true], false) => Some(EARLY_BOTH),
        ([false, false], false) => None,
    }
}

/// What the entries that either store holds come to.
fn of_entries(first: Contents, second: Contents, instant: u64) -> Told {
    let (in_first, in_second) = (held(first, instant), held(second, instant));
    let names: BTreeSet<_> = in_first.keys().chain(in_second.keys()).collect();
    let (mut told, mut lines) = (Told::new(), 0);
    for name in names {
        let [first, second] =
            [&in_first, &in_second].map(|held| *held.get(name).unwrap_or(&NotHeld));
        let came_to = of_entry(first, second);
        told.insert(came_to);
        lines += usize::from(came_to != ALIKE && came_to != DEAD);
        if let (Live(slot, _), Live(other, _)) = (first, second)
            && came_to != ALIKE
            && slot != other
        {
            told.insert(OTHER_SLOT);
        }
    }
    told.extend((lines == 0).then_some(NONE));
    told.extend((lines == 2 * MOST_SLOTS).then_some(MOST));
    told
}

/// The held entries of a store by key and field.
fn held(store: Contents<'_>, instant: u64) -> HashMap<(&[u8], &[u8]), Entry<'_>> {
    let slots = store.slots.iter().enumerate();
    let held = slots.filter(|(_, slot)| store::is_held(slot));
    let named = held.map(|(number, slot)| {
        let name = (store::key(slot), store::field(slot));
        (name, at(number, slot, instant))
    });
    named.collect()
}

fn at(number: usize, slot: &Slot, instant: u64) -> Entry<'_> {
    if store::is_live(slot, instant) {
        Live(number, slot)
    } else {
        Dead
    }
}

/// The entry of a name in a store.
fn entry<'a>(store: Contents<'a>, name: Name, instant: u64) -> Entry<'a> {
    let is_named = |slot: &Slot| store::is_held(slot) && store::name(slot) == name;
    let number = store.slots.iter().position(is_named);
    number.map_or(NotHeld, |number| at(number, &store.slots[number], instant))
}

fn of_entry(first: Entry, second: Entry) -> &'static str {
    match (first, second) {
        (Live(_, slot), Live(_, other)) => of_both(slot, other),
        (Live(..), NotHeld) => ONLY_FIRST,
        (Live(..), Dead) => DEAD_SECOND,
        (NotHeld, Live(..)) => ONLY_SECOND,
        (Dead, Live(..)) => DEAD_FIRST,
        (NotHeld | Dead, NotHeld | Dead) => DEAD,
    }
}

fn of_both(slot: &Slot, other: &Slot) -> &'static str {
    let value = store::value(slot) == store::value(other);
    let version = store::version(slot) == store::version(other);
    let (expiry, against) = (store::expiry(slot), store::expiry(other));
    match (value, version, expiry == against) {
        (true, true, true) => ALIKE,
        (false, true, true) => OTHER_VALUE,
        (true, false, true) => OTHER_VERSION,
        (true, true, false) if expiry.is_some() == against.is_some() => OTHER_EXPIRY,
        (true, true, false) => SOME_OR_NONE,
        _ => MORE,
    }
}

fn of_versions([first, second]: [Entry; 2]) -> Told {
    let (came_to, newer, empty) = match (first, second) {
        (Live(_, slot), Live(_, other)) => match store::version(slot).cmp(&store::version(other)) {
            Ordering::Less => (HIGHER_SECOND, Some(other), EMPTY_SECOND),
            Ordering::Equal => (TIE, Some(slot), EMPTY_FIRST),
            Ordering::Greater => (HIGHER_FIRST, Some(slot), EMPTY_FIRST),
        },
        (Live(_, slot), NotHeld) => (LIVE_FIRST, Some(slot), EMPTY_FIRST),
        (Live(_, slot), Dead) => (OVER_DEAD_SECOND, Some(slot), EMPTY_FIRST),
        (NotHeld, Live(_, slot)) => (LIVE_SECOND, Some(slot), EMPTY_SECOND),
        (Dead, Live(_, slot)) => (OVER_DEAD_FIRST, Some(slot), EMPTY_SECOND),
        (NotHeld, NotHeld) => (NEITHER_HELD, None, ""),
        (NotHeld | Dead, NotHeld | Dead) => (NEITHER_DEAD, None, ""),
    };
    let is_empty = newer.is_some_and(|slot| store::value(slot).is_empty());
    let too = is_empty.then_some(empty);
    [came_to].into_iter().chain(too).collect()
}

/// A key or field that is too long, where an entry with its start is live.
fn of_a_long_name(stores: &[Contents; 2], name: Name, instant: u64) -> Option<&'static str> {
    let Name { key, field } = name;
    let (start, came_to) = match (key.get(..LONGEST_KEY), field.get(..LONGEST_FIELD)) {
        (Some(start), _) if key.len() > LONGEST_KEY => (Name { key: start, field }, LONG_KEY),
        (_, Some(start)) if field.len() > LONGEST_FIELD => (Name { key, field: start }, LONG_FIELD),
        _ => return None,
    };
    let mut entries = stores.iter().map(|store| entry(*store, start, instant));
    entries
        .any(|entry| matches!(entry, Live(..)))
        .then_some(came_to)
}

#[cfg(test)]
mod tests {
    use super::*;
    use generate::layout::{HEAD, LEAST_REPLY_BUFFER, store_size};
    use generate::record;

    const NOW: u64 = 5;

    /// The store of 2 slots that some commands leave.
    fn store(commands: &[&str]) -> Vec<u8> {
        let mut store = vec![0; store_size(2)];
        let mut reply = vec![0; LEAST_REPLY_BUFFER];
        for command in commands {
            let record = record(NOW, command);
            let done = model::execute(NOW, &record[HEAD..], &mut store, &mut reply);
            assert_eq!(done.refusal, 0, "{command}");
        }
        store
    }

    /// What outcomes, all of one call, say.
    fn said(call: &str, told: BTreeSet<Outcome>) -> Vec<&'static str> {
        assert!(told.iter().all(|(of, _)| *of == call));
        told.into_iter().map(|(_, came_to)| came_to).collect()
    }

    fn listing(stores: &Stores, instant: u64, buffer: usize) -> Vec<&'static str> {
        said(LISTING, of_listing(stores, instant, buffer))
    }

    fn newer(stores: &Stores, key: &[u8], field: &[u8], instant: u64) -> Vec<&'static str> {
        said(NEWER, of_newer(stores, key, field, instant))
    }

    /// Commands on the first and on the second store, and what field a comes to in both calls.
    type Row<'a> = (
        &'a [&'a str],
        &'a [&'a str],
        &'a [&'static str],
        &'static str,
    );

    #[test]
    fn entries_are_told_apart() {
        let set = "EXHSET m a 1";
        let dead = "EXHSET m a 2 PXAT 1";
        let rows: [Row; 13] = [
            (&[], &[], &[NONE], NEITHER_HELD),
            (&[set], &[], &[ONLY_FIRST], LIVE_FIRST),
            (&[], &[set], &[ONLY_SECOND], LIVE_SECOND),
            (&[set], &[set], &[ALIKE, NONE], TIE),
            (&[set], &[dead], &[DEAD_SECOND], OVER_DEAD_SECOND),
            (&[dead], &[set], &[DEAD_FIRST], OVER_DEAD_FIRST),
            (&[dead], &[dead], &[DEAD, NONE], NEITHER_DEAD),
            (&[dead], &[], &[DEAD, NONE], NEITHER_DEAD),
            (&[set], &["EXHSET m a 2"], &[OTHER_VALUE], TIE),
            (
                &[set],
                &["EXHSET m a 1 ABS 2"],
                &[OTHER_VERSION],
                HIGHER_SECOND,
            ),
            (&["EXHSET m a 2 ABS 2"], &[set], &[MORE], HIGHER_FIRST),
            (&[set], &["EXHSET m a 1 PXAT 9"], &[SOME_OR_NONE], TIE),
            (
                &["EXHSET m a 1 PXAT 8"],
                &["EXHSET m a 1 PXAT 9"],
                &[OTHER_EXPIRY],
                TIE,
            ),
        ];
        for (first, second, came_to, of_newer) in rows {
            let stores = [store(first), store(second)];
            let told = listing(&stores, NOW, LEAST_LISTING_BUFFER);
            assert_eq!(
                BTreeSet::from_iter(told),
                BTreeSet::from_iter(came_to.to_vec())
            );
            assert_eq!(newer(&stores, b"m", b"a", NOW), [of_newer]);
        }
    }

    #[test]
    fn slots_empty_values_and_long_names_are_told() {
        let longest = "F".repeat(LONGEST_FIELD);
        let first = store(&["EXHSET m b 1", "EXHSET m a "]);
        let second = store(&["EXHSET m a 1", &format!("EXHSET m {longest} 1")]);
        let stores = [first, second];
        let told = listing(&stores, NOW, LEAST_LISTING_BUFFER);
        assert_eq!(told, [ONLY_FIRST, ONLY_SECOND, OTHER_VALUE, OTHER_SLOT]);
        assert_eq!(newer(&stores, b"m", b"a", NOW), [TIE, EMPTY_FIRST]);
        let long = format!("{longest}F");
        let told = newer(&stores, b"m", long.as_bytes(), NOW);
        assert_eq!(told, [LONG_FIELD, NEITHER_HELD]);
        assert_eq!(newer(&stores, b"k", long.as_bytes(), NOW), [NEITHER_HELD]);
    }

    #[test]
    fn refusals_are_told_apart() {
        let (early, late) = (vec![0; store_size(1)], store(&["EXHLEN m"]));
        let enough = LEAST_LISTING_BUFFER;
        for (first, second, instant, buffer, came_to) in [
            (&early[1..], &late[..], NOW, 0, &[BAD_FIRST][..]),
            (&late, &early[1..], 0, enough, &[BAD_SECOND]),
            (
                &early[1..],
                &late[1..],
                TIME_LIMIT,
                0,
                &[BAD_BOTH, BAD_AND_LATE],
            ),
            (&early, &late, 4, enough, &[EARLY_SECOND]),
            (&late, &early, 4, enough, &[EARLY_FIRST]),
            (&late, &late, 4, enough, &[EARLY_BOTH]),
            (&late, &late, TIME_LIMIT, 0, &[LATE, EARLY_AND_SHORT]),
            (&late, &late, NOW, enough - 1, &[SHORT]),
        ] {
            let stores = [first.to_vec(), second.to_vec()];
            assert_eq!(listing(&stores, instant, buffer), came_to);
        }
    }
}
