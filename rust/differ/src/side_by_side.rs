//! Calls on two stores made by both implementations, and everything compared.

use crate::kinds::FILL;
use crate::pair::{Pair, difference, hex};
use crate::side_outcomes;
use exhash::interface::{self, Compared, NewerPlace};
use generate::{Generator, LONGEST_LISTING_BUFFER, Stores};
use std::fmt::{self, Write};

/// Longer than the longest output lent, so that bytes past its end are compared too.
const OUTPUT_SPACE: usize = LONGEST_LISTING_BUFFER + 4_000;
/// Names that each pair of stores is asked for.
const NAMES: usize = 3;

/// What a listing call answered, and the whole output after it.
#[derive(Clone, PartialEq, Eq)]
struct Listed {
    answer: Compared,
    output: Vec<u8>,
}

/// A listing call: two stores, the instant, and the first bytes of the output space.
type List = fn(&Stores, u64, &mut [u8]) -> Compared;

/// The listing of two stores, well formed and then damaged.
pub fn comparison(generator: &mut Generator, pair: &mut Pair) -> Result<(), String> {
    for stores in [generator.stores(), generator.damaged_stores()] {
        let instant = generator.instant(&stores);
        let buffer = generator.listing_buffer_length();
        let before = stores.clone();
        let lists: [List; 2] = [list_by_library, list_by_model];
        let [ours, models] = lists.map(|list| {
            let mut output = vec![FILL; OUTPUT_SPACE];
            let answer = list(&stores, instant, &mut output[..buffer]);
            Listed { answer, output }
        });
        if ours != models || stores != before {
            let what = describe_listed(&ours, &models).unwrap_or_default();
            let inputs = describe_stores(&before, &stores, instant);
            return Err(format!("{what}output of {buffer} bytes\n{inputs}"));
        }
        let bytes = OUTPUT_SPACE + stores.concat().len();
        pair.tally.add_call(ours.answer.refusal, bytes);
        for outcome in side_outcomes::of_listing(&stores, instant, buffer) {
            pair.tally.add_outcome(outcome);
        }
    }
    Ok(())
}

/// The newer value of some names in two stores, well formed and then damaged.
pub fn newer_value(generator: &mut Generator, pair: &mut Pair) -> Result<(), String> {
    for stores in [generator.stores(), generator.damaged_stores()] {
        let instant = generator.instant(&stores);
        for _ in 0..NAMES {
            let (key, field) = generator.name(&stores);
            newer_of(&stores, &key, &field, instant, pair)?;
        }
    }
    Ok(())
}

fn newer_of(
    stores: &Stores,
    key: &[u8],
    field: &[u8],
    instant: u64,
    pair: &mut Pair,
) -> Result<(), String> {
    let (before, [first, second]) = (stores.clone(), stores);
    let ours = interface::newer(first, second, key, field, instant);
    let models = newer_by_model(stores, key, field, instant);
    let part = model::newer_part(first, second, key, field, instant);
    if ours != models || part_at(stores, ours) != Some(part) || *stores != before {
        let inputs = describe_stores(&before, stores, instant);
        let (key, field, part) = (hex(key), hex(field), hex(part));
        let answers = format!("library {ours:?}\nmodel   {models:?}, part {part}");
        return Err(format!("{answers}\nkey {key}, field {field}\n{inputs}"));
    }
    pair.tally.add_call(ours.refusal, stores.concat().len());
    for outcome in side_outcomes::of_newer(stores, key, field, instant) {
        pair.tally.add_outcome(outcome);
    }
    Ok(())
}

/// The bytes at a place; of the first store where it names neither.
fn part_at([first, second]: &Stores, place: NewerPlace) -> Option<&[u8]> {
    let store = if place.which == 2 { second } else { first };
    store.get(place.start..)?.get(..place.size)
}

fn list_by_library([first, second]: &Stores, instant: u64, output: &mut [u8]) -> Compared {
    interface::compare(first, second, instant, output)
}

fn list_by_model([first, second]: &Stores, instant: u64, output: &mut [u8]) -> Compared {
    let model::Compared { refusal, written } = model::compare(first, second, instant, output);
    Compared { refusal, written }
}

fn newer_by_model(stores: &Stores, key: &[u8], field: &[u8], instant: u64) -> NewerPlace {
    let [first, second] = stores;
    let place = model::newer(first, second, key, field, instant);
    NewerPlace {
        refusal: place.refusal,
        which: place.which as u32,
        start: place.start,
        size: place.size,
    }
}

fn describe_listed(ours: &Listed, models: &Listed) -> Result<String, fmt::Error> {
    let mut text = String::new();
    writeln!(text, "library {:?}", ours.answer)?;
    writeln!(text, "model   {:?}", models.answer)?;
    difference(&mut text, "output", &ours.output, &models.output)?;
    Ok(text)
}

fn describe_stores(before: &Stores, after: &Stores, instant: u64) -> String {
    let [first, second] = before.each_ref().map(|store| hex(store));
    let changed = if before == after {
        ""
    } else {
        "a store changed\n"
    };
    format!("{changed}instant {instant}\nfirst {first}\nsecond {second}\n")
}

#[cfg(test)]
mod tests {
    use super::*;

    #[test]
    fn every_difference_is_reported() {
        let answer = Compared {
            refusal: 0,
            written: 8,
        };
        let listed = Listed {
            answer,
            output: vec![FILL; OUTPUT_SPACE],
        };
        let mut other = listed.clone();
        assert!(other == listed);
        other.output[OUTPUT_SPACE - 1] = 8;
        assert!(other != listed);
        let last = OUTPUT_SPACE - 1;
        let expected = format!("output: bytes {last} to {last}: 08, model a5");
        assert!(
            describe_listed(&other, &listed)
                .unwrap()
                .contains(&expected)
        );
        for answer in [
            Compared {
                refusal: 3,
                ..answer
            },
            Compared {
                written: 9,
                ..answer
            },
        ] {
            let output = listed.output.clone();
            assert!(Listed { answer, output } != listed);
        }
    }

    #[test]
    fn a_changed_store_is_reported() {
        let before = [vec![1], vec![2]];
        let after = [vec![1], vec![3]];
        assert!(describe_stores(&before, &after, 5).starts_with("a store changed\ninstant 5\n"));
        assert!(describe_stores(&before, &before, 5).starts_with("instant 5\nfirst 01\n"));
    }
}
