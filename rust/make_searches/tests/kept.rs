//! The searches kept in crates/searches.

use generate::Search;
use generate::layout::{MOST_SLOTS, store_size};
use make_searches::{SEED, SMALL, input, output, searches};
use model::{search, store_check};

const LARGEST_FILE: usize = 400_000;

fn kept(name: &str) -> Vec<u8> {
    let directory = concat!(env!("CARGO_MANIFEST_DIR"), "/../../crates/searches");
    std::fs::read(format!("{directory}/{name}")).expect("the file is kept")
}

/// Takes bytes off the front of the file.
fn take<'a>(rest: &mut &'a [u8], count: usize) -> &'a [u8] {
    let (bytes, after) = rest.split_at(count);
    *rest = after;
    bytes
}

fn take_name(rest: &mut &[u8]) -> Vec<u8> {
    let length = take(rest, 1)[0];
    take(rest, length.into()).to_vec()
}

/// Reads the next search as described.
fn take_search(rest: &mut &[u8]) -> Search {
    let size = u32::from_le_bytes(take(rest, 4).try_into().unwrap());
    Search {
        store: take(rest, size as usize).to_vec(),
        key: take_name(rest),
        field: take_name(rest),
    }
}

#[test]
fn the_files_are_made_from_their_seed() {
    let searches = searches(SEED, SMALL);
    assert!(kept("stdin") == input(&searches));
    assert!(kept("stdout") == output(&searches).as_bytes());
    assert!(kept("stdin").len() <= LARGEST_FILE);
}

/// Read as described, each search is of a well-formed store and has its answer on its line.
#[test]
fn the_files_read_back_give_the_answers() {
    let (input, output) = (kept("stdin"), kept("stdout"));
    let mut lines = std::str::from_utf8(&output).unwrap().lines();
    let mut rest = &input[..];
    while !rest.is_empty() {
        let Search { store, key, field } = take_search(&mut rest);
        assert_eq!(store_check(&store), 0);
        let (slot, compared) = lines.next().unwrap().split_once(' ').unwrap();
        let searched = search(&store, &key, &field);
        assert_eq!(searched.slot, slot.parse().ok());
        assert_eq!(searched.slot.is_none(), slot == "-");
        assert_eq!(searched.compared, compared.parse().unwrap());
    }
    assert_eq!(lines.next(), None);
}

/// Of 500 tags alike in 12 digits, with a key of 3: a tag that differs in its 13th digit takes 16
/// bytes, in the 14th 17, in the 15th 18, and so does the one that is found.
#[test]
fn full_store_as_worked_out_by_hand() {
    let searches = searches(SEED, SMALL);
    let [middle, last, missing, other_key] = &searches[SMALL..] else {
        panic!("there are four");
    };
    let keys = [middle, last, missing, other_key].map(|search| &search.key[..]);
    assert_eq!(keys, [b"mob", b"mob", b"mob", b"mub"]);
    assert_eq!(last.field, b"826000123000499");
    assert_eq!(missing.field, b"826000123000500");
    let compared = [last, missing, other_key].map(|of| {
        assert_eq!(of.store.len(), store_size(MOST_SLOTS));
        search(&of.store, &of.key, &of.field).compared
    });
    let to_the_last = 400 * 16 + 90 * 17 + 9 * 18 + 18;
    assert_eq!(compared, [to_the_last, 500 * 16, 500 * 2]);
}
