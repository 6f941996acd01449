//! M-103: how many bytes a search compares, worked out by hand.

mod common;

use common::Handset;
use model::{Searched, search, store_check};

/// A store of three slots, after some commands at clock 0.
fn store(commands: &[&str]) -> Vec<u8> {
    let mut handset = Handset::new(3);
    for command in commands {
        handset.reply(0, command);
    }
    assert_eq!(store_check(&handset.store), 0);
    handset.store
}

/// Slot 0 holds mob tag1, slot 1 mop tag2, slot 2 mob tag2.
fn three() -> Vec<u8> {
    store(&[
        "EXHSET mob tag1 1",
        "EXHSET mop tag2 1",
        "EXHSET mob tag2 1",
    ])
}

/// Searches with the slot and the number of bytes that they come to.
fn assert_searches(store: &[u8], expected: &[(&str, &str, Option<usize>, usize)]) {
    for (key, field, slot, compared) in expected {
        let searched = search(store, key.as_bytes(), field.as_bytes());
        let (slot, compared) = (*slot, *compared);
        assert_eq!(searched, Searched { slot, compared }, "{key:?} {field:?}");
    }
}

#[test]
fn a_match_compares_all_its_bytes_and_ends_the_search() {
    assert_searches(
        &three(),
        &[
            // All of mob tag1.
            ("mob", "tag1", Some(0), 7),
            // mob up to its b, then all of mop tag2.
            ("mop", "tag2", Some(1), 3 + 7),
            // mob tag1 up to its 1, mop up to its p, then all of mob tag2.
            ("mob", "tag2", Some(2), 7 + 3 + 7),
        ],
    );
}

#[test]
fn a_slot_is_left_at_the_first_byte_that_differs() {
    assert_searches(
        &three(),
        &[
            ("mob", "tag3", None, 7 + 3 + 7),
            ("xob", "tag1", None, 1 + 1 + 1),
            ("mxb", "tag1", None, 2 + 2 + 2),
            ("mob", "xag1", None, 4 + 3 + 4),
            // Where key and field differ, the key comes first.
            ("mop", "xxxx", None, 3 + 4 + 3),
        ],
    );
}

#[test]
fn a_slot_of_other_lengths_is_skipped() {
    assert_searches(
        &three(),
        &[
            ("mo", "tag1", None, 0),
            ("mobs", "tag1", None, 0),
            ("mob", "tag", None, 0),
            ("mob", "tag11", None, 0),
            ("mob", "", None, 0),
            ("", "tag1", None, 0),
            ("", "", None, 0),
            // As many bytes in all, and the same ones.
            ("mobt", "ag1", None, 0),
            ("mob\0", "tag1", None, 0),
            ("mob", "tag1\0", None, 0),
            (&"m".repeat(17), "tag1", None, 0),
            ("mob", &"t".repeat(33), None, 0),
            (&"m".repeat(255), &"t".repeat(255), None, 0),
            // Lengths of a slot plus 256.
            (&"m".repeat(259), "tag1", None, 0),
            ("mob", &"t".repeat(260), None, 0),
        ],
    );
    let mixed = store(&[
        "EXHSET mob tag10 1",
        "EXHSET mo tag1 1",
        "EXHSET mob tag1 1",
    ]);
    assert_searches(&mixed, &[("mob", "tag1", Some(2), 7)]);
}

#[test]
fn an_empty_slot_is_skipped() {
    let mut handset = Handset::new(3);
    assert_searches(
        &handset.store,
        &[("mob", "tag1", None, 0), ("", "", None, 0)],
    );
    handset.store = three();
    handset.reply(0, "EXHDEL mop tag2");
    assert_searches(
        &handset.store,
        &[
            ("mob", "tag2", Some(2), 7 + 7),
            ("mop", "tag2", None, 3 + 3),
        ],
    );
}

/// An empty name has no byte to compare, and is not what an empty slot holds.
#[test]
fn empty_names_are_found_where_they_are_held() {
    let mut handset = Handset::new(3);
    // The field a of the empty key, then its empty field; then the first slot is emptied.
    handset.reply(0, "EXHMSET  a 1  1");
    assert_searches(&handset.store, &[("", "", Some(1), 0), ("", "b", None, 1)]);
    handset.reply(0, "EXHDEL  a");
    assert_searches(&handset.store, &[("", "", Some(1), 0), ("", "a", None, 0)]);
    assert_searches(
        &store(&["EXHSET a  1"]),
        &[("a", "", Some(0), 1), ("b", "", None, 1)],
    );
}

#[test]
fn a_dead_entry_is_compared_like_a_live_one() {
    let dead = store(&["EXHSET mob tag1 1 PXAT 0", "EXHSET mop tag1 1"]);
    assert_searches(
        &dead,
        &[("mob", "tag1", Some(0), 7), ("mop", "tag1", Some(1), 3 + 7)],
    );
}

/// Zero bytes of a name are bytes of it, though those beyond a length are zero too.
#[test]
fn zero_bytes_of_a_name_count() {
    let zeros = store(&["EXHSET a f 1", "EXHSET a\0 f 1", "EXHSET a\0 f\0 1"]);
    assert_searches(
        &zeros,
        &[
            ("a", "f", Some(0), 2),
            ("a\0", "f", Some(1), 3),
            ("a\0", "f\0", Some(2), 4),
            ("a", "f\0", None, 0),
            ("ab", "f\0", None, 2),
        ],
    );
}

/// The longest names: 16 and 32 bytes.
#[test]
fn every_byte_of_the_longest_names_is_compared() {
    let (key, field) = ("0123456789abcdef", "0123456789abcdefghijklmnopqrstuv");
    let longest = store(&[&format!("EXHSET {key} {field} 1")]);
    assert_searches(&longest, &[(key, field, Some(0), 48)]);
    for at in 0..48 {
        let mut name = [key, field].concat().into_bytes();
        name[at] = b'-';
        let (key, field) = name.split_at(16);
        let compared = at + 1;
        let slot = None;
        assert_eq!(search(&longest, key, field), Searched { slot, compared });
    }
}
