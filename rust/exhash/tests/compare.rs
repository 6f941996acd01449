//! The wrapper of two stores side by side: what it reads from the stores, its lifetimes and refusals.

use exhash::{
    COMPARE_SIZE, Difference, Feeder, Mark, REPLY_SIZE, Refusal, Which, compare, newer, store_size,
};
use generate::layout::{TIME_LIMIT, VALUE};
use generate::record;

/// What every byte of a lent output is before the call.
const FILL: u8 = 7;

/// The store of 4 slots that some commands at a clock leave.
fn store(clock: u64, commands: &[&str]) -> Vec<u8> {
    let (mut store, mut reply) = (vec![0; store_size(4)], vec![0; REPLY_SIZE]);
    for command in commands {
        let fed = Feeder::fresh().feed(&record(clock, command), &mut store, &mut reply);
        let reply = &reply[..fed.unwrap().reply_len];
        assert!(!reply.is_empty() && reply[0] != b'-', "{command}");
    }
    store
}

fn difference<'a>(mark: Mark, slot: usize, key: &'a str, field: &'a str) -> Difference<'a> {
    Difference {
        mark,
        slot,
        key: key.as_bytes(),
        field: field.as_bytes(),
    }
}

#[test]
fn the_example_of_the_request() {
    let first = store(0, &["EXHSET m a 1"]);
    let second = store(0, &["EXHSET m a 2", "EXHSET m b 1"]);
    let mut out = vec![FILL; COMPARE_SIZE];
    let mut differences = compare(&first, &second, 0, &mut out).unwrap();
    let expected = [
        difference(Mark::Differs, 0, "m", "a"),
        difference(Mark::OnlySecond, 1, "m", "b"),
    ];
    assert_eq!(differences.by_ref().collect::<Vec<_>>(), expected);
    assert_eq!(differences.next(), None);
    assert_eq!(differences.text(), b"~ 1 1 0\n> 1 1 1\n");
    assert!(out[16..].iter().all(|byte| *byte == FILL));
}

#[test]
fn keys_and_fields_are_read_from_the_store_that_a_line_is_about() {
    let (longest_key, longest_field) = ("k".repeat(16), "f".repeat(32));
    let longest = format!("EXHSET {longest_key} {longest_field} 1");
    let first = store(9, &["EXHSET m gone 1", "EXHSET m tag17 1", &longest]);
    let second = store(5, &["EXHSET  x 1", "EXHSET m tag17 1 ABS 2", "EXHSET m  1"]);
    let mut out = vec![FILL; COMPARE_SIZE + 1];
    let differences = compare(&first, &second, 9, &mut out).unwrap();
    let text = b"< 1 4 0\n~ 1 5 1\n< 16 32 2\n> 0 1 0\n> 1 0 2\n";
    assert_eq!(differences.text(), text);
    let expected = [
        difference(Mark::OnlyFirst, 0, "m", "gone"),
        difference(Mark::Differs, 1, "m", "tag17"),
        difference(Mark::OnlyFirst, 2, &longest_key, &longest_field),
        difference(Mark::OnlySecond, 0, "", "x"),
        difference(Mark::OnlySecond, 2, "m", ""),
    ];
    assert_eq!(differences.collect::<Vec<_>>(), expected);
}

/// The listing of two stores that are not refused.
fn listing(first: &[u8], second: &[u8], instant: u64) -> String {
    let mut out = vec![FILL; COMPARE_SIZE];
    let differences = compare(first, second, instant, &mut out).unwrap();
    String::from_utf8(differences.text().to_vec()).unwrap()
}

#[test]
fn another_value_version_or_expiry_is_a_difference() {
    let sets = ["1", "2", "1 ABS 2", "1 PXAT 50", "1 PXAT 51", ""];
    let stores = sets.map(|set| store(0, &[&format!("EXHSET m a {set}")]));
    for (at, first) in stores.iter().enumerate() {
        for (other, second) in stores.iter().enumerate() {
            let expected = if at == other { "" } else { "~ 1 1 0\n" };
            assert_eq!(listing(first, second, 0), expected, "{at} and {other}");
        }
    }
}

#[test]
fn a_dead_entry_is_not_there() {
    let lasting = store(0, &["EXHSET m a 1"]);
    let expiring = store(0, &["EXHSET m a 2 PXAT 50 ABS 9"]);
    for (first, second, before, after) in [
        (&lasting, &expiring, "~ 1 1 0\n", "< 1 1 0\n"),
        (&expiring, &lasting, "~ 1 1 0\n", "> 1 1 0\n"),
        (&expiring, &store(0, &[]), "< 1 1 0\n", ""),
        (&store(0, &[]), &expiring, "> 1 1 0\n", ""),
        (&expiring, &expiring, "", ""),
    ] {
        assert_eq!(listing(first, second, 49), before);
        assert_eq!(listing(first, second, 50), after);
    }
    let value = |instant| newer(&lasting, &expiring, b"m", b"a", instant).unwrap();
    assert_eq!(value(49), Some((Which::Second, &b"2"[..])));
    assert_eq!(value(50), Some((Which::First, &b"1"[..])));
    assert_eq!(newer(&expiring, &expiring, b"m", b"a", 50), Ok(None));
}

/// The entries found outlive the question, as parts of the stores.
fn entries<'a>(first: &'a [u8], second: &'a [u8], out: &'a mut [u8]) -> Vec<&'a [u8]> {
    let differences = compare(first, second, 0, out).unwrap();
    let found = differences.map(|difference| {
        let (key, field) = (difference.key.to_vec(), difference.field.to_vec());
        newer(first, second, &key, &field, 0).unwrap().unwrap().1
    });
    found.collect()
}

#[test]
fn values_are_parts_of_the_stores() {
    let first = store(0, &["EXHMSET m a 1 b 22 e ", "EXHSET m b 333"]);
    let second = store(0, &["EXHMSET m b 4444 a 5 c 66666"]);
    let mut out = vec![FILL; COMPARE_SIZE];
    let values = entries(&first, &second, &mut out);
    assert_eq!(values, [&b"1"[..], b"333", b"", b"66666"]);
    let place = |store: &[u8], slot| store[store_size(slot) + VALUE.start..].as_ptr();
    let expected = [
        place(&first, 0),
        place(&first, 1),
        place(&first, 2),
        place(&second, 2),
    ];
    let places: Vec<*const u8> = values.iter().map(|value| value.as_ptr()).collect();
    assert_eq!(places, expected);
}

#[test]
fn which_store_has_the_newer_value() {
    let one = store(0, &["EXHSET m a 1"]);
    let two = store(0, &["EXHSET m a 2 ABS 2", "EXHSET m b "]);
    let (first, second) = (Which::First, Which::Second);
    for (left, right, field, expected) in [
        (&one, &two, b"a", Some((second, &b"2"[..]))),
        (&two, &one, b"a", Some((first, b"2"))),
        (&one, &one, b"a", Some((first, b"1"))),
        (&one, &two, b"b", Some((second, b""))),
        (&two, &one, b"b", Some((first, b""))),
        (&one, &two, b"c", None),
    ] {
        assert_eq!(newer(left, right, b"m", field, 0), Ok(expected));
    }
    assert_eq!(newer(&one, &two, &[], &[], 0), Ok(None));
}

#[test]
fn the_higher_version_is_newer_and_the_first_on_a_tie() {
    let versions = [1, 2, 255, 256, 65_535, 65_536, 1 << 31, u32::MAX];
    let stores =
        versions.map(|version| store(0, &[&format!("EXHSET m a {version} ABS {version}")]));
    for (at, first) in stores.iter().enumerate() {
        for (other, second) in stores.iter().enumerate() {
            let which = if other > at {
                Which::Second
            } else {
                Which::First
            };
            let value = versions[at.max(other)].to_string();
            let expected = Some((which, value.as_bytes()));
            assert_eq!(newer(first, second, b"m", b"a", 0), Ok(expected));
        }
    }
}

#[test]
fn a_word_that_is_too_long_matches_nothing() {
    let (key, field) = ([b'k'; 17], [b'f'; 33]);
    let longest = format!("EXHSET {} {} 1", "k".repeat(16), "f".repeat(32));
    let store = store(0, &[&longest]);
    let value =
        |key: &[u8], field: &[u8]| newer(&store, &store, key, field, 0).map(|v| v.is_some());
    assert_eq!(value(&key[..16], &field[..32]), Ok(true));
    assert_eq!(value(&key, &field[..32]), Ok(false));
    assert_eq!(value(&key[..16], &field), Ok(false));
    assert_eq!(value(&key[..15], &field[..32]), Ok(false));
}

#[test]
fn refusals_come_in_order_and_change_nothing() {
    let (early, late) = (store(5, &["EXHSET m a 1"]), store(9, &["EXHSET m a 2"]));
    let broken = &late[1..];
    for (first, second, instant, size, refusal) in [
        (broken, &late[..], 0, 0, Refusal::Store),
        (&early, broken, TIME_LIMIT, COMPARE_SIZE, Refusal::Store),
        (&early, &late, 8, 0, Refusal::Instant),
        (&late, &early, 8, COMPARE_SIZE, Refusal::Instant),
        (
            &early,
            &late,
            TIME_LIMIT,
            COMPARE_SIZE - 1,
            Refusal::Instant,
        ),
        (&early, &late, 9, COMPARE_SIZE - 1, Refusal::ShortReply),
        (&early, &late, TIME_LIMIT - 1, 0, Refusal::ShortReply),
    ] {
        let mut out = vec![FILL; size];
        let compared = compare(first, second, instant, &mut out);
        assert_eq!(
            compared.map(|differences| differences.count()),
            Err(refusal)
        );
        assert!(out.iter().all(|byte| *byte == FILL));
        let value = newer(first, second, b"m", b"a", instant);
        let expected = match refusal {
            Refusal::ShortReply => Ok(Some((Which::First, &b"1"[..]))),
            other => Err(other),
        };
        assert_eq!(value, expected);
    }
}
