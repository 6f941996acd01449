//! M-102: two stores side by side.

mod common;

use common::Handset;
use model::layout::{
    FIELD, FIELD_LENGTH, HEADER, HELD, KEY, KEY_LENGTH, LEAST_LISTING_BUFFER, LONGEST_FIELD,
    LONGEST_KEY, MOST_SLOTS, SLOT, STATE, TIME_LIMIT, VALUE, store_size,
};
use model::{Compared, NewerPlace, Which, compare, newer, newer_part, store_check};

/// What every byte of a lent output is before the call.
const FILL: u8 = 7;

/// The store that some commands leave, all at a clock, on 4 slots.
fn store(clock: u64, commands: &[&str]) -> Vec<u8> {
    let mut handset = Handset::new(4);
    for command in commands {
        handset.reply(clock, command);
    }
    handset.store
}

/// What a comparison answers, and the whole output.
fn compared(first: &[u8], second: &[u8], instant: u64, size: usize) -> (Compared, Vec<u8>) {
    let mut out = vec![FILL; size];
    let answer = compare(first, second, instant, &mut out);
    (answer, out)
}

/// The listing of two stores that are not refused; "bytes beyond keep theirs".
fn listing(first: &[u8], second: &[u8], instant: u64) -> String {
    let (Compared { refusal, written }, out) =
        compared(first, second, instant, LEAST_LISTING_BUFFER);
    assert_eq!(refusal, 0);
    let (listing, beyond) = out.split_at(written);
    assert!(beyond.iter().all(|byte| *byte == FILL));
    String::from_utf8(listing.to_vec()).unwrap()
}

/// Which store has the newer value of key m and field a, and that value.
fn newer_of_a<'a>(first: &'a [u8], second: &'a [u8], instant: u64) -> (Which, &'a [u8]) {
    let place = newer(first, second, b"m", b"a", instant);
    assert_eq!(place.refusal, 0);
    (place.which, newer_part(first, second, b"m", b"a", instant))
}

#[test]
fn the_example_of_the_request() {
    let first = store(0, &["EXHSET m a 1"]);
    let second = store(0, &["EXHSET m a 2", "EXHSET m b 1"]);
    assert_eq!(listing(&first, &second, 0), "~ 1 1 0\n> 1 1 1\n");
    assert_eq!(listing(&second, &first, 0), "~ 1 1 0\n< 1 1 1\n");
    assert_eq!(listing(&first, &first, 0), "");
}

#[test]
fn slots_of_the_first_come_first_and_each_line_has_its_own_number() {
    let first = store(
        0,
        &["EXHMSET m a 1 both 1 c 1", "EXHDEL m a", "EXHSET kk dd 1"],
    );
    let second = store(0, &["EXHSET m new 1", "EXHSET n c 1", "EXHSET m both 2"]);
    // The first holds kk dd, m both and m c; the second m new, n c and m both.
    let expected = "< 2 2 0\n~ 1 4 1\n< 1 1 2\n> 1 3 0\n> 1 1 1\n";
    assert_eq!(listing(&first, &second, 0), expected);
}

#[test]
fn the_same_entries_in_other_slots_are_no_difference() {
    let first = store(0, &["EXHMSET m a 1 b 2 c 3"]);
    let second = store(3, &["EXHMSET m x 0 c 3 b 2 a 1", "EXHDEL m x"]);
    assert_eq!(listing(&first, &second, 3), "");
}

#[test]
fn another_value_version_or_expiry_is_a_difference() {
    let commands = [
        &["EXHSET m a 1"][..],
        &["EXHSET m a 2"],
        &["EXHSET m a 1", "EXHSETVER m a 2"],
        &["EXHSET m a 1 PXAT 50"],
        &["EXHSET m a 1 PXAT 51"],
        &["EXHSET m a "],
    ];
    let stores = commands.map(|commands| store(0, commands));
    for (at, first) in stores.iter().enumerate() {
        for (other, second) in stores.iter().enumerate() {
            let expected = if at == other { "" } else { "~ 1 1 0\n" };
            assert_eq!(listing(first, second, 0), expected, "{at} and {other}");
        }
    }
}

#[test]
fn live_is_judged_at_the_instant() {
    let lasting = store(0, &["EXHSET m a 1"]);
    let expiring = store(0, &["EXHSET m a 2 PXAT 50", "EXHSETVER m a 9"]);
    for (first, second, before, after) in [
        (&lasting, &expiring, "~ 1 1 0\n", "< 1 1 0\n"),
        (&expiring, &lasting, "~ 1 1 0\n", "> 1 1 0\n"),
        (&expiring, &expiring, "", ""),
    ] {
        assert_eq!(listing(first, second, 49), before);
        assert_eq!(listing(first, second, 50), after);
    }
    let empty = store(0, &[]);
    assert_eq!(listing(&expiring, &empty, 49), "< 1 1 0\n");
    assert_eq!(listing(&empty, &expiring, 49), "> 1 1 0\n");
    assert_eq!(listing(&expiring, &empty, 50), "");
    assert_eq!(
        newer_of_a(&lasting, &expiring, 49),
        (Which::Second, &b"2"[..])
    );
    assert_eq!(
        newer_of_a(&lasting, &expiring, 50),
        (Which::First, &b"1"[..])
    );
    assert_eq!(
        newer_of_a(&expiring, &lasting, 50),
        (Which::Second, &b"1"[..])
    );
    assert_eq!(
        newer_of_a(&expiring, &expiring, 50),
        (Which::Neither, &b""[..])
    );
}

#[test]
fn the_higher_version_is_newer_and_the_first_on_a_tie() {
    let at = |value, version| {
        let set = format!("EXHSET m a {value}");
        store(0, &[&set, &format!("EXHSETVER m a {version}")])
    };
    let versions = [0, 1, 255, 256, 65_535, 65_536, 1 << 31, u32::MAX];
    for (first, second) in versions.iter().flat_map(|v| versions.map(|w| (*v, w))) {
        let stores = [at("1", first), at("22", second)];
        let expected = if second > first {
            (Which::Second, &b"22"[..])
        } else {
            (Which::First, &b"1"[..])
        };
        assert_eq!(newer_of_a(&stores[0], &stores[1], 0), expected);
    }
}

#[test]
fn the_only_one_is_the_newer_and_neither_is_an_empty_part_of_the_first() {
    let (none, one) = (
        store(0, &["EXHSET m b 7"]),
        store(0, &["EXHMSET m b 7 a 1"]),
    );
    assert_eq!(newer_of_a(&one, &none, 0), (Which::First, &b"1"[..]));
    assert_eq!(newer_of_a(&none, &one, 0), (Which::Second, &b"1"[..]));
    assert_eq!(newer_of_a(&none, &none, 0), (Which::Neither, &b""[..]));
    let part = newer_part(&none, &one, b"k", b"a", 0);
    assert_eq!((part.as_ptr(), part.len()), (none.as_ptr(), 0));
}

#[test]
fn the_part_is_the_values_own_bytes_also_where_it_is_empty() {
    let first = store(0, &["EXHSET m b 1", "EXHSET m a "]);
    let second = store(0, &["EXHSET m a 12345"]);
    let place = |which, start, size| NewerPlace {
        refusal: 0,
        which,
        start,
        size,
    };
    let in_slot = |slot| store_size(slot) + VALUE.start;
    let empty = newer(&first, &second, b"m", b"a", 0);
    assert_eq!(empty, place(Which::First, in_slot(1), 0));
    let five = newer(&second, &first, b"m", b"a", 0);
    assert_eq!(five, place(Which::First, in_slot(0), 5));
    let only = newer(&second, &first, b"m", b"b", 0);
    assert_eq!(only, place(Which::Second, in_slot(0), 1));
    let neither = newer(&second, &first, b"m", b"c", 0);
    assert_eq!(neither, place(Which::Neither, 0, 0));
}

/// A store of the most slots, each with a name as long as can be that begins with a mark and a number.
fn full(mark: u8) -> Vec<u8> {
    let mut store = vec![0; store_size(MOST_SLOTS)];
    for (number, slot) in store[HEADER..].chunks_mut(SLOT).enumerate() {
        slot[STATE] = HELD;
        slot[KEY_LENGTH] = LONGEST_KEY as u8;
        slot[FIELD_LENGTH] = LONGEST_FIELD as u8;
        slot[KEY].fill(mark);
        slot[FIELD].fill(b'f');
        slot[FIELD][..2].copy_from_slice(&(number as u16).to_le_bytes());
    }
    assert_eq!(store_check(&store), 0);
    store
}

#[test]
fn a_word_that_is_too_long_matches_nothing() {
    let full = full(b'k');
    let (key, mut field) = ([b'k'; LONGEST_KEY + 1], [b'f'; LONGEST_FIELD + 1]);
    field[..2].fill(0);
    let which = |key: &[u8], field: &[u8]| newer(&full, &full, key, field, 0).which;
    assert_eq!(which(&key[1..], &field[..LONGEST_FIELD]), Which::First);
    assert_eq!(which(&key[1..], &field), Which::Neither);
    assert_eq!(which(&key, &field[..LONGEST_FIELD]), Which::Neither);
    assert_eq!(which(&key, &field), Which::Neither);
}

#[test]
fn the_longest_listing_has_room_in_the_least_output() {
    let listing = listing(&full(b'k'), &full(b'l'), 0);
    assert_eq!(listing.lines().count(), 2 * MOST_SLOTS);
    assert_eq!(listing.lines().next(), Some("< 16 32 0"));
    assert_eq!(listing.lines().last(), Some("> 16 32 499"));
    assert!(listing.len() < LEAST_LISTING_BUFFER);
}

/// The refusal of a comparison, which writes nothing, and that of the newer value, which is nowhere.
fn refusals(first: &[u8], second: &[u8], instant: u64, size: usize) -> (u32, u32) {
    let (answer, out) = compared(first, second, instant, size);
    assert!(answer.refusal == 0 || out == vec![FILL; size]);
    assert_eq!(answer.written, 0);
    let place = newer(first, second, b"m", b"a", instant);
    assert_eq!(
        (place.which, place.start, place.size),
        (Which::Neither, 0, 0)
    );
    let part = newer_part(first, second, b"m", b"a", instant);
    assert_eq!((part.as_ptr(), part.len()), (first.as_ptr(), 0));
    (answer.refusal, place.refusal)
}

#[test]
fn refusals_come_in_order() {
    let (early, late, broken) = (store(5, &["EXHLEN m"]), store(9, &["EXHLEN m"]), [1; 144]);
    let (enough, short) = (LEAST_LISTING_BUFFER, LEAST_LISTING_BUFFER - 1);
    for (first, second, instant, size, number, without_output) in [
        (&broken[..], &late[..], 0, 0, 2, 2),
        (&early, &broken, TIME_LIMIT, 0, 2, 2),
        (&broken, &broken, 9, enough, 2, 2),
        (&[], &late, 9, enough, 2, 2),
        (&early, &late, 8, 0, 11, 11),
        (&late, &early, 8, enough, 11, 11),
        (&early, &early, 4, short, 11, 11),
        (&early, &late, TIME_LIMIT, short, 11, 11),
        (&early, &late, u64::MAX, enough, 11, 11),
        (&early, &late, 9, short, 3, 0),
        (&late, &early, TIME_LIMIT - 1, 0, 3, 0),
        (&early, &late, 9, enough, 0, 0),
        (&late, &early, 9, enough + 1, 0, 0),
        (&late, &early, TIME_LIMIT - 1, enough, 0, 0),
    ] {
        let given = refusals(first, second, instant, size);
        assert_eq!(given, (number, without_output), "{instant}, {size}");
    }
}
