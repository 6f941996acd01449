//! The readings of the paper where it can be read two ways.

mod common;

use common::{Handset, record};
use model::layout::{
    HEAD, LARGEST_VERSION, LEAST_REPLY_BUFFER, LONGEST_COMMAND, LONGEST_FIELD, LONGEST_VALUE,
    MOST_SLOTS, MOST_USED, MOST_WAITING, TIME_LIMIT, store_size,
};
use model::{Fed, Feeder, execute, feed, store_check};

const LONGEST_L: u16 = LONGEST_COMMAND as u16;
const VERSION_OVERFLOW: &str = "-ERR version overflow";
const FULL: &str = "-ERR store is full";

/// A head with a mark and an L, its clock zero.
fn head(length: u16) -> Vec<u8> {
    common::head(0, length)
}

fn waiting(fed: &Fed) -> &[u8] {
    &fed.feeder.waiting[..fed.feeder.count]
}

#[test]
fn a_45_before_the_mark_is_skipped_alone() {
    let stream = [&[0x45], &record(1000, "EXHGET m t1")[..]].concat();
    assert_eq!(stream.len(), 1 + HEAD + 31);
    let (fed, reply) = Handset::new(1).feed(Feeder::fresh(), &stream);
    assert_eq!(
        (fed.used, fed.skipped, reply.as_str()),
        (stream.len(), 1, "$-1")
    );
    assert_eq!(fed.feeder, Feeder::fresh());
}

#[test]
fn with_l_out_of_range_only_the_45_is_skipped() {
    // The record begins in the false head's clock, as its L, or after it.
    for start in [2, HEAD - 2, HEAD] {
        let record = record(1000, "EXHLEN m");
        let stream = [&head(u16::MAX)[..start], &record].concat();
        let (fed, reply) = Handset::new(1).feed(Feeder::fresh(), &stream);
        assert_eq!(
            (fed.used, fed.skipped, reply.as_str()),
            (stream.len(), start, ":0")
        );
    }
    for length in [0, LONGEST_L + 1, u16::MAX] {
        let (fed, _) = Handset::new(1).feed(Feeder::fresh(), &head(length));
        assert_eq!(
            (fed.used, fed.skipped, waiting(&fed)),
            (HEAD, HEAD, &[][..])
        );
    }
    for length in [1, LONGEST_L] {
        let (fed, _) = Handset::new(1).feed(Feeder::fresh(), &head(length));
        assert_eq!(
            (fed.used, fed.skipped, waiting(&fed)),
            (HEAD, 0, &head(length)[..])
        );
    }
}

#[test]
fn nothing_is_decided_from_the_low_byte_of_l() {
    let cut = &head(0)[..HEAD - 1];
    let (fed, _) = Handset::new(1).feed(Feeder::fresh(), cut);
    assert_eq!((fed.used, fed.skipped, waiting(&fed)), (HEAD - 1, 0, cut));
}

#[test]
fn skipped_can_exceed_used() {
    let mut handset = Handset::new(1);
    let (fed, _) = handset.feed(Feeder::fresh(), &head(0)[..HEAD - 1]);
    let (fed, _) = handset.feed(fed.feeder, &[0]);
    assert_eq!((fed.used, fed.skipped), (1, HEAD));
    assert_eq!(fed.feeder, Feeder::fresh());
}

#[test]
fn a_call_uses_so_many_bytes_of_its_piece_at_most() {
    let mut handset = Handset::new(1);
    let noise = [0; MOST_USED + 4_000];
    let (fed, _) = handset.feed(Feeder::fresh(), &noise);
    assert_eq!((fed.used, fed.skipped), (MOST_USED, MOST_USED));
    // Bytes that waited do not count.
    let (fed, _) = handset.feed(Feeder::fresh(), &head(0)[..HEAD - 1]);
    let (fed, _) = handset.feed(fed.feeder, &noise);
    assert_eq!((fed.used, fed.skipped), (MOST_USED, MOST_USED + HEAD - 1));
    // A record that ends with the last byte is done; one byte later it waits.
    let record = record(0, "EXHLEN m");
    for (noise, done) in [
        (MOST_USED - record.len(), true),
        (MOST_USED + 1 - record.len(), false),
    ] {
        let piece = [&vec![0; noise], &record[..]].concat();
        let (fed, _) = handset.feed(Feeder::fresh(), &piece);
        assert_eq!(
            (fed.used, fed.skipped, fed.reply_len > 0),
            (MOST_USED, noise, done)
        );
    }
}

#[test]
fn refusals_of_a_call_in_order_and_without_a_trace() {
    let mut damaged = Feeder::fresh();
    damaged.count = usize::MAX;
    let piece = record(0, "EXHSET m a 1");
    let good = vec![0; store_size(1)];
    let bad = vec![1; store_size(1)];
    for piece in [&piece[..], &[]] {
        for (feeder, store, length, refusal) in [
            (&damaged, &bad, 0, 1),
            (&Feeder::fresh(), &bad, 0, 2),
            (&Feeder::fresh(), &good, LEAST_REPLY_BUFFER - 1, 3),
        ] {
            let mut lent = (store.clone(), vec![7; length]);
            let fed = feed(feeder.clone(), piece, &mut lent.0, &mut lent.1);
            assert_eq!(
                (fed.refusal, fed.used, fed.skipped, fed.reply_len),
                (refusal, 0, 0, 0)
            );
            assert_eq!(
                (&fed.feeder, lent),
                (feeder, (store.clone(), vec![7; length]))
            );
        }
    }
}

#[test]
fn states_that_no_feeding_leaves() {
    let state = |count, bytes: &[u8]| {
        let mut feeder = Feeder::fresh();
        feeder.waiting[..bytes.len()].copy_from_slice(bytes);
        feeder.count = count;
        feeder
    };
    let whole = record(0, "EXHLEN m");
    for (feeder, refusal) in [
        (state(0, &[]), 0),
        (state(1, &[0x45]), 0),
        (state(HEAD - 1, &head(0)[..HEAD - 1]), 0),
        (state(MOST_WAITING, &head(LONGEST_L)), 0),
        (state(1, &[0x44]), 1),
        (state(0, &[0x45]), 1),
        (state(2, &[0x45, 0x45]), 1),
        (state(HEAD, &head(0)), 1),
        (state(HEAD, &head(LONGEST_L + 1)), 1),
        (state(whole.len(), &whole), 1),
        (state(whole.len() - 1, &whole), 1),
        (state(MOST_WAITING + 1, &head(LONGEST_L)), 1),
        (state(usize::MAX, &[]), 1),
    ] {
        let (fed, _) = Handset::new(1).feed(feeder.clone(), &[]);
        assert_eq!((fed.refusal, fed.feeder), (refusal, feeder));
    }
}

#[test]
fn a_refused_command_is_a_completed_record() {
    let stream = [record(5, "EXHNONE"), record(6, "EXHLEN m")].concat();
    let mut handset = Handset::new(1);
    let (fed, reply) = handset.feed(Feeder::fresh(), &stream);
    assert_eq!((fed.refusal, reply.as_str()), (0, "-ERR unknown command"));
    assert_eq!(handset.store, vec![0; store_size(1)]);
    let (fed, reply) = handset.feed(fed.feeder, &stream[fed.used..]);
    assert_eq!((fed.refusal, reply.as_str()), (0, ":0"));
    assert_eq!(handset.store[0], 6);
}

#[test]
fn version_overflow_before_store_full() {
    let mut handset = Handset::new(2);
    let version = LARGEST_VERSION - 1;
    handset.reply(0, &format!("EXHSET m a 1 ABS {version}"));
    handset.reply(0, "EXHSET m b 1");
    let twice = handset.run(1, "EXHMSET m c 1 d 1 a 1 a 2");
    assert_eq!(twice, (23, VERSION_OVERFLOW.to_string()));
    let once = handset.run(1, "EXHMSET m c 1 d 1 a 1");
    assert_eq!(once, (24, FULL.to_string()));
    assert_eq!(handset.reply(1, "EXHVER m a"), format!(":{version}"));
}

#[test]
fn exhmset_is_all_or_none() {
    let mut handset = Handset::new(2);
    handset.reply(1000, "EXHSET m a 1");
    let (number, _) = handset.run(1000, "EXHMSET m a 2 b 2 c 2");
    assert_eq!(number, 24);
    assert_eq!(handset.reply(1000, "EXHGETALL m"), "*2 $1 a $1 1");
    assert_eq!(handset.reply(1000, "EXHMSET m b 1 b 2 b 3"), "+OK");
    assert_eq!(handset.reply(1000, "EXHGETWITHVER m b"), "*2 $1 3 :3");
}

#[test]
fn a_refused_exhmset_still_removes_every_dead_entry_it_names() {
    let mut handset = Handset::new(4);
    handset.reply(0, &format!("EXHSET m a 1 ABS {LARGEST_VERSION}"));
    handset.reply(0, "EXHSET m b 1 PX 1");
    handset.reply(0, "EXHSET m c 1 PX 1");
    let (number, _) = handset.run(1, "EXHMSET m b 1 a 1 b 2");
    assert_eq!((number, handset.reply(1, "EXHLEN m").as_str()), (23, ":2"));
}

#[test]
fn dead_fields_are_missing() {
    let mut handset = Handset::new(2);
    handset.reply(0, "EXHSET m a 1 PX 5 ABS 9");
    assert_eq!(handset.reply(5, "EXHSET m a 2 XX"), ":-1");
    assert_eq!(handset.reply(5, "EXHLEN m"), ":0");
    handset.reply(5, "EXHSET m a 1 PX 0");
    assert_eq!(handset.reply(5, "EXHPERSIST m a"), ":0");
    assert_eq!(handset.reply(5, "EXHLEN m"), ":0");
    handset.reply(5, "EXHSET m a 1 PX 0");
    assert_eq!(handset.reply(5, "EXHVER m b"), ":-1");
    assert_eq!(handset.reply(5, "EXHSET m a 1 VER 8"), ":1");
    assert_eq!(handset.reply(5, "EXHVER m b"), ":-2");
    assert_eq!(handset.reply(5, "EXHDEL m a a b"), ":1");
    assert_eq!(handset.reply(5, "EXHMGETWITHVER m a b"), "*2 $-1 $-1");
}

#[test]
fn a_dead_entry_stays_until_check_18_is_passed() {
    let too_late = format!("EXHSET m a 1 EXAT {}", TIME_LIMIT / 1000 + 1);
    for (command, refusal) in [
        ("EXHSET m a 1 EX", 15),
        ("EXHSET m a 1 EX x", 16),
        ("EXHSET m a 1 ABS 0 NX", 17),
        (&too_late, 18),
    ] {
        let mut handset = Handset::new(1);
        handset.reply(0, "EXHSET m a 1 PX 1");
        let before = handset.store.clone();
        assert_eq!(handset.run(1, command).0, refusal);
        assert_eq!(handset.store, before);
    }
}

#[test]
fn the_lowest_number_is_given() {
    let long = "x".repeat(LONGEST_VALUE + 1);
    for (command, refusal) in [
        (format!("EXHSET m a {long} EX EX EX"), 14),
        ("EXHSET m a 1 ABS 0 EX x PXAT 1".to_string(), 15),
        ("EXHSET m a 1 ABS 0 EX x".to_string(), 16),
        (format!("EXHSET m a 1 ABS 0 EX {TIME_LIMIT}"), 17),
        (format!("EXHINCRBY m a {long}"), 16),
        (format!("EXHSET {long} a 1 XN"), 14),
        ("EXHSET m a 1 XN".to_string(), 15),
        ("EXHSCAN m a".to_string(), 12),
    ] {
        assert_eq!(Handset::new(1).run(0, &command).0, refusal, "{command}");
    }
}

#[test]
fn the_longest_reply_fits() {
    let mut handset = Handset::new(MOST_SLOTS);
    let mut expected = format!("*{}\r\n", 2 * MOST_SLOTS);
    for number in 0..MOST_SLOTS {
        let field = format!("{number:0LONGEST_FIELD$}");
        let value = "v".repeat(LONGEST_VALUE);
        handset.reply(0, &format!("EXHSET m {field} {value}"));
        expected += &format!("${LONGEST_FIELD}\r\n{field}\r\n${LONGEST_VALUE}\r\n{value}\r\n");
    }
    let mut reply = vec![0; LEAST_REPLY_BUFFER];
    let command = common::resp("EXHGETALL m");
    let done = execute(0, &command, &mut handset.store, &mut reply);
    assert_eq!(done.refusal, 0);
    assert!(reply[..done.reply_len] == *expected.as_bytes());
    assert_eq!(store_check(&handset.store), 0);
}
