//! The wrapper: the paper's whole example, the waiting bytes and the refusals.

use exhash::interface::State;
use exhash::{
    Fed, Feeder, HEADER_SIZE, REPLY_SIZE, Refusal, SLOT_SIZE, SLOTS_MOST, USED_MOST, WAITING_MOST,
    store_check, store_size,
};
use generate::layout::{FIELD, FIELD_LENGTH, HELD, STATE, VERSION};

/// "Whole example, clock 1000, `EXHGET m t1`": from an empty store the reply is nil.
const EXAMPLE: &[u8] = b"\x45\x57\xE8\x03\0\0\0\0\0\0\x1F\0\
    *3\r\n$6\r\nEXHGET\r\n$1\r\nm\r\n$2\r\nt1\r\n";

#[test]
fn a_whole_record_is_done() {
    let (mut store, mut reply) = (vec![0; store_size(2)], vec![7; REPLY_SIZE]);
    let mut feeder = Feeder::fresh();
    let fed = feeder.feed(EXAMPLE, &mut store, &mut reply);
    let expected = Fed {
        used: EXAMPLE.len(),
        skipped: 0,
        reply_len: 5,
    };
    assert_eq!(fed, Ok(expected));
    assert!(reply.starts_with(b"$-1\r\n\x07"));
    assert_eq!(store[..8], 1000_u64.to_le_bytes());
    assert_eq!(feeder, Feeder::fresh());
}

#[test]
fn bytes_wait_until_the_record_is_there() {
    let (mut store, mut reply) = (vec![0; store_size(2)], vec![7; REPLY_SIZE]);
    let mut feeder = Feeder::fresh();
    let skipped = feeder.feed(b"x", &mut store, &mut reply).unwrap();
    assert_eq!((skipped.used, skipped.skipped), (1, 1));
    let (last, first) = EXAMPLE.split_last().unwrap();
    for (at, byte) in first.iter().enumerate() {
        let fed = feeder.feed(&[*byte], &mut store, &mut reply).unwrap();
        assert_eq!((fed.used, fed.skipped, fed.reply_len), (1, 0, 0));
        assert_eq!(feeder.waiting(), &EXAMPLE[..=at]);
    }
    let kept = *feeder.state();
    let fed = Feeder::from(kept).feed(&[*last], &mut store, &mut reply);
    assert_eq!(fed.unwrap().reply_len, 5);
    assert!(reply.starts_with(b"$-1\r\n\x07"));
}

#[test]
fn the_lowest_refusal_is_given_and_nothing_changes() {
    let damaged = State {
        waiting: [0; WAITING_MOST],
        count: 1,
    };
    let good = *Feeder::fresh().state();
    let (well_formed, not) = (vec![0; store_size(1)], vec![1; store_size(1)]);
    let cases = [
        (damaged, &not, 0, Refusal::State),
        (damaged, &well_formed, REPLY_SIZE, Refusal::State),
        (good, &not, 0, Refusal::Store),
        (good, &well_formed, REPLY_SIZE - 1, Refusal::ShortReply),
    ];
    for (state, store_before, reply_size, refusal) in cases {
        let (mut store, mut reply) = (store_before.clone(), vec![7; reply_size]);
        let mut feeder = Feeder::from(state);
        assert_eq!(feeder.feed(EXAMPLE, &mut store, &mut reply), Err(refusal));
        assert_eq!(*feeder.state(), state);
        assert_eq!(&store, store_before);
        assert!(reply.iter().all(|byte| *byte == 7));
    }
}

#[test]
fn stores_are_checked() {
    assert_eq!(store_check(&vec![0; store_size(SLOTS_MOST)]), Ok(()));
    assert_eq!(
        store_check(&vec![0; store_size(SLOTS_MOST + 1)]),
        Err(Refusal::Store)
    );
    assert_eq!(store_check(&[]), Err(Refusal::Store));
}

#[test]
fn refusals_say_what_they_mean() {
    let refusals = [
        Refusal::State,
        Refusal::Store,
        Refusal::ShortReply,
        Refusal::Instant,
    ];
    let said = refusals.map(|refusal| refusal.to_string());
    assert_eq!(
        said,
        [
            "refusal 1: the feeder's state is one that no feeding leaves",
            "refusal 2: the store is not well formed",
            "refusal 3: the reply buffer is under 56,000 bytes, or the output under 16,000",
            "refusal 11: the instant is before a store's clock or out of range",
        ]
    );
}

#[test]
fn a_call_uses_so_many_bytes_at_most() {
    let (mut store, mut reply) = (vec![0; store_size(1)], vec![7; REPLY_SIZE]);
    let mut feeder = Feeder::fresh();
    for (offered, used) in [(USED_MOST, USED_MOST), (USED_MOST + 1, USED_MOST), (0, 0)] {
        let fed = feeder.feed(&vec![0; offered], &mut store, &mut reply);
        let expected = Fed {
            used,
            skipped: used,
            reply_len: 0,
        };
        assert_eq!(fed, Ok(expected));
    }
}

#[test]
fn a_damaged_state_waits_with_all_its_places() {
    let waiting = [7; WAITING_MOST];
    let feeder = Feeder::from(State {
        waiting,
        count: usize::MAX,
    });
    assert_eq!(feeder.waiting(), waiting);
}

/// The length of fields that are alike.
const ALIKE: usize = 32;

/// A field whose second half is its first: the check's filter has the same bits for all such fields.
fn alike(number: u64) -> [u8; ALIKE] {
    let half = [number, 0].map(u64::to_le_bytes).concat();
    half.repeat(2).try_into().unwrap()
}

#[test]
fn names_that_share_their_bits_are_told_apart() {
    let mut store = vec![0; store_size(SLOTS_MOST)];
    let slots = store[HEADER_SIZE..].chunks_mut(SLOT_SIZE);
    for (number, slot) in (1..).zip(slots) {
        slot[STATE] = HELD;
        slot[FIELD_LENGTH] = ALIKE as u8;
        slot[VERSION.start] = 1;
        slot[FIELD][..ALIKE].copy_from_slice(&alike(number));
    }
    assert_eq!(store_check(&store), Ok(()));
    let last = store_size(SLOTS_MOST - 1) + FIELD.start;
    store[last..][..ALIKE].copy_from_slice(&alike(1));
    assert_eq!(store_check(&store), Err(Refusal::Store));
}
