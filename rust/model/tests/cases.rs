//! The cases of tests/cases, with their answers.

use cases::{Command, Compare, Newer, Outcome, PIECE_SIZES, Store, Stream, check};
use model::feeder::whole;
use model::layout::{LEAST_LISTING_BUFFER, LEAST_REPLY_BUFFER};
use model::{Feeder, compare, execute, feed, newer, newer_part, store_check};

#[test]
fn commands() {
    let mut reply = vec![0; LEAST_REPLY_BUFFER];
    check(|row, mut case: Command| {
        assert_eq!(store_check(&case.store), 0, "{row}");
        let done = execute(case.clock, &case.command, &mut case.store, &mut reply);
        assert_eq!(done.refusal, case.number, "number of {row}");
        assert_eq!(&reply[..done.reply_len], case.reply, "reply of {row}");
        assert_eq!(case.store, case.store_after, "store of {row}");
    });
}

#[test]
fn streams_uncut() {
    check(|row, mut case: Stream| {
        let read = whole(&case.stream, &mut case.store);
        let outcome = Outcome {
            replies: read.replies,
            skipped: read.skipped,
            waiting: read.rest.to_vec(),
            store: case.store,
        };
        assert_eq!(outcome, case.outcome, "{row}");
    });
}

#[test]
fn streams_fed_whole_and_in_pieces() {
    check(|row, case: Stream| {
        for size in PIECE_SIZES {
            let fed = feed_in_pieces(&case.stream, size, case.store.clone());
            assert_eq!(fed, case.outcome, "{row}, pieces of {size}");
        }
    });
}

#[test]
fn stores() {
    check(|row, case: Store| {
        assert_eq!(store_check(&case.store) == 0, case.well_formed, "{row}");
    });
}

#[test]
fn two_stores_compared() {
    check(|row, case: Compare| {
        let mut out = vec![7; LEAST_LISTING_BUFFER];
        let compared = compare(&case.first, &case.second, case.instant, &mut out);
        assert_eq!(compared.refusal, case.number, "number of {row}");
        let (listing, beyond) = out.split_at(compared.written);
        assert_eq!(listing, case.listing, "listing of {row}");
        assert!(beyond.iter().all(|byte| *byte == 7), "{row}");
    });
}

#[test]
fn newer_values() {
    check(|row, case: Newer| {
        let Newer {
            first, second, key, ..
        } = &case;
        let place = newer(first, second, key, &case.field, case.instant);
        assert_eq!(place.refusal, case.number, "number of {row}");
        assert_eq!(place.which as u32, case.which, "{row}");
        let part = newer_part(first, second, key, &case.field, case.instant);
        assert_eq!(part, case.value, "value of {row}");
    });
}

/// Offers each piece until it is used up.
fn feed_in_pieces(stream: &[u8], size: usize, mut store: Vec<u8>) -> Outcome {
    let mut reply = vec![0; LEAST_REPLY_BUFFER];
    let (mut feeder, mut replies, mut skipped) = (Feeder::fresh(), Vec::new(), 0);
    for mut piece in stream.chunks(size) {
        while !piece.is_empty() {
            let fed = feed(feeder, piece, &mut store, &mut reply);
            assert_eq!(fed.refusal, 0);
            assert!(fed.used > 0);
            replies.extend_from_slice(&reply[..fed.reply_len]);
            skipped += fed.skipped;
            feeder = fed.feeder;
            piece = &piece[fed.used..];
        }
    }
    Outcome {
        replies,
        skipped,
        waiting: feeder.waiting[..feeder.count].to_vec(),
        store,
    }
}
