//! The cases of tests/cases, with their answers, through the wrapper.

use cases::{Command, Compare, Newer, Outcome, PIECE_SIZES, Store, Stream, check};
use exhash::{COMPARE_SIZE, Feeder, REPLY_SIZE, Refusal, Which, compare, newer, store_check};

#[test]
fn commands() {
    check(|row, case: Command| {
        let expected = Outcome {
            replies: case.reply.clone(),
            skipped: 0,
            waiting: Vec::new(),
            store: case.store_after.clone(),
        };
        let whole = PIECE_SIZES[0];
        let fed = feed_in_pieces(&case.record(), whole, case.store);
        assert_eq!(fed, expected, "{row}");
    });
}

#[test]
fn streams() {
    check(|row, case: Stream| {
        for size in PIECE_SIZES {
            let fed = feed_in_pieces(&case.stream, size, case.store.clone());
            assert_eq!(fed, case.outcome, "{row}, pieces of {size}");
        }
    });
}

#[test]
fn stores() {
    check(|row, case: Store| {
        let checked = store_check(&case.store);
        assert_eq!(checked.is_ok(), case.well_formed, "{row}");
    });
}

#[test]
fn two_stores_compared() {
    check(|row, case: Compare| {
        let mut out = vec![7; COMPARE_SIZE];
        let compared = compare(&case.first, &case.second, case.instant, &mut out);
        let listing = compared.map(|differences| differences.text().to_vec());
        assert_eq!(
            listing,
            answered(case.number, case.listing.clone()),
            "{row}"
        );
        let beyond = &out[case.listing.len()..];
        assert!(beyond.iter().all(|byte| *byte == 7), "{row}");
    });
}

#[test]
fn newer_values() {
    check(|row, case: Newer| {
        let which = match case.which {
            0 => None,
            1 => Some(Which::First),
            2 => Some(Which::Second),
            other => panic!("which: {other}"),
        };
        let expected = which.map(|which| (which, &case.value[..]));
        let Newer {
            first, second, key, ..
        } = &case;
        let value = newer(first, second, key, &case.field, case.instant);
        assert_eq!(value, answered(case.number, expected), "{row}");
    });
}

/// An answer, or the refusal of a number other than 0.
fn answered<T>(number: u32, answer: T) -> Result<T, Refusal> {
    match number {
        0 => Ok(answer),
        2 => Err(Refusal::Store),
        3 => Err(Refusal::ShortReply),
        11 => Err(Refusal::Instant),
        other => panic!("number: {other}"),
    }
}

/// Offers each piece until it is used up.
fn feed_in_pieces(stream: &[u8], size: usize, mut store: Vec<u8>) -> Outcome {
    let mut reply = vec![0; REPLY_SIZE];
    let (mut feeder, mut replies, mut skipped) = (Feeder::fresh(), Vec::new(), 0);
    for mut piece in stream.chunks(size) {
        while !piece.is_empty() {
            let fed = feeder.feed(piece, &mut store, &mut reply).unwrap();
            replies.extend_from_slice(&reply[..fed.reply_len]);
            skipped += fed.skipped;
            piece = &piece[fed.used..];
        }
    }
    Outcome {
        replies,
        skipped,
        waiting: feeder.waiting().to_vec(),
        store,
    }
}
