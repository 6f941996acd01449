//! The kinds of cases: each makes its inputs from a generator and compares every call.

use crate::outcomes;
use crate::pair::{Call, Pair, hex};
use generate::layout::{LEAST_REPLY_BUFFER, MOST_WAITING};
use generate::{Generator, State};
use model::feeder::whole;

/// One case of a kind; an error says what differs.
pub type Kind = fn(&mut Generator, &mut Pair) -> Result<(), String>;

const SESSION_COMMANDS: usize = 50;
const LARGE_SESSION_COMMANDS: usize = 20;
pub const FILL: u8 = 0xA5;
const FRESH: State = State {
    waiting: [0; MOST_WAITING],
    count: 0,
};

/// One command as a whole record, on a well-formed store.
pub fn command(generator: &mut Generator, pair: &mut Pair) -> Result<(), String> {
    pair.begin(&FRESH, &generator.store(), FILL);
    record(generator, pair)
}

/// Commands one after another, each made for the store as it then is.
pub fn session(generator: &mut Generator, pair: &mut Pair) -> Result<(), String> {
    pair.begin(&FRESH, &generator.store(), FILL);
    (0..SESSION_COMMANDS).try_for_each(|_| record(generator, pair))
}

/// The same on a store of the most slots.
pub fn large_session(generator: &mut Generator, pair: &mut Pair) -> Result<(), String> {
    pair.begin(&FRESH, &generator.large_store(), FILL);
    (0..LARGE_SESSION_COMMANDS).try_for_each(|_| record(generator, pair))
}

fn record(generator: &mut Generator, pair: &mut Pair) -> Result<(), String> {
    let record = generator.record(pair.store());
    let call = pair.feed(&record, LEAST_REPLY_BUFFER)?;
    if call.used != record.len() || call.reply_len == 0 {
        return Err(format!("not done: {call:?}\npiece {}", hex(&record)));
    }
    if let Some(outcome) = outcomes::outcome(&record, pair.store_before(), pair.reply(call)) {
        pair.tally.add_outcome(outcome);
    }
    Ok(())
}

/// A stream cut anywhere, some calls with a short reply buffer, and then the uncut stream.
pub fn stream(generator: &mut Generator, pair: &mut Pair) -> Result<(), String> {
    let mut store = generator.store();
    let stream = generator.stream(&store);
    pair.begin(&FRESH, &store, FILL);
    let (mut replies, mut skipped) = (Vec::new(), 0);
    let mut rest = &stream[..];
    for length in generator.pieces(stream.len()) {
        let (piece, after) = rest.split_at(length);
        rest = after;
        offer(generator, pair, piece, |pair, call| {
            replies.extend_from_slice(pair.reply(call));
            skipped += call.skipped;
        })?;
    }
    let uncut = whole(&stream, &mut store);
    let fed = (&replies[..], skipped, pair.waiting(), pair.store());
    if fed == (&uncut.replies, uncut.skipped, uncut.rest, &store) {
        Ok(())
    } else {
        Err(format!("not as uncut\nstream {}", hex(&stream)))
    }
}

/// Offers a piece until it is used up; an empty one once.
fn offer(
    generator: &mut Generator,
    pair: &mut Pair,
    piece: &[u8],
    mut each: impl FnMut(&Pair, Call),
) -> Result<(), String> {
    let mut piece = piece;
    loop {
        let call = pair.feed(piece, generator.reply_buffer_length())?;
        each(pair, call);
        piece = &piece[call.used..];
        if piece.is_empty() {
            return Ok(());
        }
    }
}

/// Three stores, checked and fed: well formed, damaged, and with one byte changed.
pub fn stores(generator: &mut Generator, pair: &mut Pair) -> Result<(), String> {
    let stores = [
        generator.store(),
        generator.damaged_store(),
        generator.store_with_one_byte_changed(),
    ];
    for store in stores {
        pair.check(&store)?;
        let record = generator.record(&store);
        pair.begin(&FRESH, &store, FILL);
        pair.feed(&record, generator.reply_buffer_length())?;
    }
    Ok(())
}

/// Any state with a piece of a stream, on a well-formed store and on a damaged one.
pub fn states(generator: &mut Generator, pair: &mut Pair) -> Result<(), String> {
    for store in [generator.store(), generator.damaged_store()] {
        let state = generator.state(&store);
        let stream = generator.stream(&store);
        pair.begin(&state, &store, FILL);
        pair.feed(&stream, generator.reply_buffer_length())?;
    }
    Ok(())
}
