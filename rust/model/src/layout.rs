//! The paper's numbers: sizes, places and limits. Each is said here once.

use std::ops::Range;

// Words and their lengths.
pub const MOST_WORDS: usize = 64;
pub const LONGEST_KEY: usize = 16;
pub const LONGEST_FIELD: usize = 32;
pub const LONGEST_VALUE: usize = 64;

// Numbers.
/// No clock reaches this many ms; an expiry may.
pub const TIME_LIMIT: u64 = 4_102_444_800_000;
/// "Largest version 4,294,967,295."
pub const LARGEST_VERSION: u32 = u32::MAX;

// "A store is 16+128·n bytes, n from 1 to 500": its header, and the slots.
pub const CLOCK: Range<usize> = 0..8;
pub const RESERVED: Range<usize> = after(CLOCK, 8);
pub const HEADER: usize = RESERVED.end;
pub const MOST_SLOTS: usize = 500;

// A slot: state, three lengths, version, expiry, then the places of key, field and value.
pub const STATE: usize = 0;
pub const KEY_LENGTH: usize = 1;
pub const FIELD_LENGTH: usize = 2;
pub const VALUE_LENGTH: usize = 3;
pub const VERSION: Range<usize> = 4..8;
pub const EXPIRY: Range<usize> = after(VERSION, 8);
pub const KEY: Range<usize> = after(EXPIRY, LONGEST_KEY);
pub const FIELD: Range<usize> = after(KEY, LONGEST_FIELD);
pub const VALUE: Range<usize> = after(FIELD, LONGEST_VALUE);
pub const SLOT: usize = VALUE.end;

// A slot's state.
pub const EMPTY: u8 = 0;
pub const HELD: u8 = 1;
pub const HELD_WITH_EXPIRY: u8 = 2;

// A record: mark, clock and L, then L bytes of command.
pub const MARK: [u8; 2] = [0x45, 0x57];
pub const RECORD_CLOCK: Range<usize> = 2..10;
pub const COMMAND_LENGTH: Range<usize> = after(RECORD_CLOCK, 2);
pub const HEAD: usize = COMMAND_LENGTH.end;
pub const LONGEST_COMMAND: usize = 1024;
pub const LONGEST_RECORD: usize = HEAD + LONGEST_COMMAND;

// A call.
/// "The waiting bytes (at most 1,035)": a record but for its last byte.
pub const MOST_WAITING: usize = LONGEST_RECORD - 1;
/// A call uses no more bytes than this.
pub const MOST_USED: usize = 65_536;
/// A reply buffer under this size is refused.
pub const LEAST_REPLY_BUFFER: usize = 56_000;
/// An output for the listing of two stores' differences under this size is refused.
pub const LEAST_LISTING_BUFFER: usize = 16_000;

/// The bytes of a store of some slots.
pub const fn store_size(slots: usize) -> usize {
    HEADER + SLOT * slots
}

/// The place of some bytes right behind another.
const fn after(place: Range<usize>, size: usize) -> Range<usize> {
    place.end..place.end + size
}
