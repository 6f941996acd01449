//! The paper's numbers as the tools take them: inputs, comparison, benchmark and the wrapper's tests.
//! They are written down here on their own; a test of `differ` holds the three statements together.

use std::ops::Range;

// The store.
pub const CLOCK: Range<usize> = 0..8;
pub const RESERVED: Range<usize> = 8..16;
pub const HEADER: usize = 16;
pub const MOST_SLOTS: usize = 500;

// The slot.
pub const STATE: usize = 0;
pub const KEY_LENGTH: usize = 1;
pub const FIELD_LENGTH: usize = 2;
pub const VALUE_LENGTH: usize = 3;
pub const VERSION: Range<usize> = 4..8;
pub const EXPIRY: Range<usize> = 8..16;
pub const KEY: Range<usize> = 16..32;
pub const FIELD: Range<usize> = 32..64;
pub const VALUE: Range<usize> = 64..128;
pub const SLOT: usize = 128;

pub const EMPTY: u8 = 0;
pub const HELD: u8 = 1;
pub const EXPIRING: u8 = 2;

pub const LONGEST_KEY: usize = KEY.end - KEY.start;
pub const LONGEST_FIELD: usize = FIELD.end - FIELD.start;
pub const LONGEST_VALUE: usize = VALUE.end - VALUE.start;

/// "The latest clock is below 4,102,444,800,000."
pub const TIME_LIMIT: u64 = 4_102_444_800_000;
pub const LARGEST_VERSION: u32 = 4_294_967_295;

// The record.
pub const MARK: [u8; 2] = [0x45, 0x57];
pub const HEAD: usize = 12;
pub const LONGEST_COMMAND: usize = 1024;
pub const LONGEST_RECORD: usize = 1036;
pub const MOST_WORDS: usize = 64;

// A call.
pub const MOST_WAITING: usize = 1035;
pub const MOST_USED: usize = 65_536;
pub const LEAST_REPLY_BUFFER: usize = 56_000;
pub const LEAST_LISTING_BUFFER: usize = 16_000;

/// The bytes of a store of some slots.
pub const fn store_size(slots: usize) -> usize {
    HEADER + SLOT * slots
}

/// Mark, clock and L.
pub fn head(clock: u64, length: u16) -> Vec<u8> {
    [&MARK[..], &clock.to_le_bytes(), &length.to_le_bytes()].concat()
}
