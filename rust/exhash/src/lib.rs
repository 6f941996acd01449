//! Safe calls of the proved library `exhash`: a store of fields in lent bytes, fed with records
//! from a byte stream that arrives in pieces. `include/exhash.h` says what each call does.
//!
//! ```
//! let mut store = vec![0; exhash::store_size(100)]; // zero bytes: an empty store
//! let mut reply = vec![0; exhash::REPLY_SIZE];
//! let mut feeder = exhash::Feeder::fresh();
//!
//! let mut piece = &b"\x45\x57\xE8\x03\0\0\0\0\0\0\x1F\0\
//!     *3\r\n$6\r\nEXHGET\r\n$1\r\nm\r\n$2\r\nt1\r\n"[..];
//! while !piece.is_empty() {
//!     let fed = feeder.feed(piece, &mut store, &mut reply)?;
//!     assert_eq!(&reply[..fed.reply_len], b"$-1\r\n");
//!     piece = &piece[fed.used..];
//! }
//! # Ok::<(), exhash::Refusal>(())
//! ```

#![deny(unsafe_code)]

mod compare;
#[allow(unsafe_code)]
pub mod interface;

pub use compare::{Difference, Differences, Mark, Which, compare, newer};
pub use interface::State;
use std::error::Error;
use std::fmt;

/// The most bytes that wait for the rest of their record.
pub const WAITING_MOST: usize = 1035;
/// The least size of a reply buffer.
pub const REPLY_SIZE: usize = 56_000;
/// The least size of the output of [`compare`].
pub const COMPARE_SIZE: usize = 16_000;
/// A call uses no more bytes of its piece than this.
pub const USED_MOST: usize = 65_536;
/// A store has 1 to this many slots.
pub const SLOTS_MOST: usize = 500;
/// A store is a header, and then its slots.
pub const HEADER_SIZE: usize = 16;
/// A slot holds one field.
pub const SLOT_SIZE: usize = 128;
/// Where a slot's key starts.
pub const KEY_START: usize = 16;
/// Where a slot's field starts.
pub const FIELD_START: usize = 32;

/// The bytes of a store of some slots.
pub const fn store_size(slots: usize) -> usize {
    HEADER_SIZE + SLOT_SIZE * slots
}

/// Reads records out of a stream and does their commands on a lent store.
#[derive(Clone, Debug, PartialEq, Eq)]
pub struct Feeder {
    state: State,
}

/// What a call did.
#[derive(Clone, Copy, Debug, PartialEq, Eq)]
pub struct Fed {
    /// Bytes used, from the piece's start.
    pub used: usize,
    /// Bytes told in this call to be in no record, also those that waited: it can exceed `used`.
    pub skipped: usize,
    /// Bytes of reply at the buffer's start; 0 if no record was completed.
    pub reply_len: usize,
}

/// Why a call used and changed nothing. Where several apply, the lowest number is given; but
/// [`compare`] gives [`Refusal::Instant`] before [`Refusal::ShortReply`].
#[derive(Clone, Copy, Debug, PartialEq, Eq)]
pub enum Refusal {
    /// A state that no feeding leaves.
    State = 1,
    /// Not the bytes of a well-formed store, or not [`store_size`] of them.
    Store = 2,
    /// A reply buffer under [`REPLY_SIZE`] bytes, or an output under [`COMPARE_SIZE`].
    ShortReply = 3,
    /// An instant earlier than a store's clock, or 4,102,444,800,000 or more.
    Instant = 11,
}

impl Feeder {
    /// The start of a stream.
    pub fn fresh() -> Feeder {
        Feeder {
            state: interface::fresh(),
        }
    }

    /// The bytes that wait for the rest of their record.
    pub fn waiting(&self) -> &[u8] {
        let State { waiting, count } = &self.state;
        waiting.get(..*count).unwrap_or(waiting)
    }

    /// The whole state, to be kept and fed on later.
    pub fn state(&self) -> &State {
        &self.state
    }

    /// Reads until one record is completed, the piece ends or [`USED_MOST`] bytes are used, and does
    /// that record. Uses at least one byte of a piece that is not empty; offer the rest in the next
    /// call. With an error nothing was used or changed: state, store and buffer are as they were.
    pub fn feed(
        &mut self,
        piece: &[u8],
        store: &mut [u8],
        reply: &mut [u8],
    ) -> Result<Fed, Refusal> {
        let answer = interface::feed(self.state, piece, store, reply);
        self.state = answer.state;
        accepted(answer.refusal)?;
        Ok(Fed {
            used: answer.used,
            skipped: answer.skipped,
            reply_len: answer.reply_len,
        })
    }
}

/// Any state; a damaged one is refused by the next call.
impl From<State> for Feeder {
    fn from(state: State) -> Feeder {
        Feeder { state }
    }
}

/// The check that every feeding call makes of its store.
pub fn store_check(store: &[u8]) -> Result<(), Refusal> {
    accepted(interface::store_check(store))
}

fn accepted(number: u32) -> Result<(), Refusal> {
    match number {
        0 => Ok(()),
        1 => Err(Refusal::State),
        2 => Err(Refusal::Store),
        3 => Err(Refusal::ShortReply),
        11 => Err(Refusal::Instant),
        _ => panic!("the archive answered {number}: it is not that of include/exhash.h"),
    }
}

impl fmt::Display for Refusal {
    fn fmt(&self, formatter: &mut fmt::Formatter) -> fmt::Result {
        let meaning = match self {
            Refusal::State => "the feeder's state is one that no feeding leaves",
            Refusal::Store => "the store is not well formed",
            Refusal::ShortReply => {
                "the reply buffer is under 56,000 bytes, or the output under 16,000"
            }
            Refusal::Instant => "the instant is before a store's clock or out of range",
        };
        write!(formatter, "refusal {}: {meaning}", *self as u32)
    }
}

impl Error for Refusal {}
