//! The record, the stream and the feeder.

use crate::commands;
use crate::integer::low_first;
use crate::layout::{
    COMMAND_LENGTH, HEAD, LEAST_REPLY_BUFFER, LONGEST_RECORD, MARK, MOST_USED, MOST_WAITING,
    RECORD_CLOCK,
};
use crate::store::{is_zero, store_check};

/// "The waiting bytes (at most 1,035) and how many, unused places zero."
#[derive(Clone, Debug, PartialEq, Eq)]
pub struct Feeder {
    pub waiting: [u8; MOST_WAITING],
    pub count: usize,
}

/// What a call answers.
#[derive(Clone, Debug, PartialEq, Eq)]
pub struct Fed {
    pub refusal: u32,
    pub used: usize,
    pub skipped: usize,
    pub reply_len: usize,
    pub feeder: Feeder,
}

impl Feeder {
    /// "A fresh state has no byte waiting."
    pub fn fresh() -> Feeder {
        Feeder {
            waiting: [0; MOST_WAITING],
            count: 0,
        }
    }

    /// "One whose waiting bytes, read alone by the rule above, all wait, with zero after them."
    fn is_left_by_feeding(&self) -> bool {
        let Some((waiting, after)) = self.waiting.split_at_checked(self.count) else {
            return false;
        };
        let alone = Stream {
            waiting,
            piece: &[],
        };
        alone.first() == First::Rest { start: 0 } && is_zero(after)
    }
}

/// One feeding call.
pub fn feed(feeder: Feeder, piece: &[u8], store: &mut [u8], reply: &mut [u8]) -> Fed {
    let refusal = refusal(&feeder, store, reply);
    if refusal != 0 {
        return Fed {
            refusal,
            used: 0,
            skipped: 0,
            reply_len: 0,
            feeder,
        };
    }
    let piece = &piece[..piece.len().min(MOST_USED)];
    let stream = Stream {
        waiting: &feeder.waiting[..feeder.count],
        piece,
    };
    match stream.first() {
        First::Record { start, end } => Fed {
            refusal: 0,
            used: end - feeder.count,
            skipped: start,
            reply_len: stream.execute(start, end, store, reply),
            feeder: Feeder::fresh(),
        },
        First::Rest { start } => Fed {
            refusal: 0,
            used: piece.len(),
            skipped: start,
            reply_len: 0,
            feeder: stream.wait(start),
        },
    }
}

fn refusal(feeder: &Feeder, store: &[u8], reply: &[u8]) -> u32 {
    if !feeder.is_left_by_feeding() {
        1
    } else if store_check(store) != 0 {
        2
    } else if reply.len() < LEAST_REPLY_BUFFER {
        3
    } else {
        0
    }
}

/// What stands first in a stream after the bytes skipped, which are those before `start`.
#[derive(Clone, Copy, Debug, PartialEq, Eq)]
enum First {
    Record { start: usize, end: usize },
    Rest { start: usize },
}

/// What the rule says of a stream's next byte.
enum Next {
    Skip,
    Record { length: usize },
    Wait,
}

/// The waiting bytes and then the piece's, read as one.
struct Stream<'a> {
    waiting: &'a [u8],
    piece: &'a [u8],
}

impl Stream<'_> {
    fn len(&self) -> usize {
        self.waiting.len() + self.piece.len()
    }

    fn get(&self, at: usize) -> Option<u8> {
        match at.checked_sub(self.waiting.len()) {
            None => self.waiting.get(at).copied(),
            Some(at) => self.piece.get(at).copied(),
        }
    }

    /// The rule of "The record", at one place of the stream.
    fn next(&self, at: usize) -> Next {
        const FIRST: u8 = MARK[0];
        const SECOND: u8 = MARK[1];
        match (self.get(at), self.get(at + 1)) {
            (None, _) | (Some(FIRST), None) => return Next::Wait,
            (Some(FIRST), Some(SECOND)) => {}
            _ => return Next::Skip,
        }
        let [low, high] = [COMMAND_LENGTH.start, COMMAND_LENGTH.end - 1];
        let (Some(low), Some(high)) = (self.get(at + low), self.get(at + high)) else {
            return Next::Wait;
        };
        let length = HEAD + usize::from(u16::from_le_bytes([low, high]));
        if !(HEAD + 1..=LONGEST_RECORD).contains(&length) {
            Next::Skip
        } else if self.len() - at < length {
            Next::Wait
        } else {
            Next::Record { length }
        }
    }

    /// "One byte is skipped and reading goes on at the next."
    fn first(&self) -> First {
        let mut start = 0;
        loop {
            match self.next(start) {
                Next::Skip => start += 1,
                Next::Wait => return First::Rest { start },
                Next::Record { length } => {
                    let end = start + length;
                    return First::Record { start, end };
                }
            }
        }
    }

    /// The bytes from `start` to `end`: those that waited and those of the piece.
    fn parts(&self, start: usize, end: usize) -> (&[u8], &[u8]) {
        let border = self.waiting.len();
        let waited = &self.waiting[start.min(border)..end.min(border)];
        let piece = &self.piece[start.saturating_sub(border)..end.saturating_sub(border)];
        (waited, piece)
    }

    /// The state in which the bytes from `start` on wait.
    fn wait(&self, start: usize) -> Feeder {
        let (waited, piece) = self.parts(start, self.len());
        let mut feeder = Feeder::fresh();
        feeder.count = join(waited, piece, &mut feeder.waiting).len();
        feeder
    }

    /// Does the record from `start` to `end`; answers the reply's length.
    fn execute(&self, start: usize, end: usize, store: &mut [u8], reply: &mut [u8]) -> usize {
        match self.parts(start, end) {
            ([], record) => execute_record(record, store, reply),
            (waited, piece) => {
                let mut record = [0; LONGEST_RECORD];
                execute_record(join(waited, piece, &mut record), store, reply)
            }
        }
    }
}

fn join<'a>(head: &[u8], tail: &[u8], to: &'a mut [u8]) -> &'a [u8] {
    let to = &mut to[..head.len() + tail.len()];
    to[..head.len()].copy_from_slice(head);
    to[head.len()..].copy_from_slice(tail);
    to
}

/// "Mark, then the clock in ms, then L, then L bytes of command."
fn execute_record(record: &[u8], store: &mut [u8], reply: &mut [u8]) -> usize {
    let (head, command) = record.split_at(HEAD);
    let clock = low_first(&head[RECORD_CLOCK]);
    commands::execute(clock, command, store, reply).reply_len
}

/// What demand 3's definition gives for one uncut stream, besides the store.
#[derive(Clone, Debug, PartialEq, Eq)]
pub struct Whole<'a> {
    pub replies: Vec<u8>,
    pub skipped: usize,
    pub rest: &'a [u8],
}

/// Demand 3's definition, which "knows no calls and no cuts", on a well-formed store.
pub fn whole<'a>(stream: &'a [u8], store: &mut [u8]) -> Whole<'a> {
    let mut reply = vec![0; LEAST_REPLY_BUFFER];
    let mut replies = Vec::new();
    let mut skipped = 0;
    let mut rest = stream;
    loop {
        let stream = Stream {
            waiting: &[],
            piece: rest,
        };
        match stream.first() {
            First::Record { start, end } => {
                let length = execute_record(&rest[start..end], store, &mut reply);
                replies.extend_from_slice(&reply[..length]);
                skipped += start;
                rest = &rest[end..];
            }
            First::Rest { start } => {
                return Whole {
                    replies,
                    skipped: skipped + start,
                    rest: &rest[start..],
                };
            }
        }
    }
}
