//! A store and a reply buffer, and the short forms the tests are written in.

use model::layout::{LEAST_REPLY_BUFFER, MARK, store_size};
use model::{Fed, Feeder, execute, feed};

/// The six commands that take VER, ABS or GT, on key m and field a.
#[allow(dead_code)]
pub const COMMANDS: [&str; 6] = [
    "EXHSET m a 1",
    "EXHINCRBY m a 1",
    "EXHEXPIRE m a 9",
    "EXHEXPIREAT m a 9",
    "EXHPEXPIRE m a 9",
    "EXHPEXPIREAT m a 9",
];

/// Whether one of [`COMMANDS`] sets an expiry and makes no field.
#[allow(dead_code)]
pub fn is_setter(command: &str) -> bool {
    command.contains("EXPIRE")
}

/// A fresh store of some slots.
#[derive(Clone)]
pub struct Handset {
    pub store: Vec<u8>,
    reply: Vec<u8>,
}

impl Handset {
    pub fn new(slots: usize) -> Handset {
        Handset {
            store: vec![0; store_size(slots)],
            reply: vec![0; LEAST_REPLY_BUFFER],
        }
    }

    /// A command in words split by spaces; answers its number and its reply, spaces for line ends.
    pub fn run(&mut self, clock: u64, command: &str) -> (u32, String) {
        let done = execute(clock, &resp(command), &mut self.store, &mut self.reply);
        (done.refusal, lines(&self.reply[..done.reply_len]))
    }

    /// The reply alone, of a command that is not refused.
    #[allow(dead_code)]
    pub fn reply(&mut self, clock: u64, command: &str) -> String {
        let (number, reply) = self.run(clock, command);
        assert_eq!(number, 0, "{command}");
        reply
    }

    #[allow(dead_code)]
    pub fn feed(&mut self, feeder: Feeder, piece: &[u8]) -> (Fed, String) {
        let fed = feed(feeder, piece, &mut self.store, &mut self.reply);
        let reply = lines(&self.reply[..fed.reply_len]);
        (fed, reply)
    }
}

/// A handset of one slot with a = 1 at a version.
#[allow(dead_code)]
pub fn live_at(version: u32) -> Handset {
    let mut handset = Handset::new(1);
    handset.reply(0, "EXHSET m a 1");
    handset.reply(0, &format!("EXHSETVER m a {version}"));
    handset
}

/// Handsets of one slot in which field a is missing from clock 1 on: one empty, one where it is dead, at version 9.
#[allow(dead_code)]
pub fn without_field() -> [Handset; 2] {
    let mut dead = live_at(9);
    dead.reply(0, "EXHPEXPIRE m a 1");
    [Handset::new(1), dead]
}

pub fn resp(command: &str) -> Vec<u8> {
    let words: Vec<&str> = command.split(' ').collect();
    let mut bytes = format!("*{}\r\n", words.len());
    for word in words {
        bytes += &format!("${}\r\n{word}\r\n", word.len());
    }
    bytes.into_bytes()
}

/// Mark, clock and L.
#[allow(dead_code)]
pub fn head(clock: u64, length: u16) -> Vec<u8> {
    [&MARK[..], &clock.to_le_bytes(), &length.to_le_bytes()].concat()
}

#[allow(dead_code)]
pub fn record(clock: u64, command: &str) -> Vec<u8> {
    let command = resp(command);
    let length = u16::try_from(command.len()).unwrap();
    [head(clock, length), command].concat()
}

fn lines(reply: &[u8]) -> String {
    let text = String::from_utf8(reply.to_vec()).unwrap();
    text.trim_end_matches("\r\n").replace("\r\n", " ")
}
