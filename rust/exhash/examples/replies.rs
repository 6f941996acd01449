//! Plays a script of the demo (`crates/demo/stdin`) from standard input and writes the replies, byte
//! for byte, to standard output. A line that starts with a digit is a record, its clock in ms and
//! its command; `=` and `&` start afresh; `!` is followed by stray bytes. Other lines are passed
//! over.

use exhash::{Feeder, REPLY_SIZE, Refusal, store_size};
use std::error::Error;
use std::io::{self, BufRead, Write};

const SLOTS: usize = 2;

/// A stream's feeder, the store that it is for, and the replies of its records.
struct Session {
    feeder: Feeder,
    store: Vec<u8>,
    replies: Vec<u8>,
}

impl Session {
    fn fresh() -> Session {
        Session {
            feeder: Feeder::fresh(),
            store: vec![0; store_size(SLOTS)],
            replies: Vec::new(),
        }
    }

    fn feed(&mut self, mut piece: &[u8]) -> Result<(), Refusal> {
        let mut reply = vec![0; REPLY_SIZE];
        while !piece.is_empty() {
            let fed = self.feeder.feed(piece, &mut self.store, &mut reply)?;
            self.replies.extend_from_slice(&reply[..fed.reply_len]);
            piece = &piece[fed.used..];
        }
        Ok(())
    }
}

/// A record whose command is words split by single spaces.
fn record(clock: u64, command: &str) -> Result<Vec<u8>, Box<dyn Error>> {
    let words: Vec<&str> = command.split(' ').collect();
    let mut body = format!("*{}\r\n", words.len());
    for word in words {
        body += &format!("${}\r\n{word}\r\n", word.len());
    }
    let length = u16::try_from(body.len())?.to_le_bytes();
    Ok([
        b"\x45\x57",
        &clock.to_le_bytes()[..],
        &length,
        body.as_bytes(),
    ]
    .concat())
}

fn main() -> Result<(), Box<dyn Error>> {
    let mut session = Session::fresh();
    for line in io::stdin().lock().lines() {
        let line = line?;
        match line.as_bytes() {
            [b'=' | b'&', ..] => session = Session::fresh(),
            [b'!', stray @ ..] => session.feed(stray)?,
            [b'0'..=b'9', ..] => {
                let (clock, command) = line.split_once(' ').ok_or("a record without a command")?;
                session.feed(&record(clock.parse()?, command)?)?;
            }
            _ => {}
        }
        io::stdout().write_all(&session.replies)?;
        session.replies.clear();
    }
    Ok(())
}
