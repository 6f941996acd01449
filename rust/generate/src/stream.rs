//! Streams of records, noise and cut or false marks, and ways to cut them.

use crate::Generator;
use crate::layout::{HEAD, LONGEST_COMMAND, LONGEST_RECORD, MARK, MOST_USED, MOST_WAITING, head};
use crate::words::Words;

/// A record whose command is words split by single spaces.
pub fn record(clock: u64, command: &str) -> Vec<u8> {
    let mut words = Words::default();
    for word in command.split(' ') {
        words.push(word.as_bytes());
    }
    record_of(clock, &words.resp())
}

/// The command is short enough for its length.
pub(crate) fn record_of(clock: u64, command: &[u8]) -> Vec<u8> {
    let mut record = head(clock, command.len() as u16);
    record.extend_from_slice(command);
    record
}

impl Generator {
    /// A stream of a few parts, now and then with noise longer than a call may use.
    pub fn stream(&mut self, store: &[u8]) -> Vec<u8> {
        let mut stream = Vec::new();
        for _ in 0..self.random.between(1, 8) {
            self.push_part(&mut stream, store);
        }
        if self.random.once_in(4) {
            let part = self.record(store);
            let cut = self.random.below(part.len());
            stream.extend_from_slice(&part[..cut]);
        }
        stream
    }

    fn push_part(&mut self, stream: &mut Vec<u8>, store: &[u8]) {
        match self.random.below(16) {
            0 => stream.extend(self.noise(30)),
            1 => stream.extend(self.noise_of_marks()),
            2 => stream.push(MARK[0]),
            3 => stream.extend_from_slice(&MARK),
            4 => stream.extend(self.false_head()),
            5 => {
                let head = self.false_head();
                let cut = self.random.below(head.len());
                stream.extend_from_slice(&head[..cut]);
            }
            6 => {
                let record = self.record(store);
                let cut = self.random.below(record.len());
                stream.extend_from_slice(&record[..cut]);
            }
            7 if self.random.once_in(24) => {
                let length = MOST_USED - 50 + self.random.below(100);
                stream.resize(stream.len() + length, self.random.byte());
            }
            8 if self.random.once_in(4) => stream.extend(self.longest_record()),
            _ => stream.extend(self.record(store)),
        }
    }

    /// Up to `most` bytes of anything, at least one.
    pub(crate) fn noise(&mut self, most: usize) -> Vec<u8> {
        let count = self.random.between(1, most);
        (0..count).map(|_| self.random.byte()).collect()
    }

    /// Up to 40 bytes that are mostly parts of marks and heads.
    fn noise_of_marks(&mut self) -> Vec<u8> {
        let count = self.random.between(1, 40);
        let [first, second] = MARK;
        let bytes = [first, first, second, second, 0, 0, 1, 4, 0xFF];
        (0..count).map(|_| self.random.pick(&bytes)).collect()
    }

    /// A record with a command and a clock made for the store.
    pub fn record(&mut self, store: &[u8]) -> Vec<u8> {
        let clock = self.clock(store);
        let command = self.command(store);
        record_of(clock, &command)
    }

    /// A record as long as can be.
    pub(crate) fn longest_record(&mut self) -> Vec<u8> {
        let mut record = head(1000, LONGEST_COMMAND as u16);
        let [first, second] = MARK;
        let fill = self.random.pick(&[0, first, second, 0xFF]);
        record.resize(LONGEST_RECORD, fill);
        record
    }

    /// A mark with L out of range.
    pub(crate) fn false_head(&mut self) -> Vec<u8> {
        // Some hold the mark's bytes, so that a mark begins inside the head.
        let too_long = LONGEST_COMMAND as u16 + 1;
        let lengths = [0, too_long, 0x5745, 0x4557, 0x0800, u16::MAX];
        let length = self.random.pick(&lengths);
        let clock = self.random.pick(&[0, 1000, 0x5745, 0x4557_4545, u64::MAX]);
        head(clock, length)
    }

    /// The lengths of the pieces a stream is cut into: they add up to its length.
    pub fn pieces(&mut self, length: usize) -> Vec<usize> {
        let sizes: &[usize] = match self.random.below(6) {
            0 => &[usize::MAX],
            1 if length < 4000 => &[1],
            2 => &[2, 7, 1000],
            3 => &[0, 1, 2, 3, HEAD - 1, HEAD, HEAD + 1],
            4 => &[1000, MOST_WAITING, LONGEST_RECORD, MOST_USED],
            _ => &[0, 1, 5, 30, 100, 500],
        };
        // A long stream is cut into fewer pieces.
        let least = if length < 4000 { 0 } else { 1000 };
        let mut pieces = Vec::new();
        let mut rest = length;
        while rest > 0 {
            let piece = self.random.pick(sizes).max(least).min(rest);
            pieces.push(piece);
            rest -= piece;
        }
        pieces
    }
}
