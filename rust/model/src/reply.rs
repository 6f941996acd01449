//! The reply writer and the answers that say no.

use crate::integer::Text;

/// The refusals of a command, with the paper's numbers.
#[derive(Clone, Copy, Debug, PartialEq, Eq)]
pub enum Refusal {
    Protocol = 10,
    ClockOutOfRange = 11,
    UnknownCommand = 12,
    WrongNumberOfArguments = 13,
    TooLong = 14,
    SyntaxError = 15,
    NotAnInteger = 16,
    InvalidVersion = 17,
    InvalidExpireTime = 18,
    StaleVersion = 20,
    HashValueNotAnInteger = 21,
    Overflow = 22,
    VersionOverflow = 23,
    StoreFull = 24,
}

impl Refusal {
    /// In the order of their numbers.
    pub const ALL: [Refusal; 14] = [
        Refusal::Protocol,
        Refusal::ClockOutOfRange,
        Refusal::UnknownCommand,
        Refusal::WrongNumberOfArguments,
        Refusal::TooLong,
        Refusal::SyntaxError,
        Refusal::NotAnInteger,
        Refusal::InvalidVersion,
        Refusal::InvalidExpireTime,
        Refusal::StaleVersion,
        Refusal::HashValueNotAnInteger,
        Refusal::Overflow,
        Refusal::VersionOverflow,
        Refusal::StoreFull,
    ];

    pub fn number(self) -> u32 {
        self as u32
    }

    pub fn line(self) -> &'static [u8] {
        match self {
            Refusal::Protocol => b"-ERR protocol\r\n",
            Refusal::ClockOutOfRange => b"-ERR clock out of range\r\n",
            Refusal::UnknownCommand => b"-ERR unknown command\r\n",
            Refusal::WrongNumberOfArguments => b"-ERR wrong number of arguments\r\n",
            Refusal::TooLong => b"-ERR too long\r\n",
            Refusal::SyntaxError => b"-ERR syntax error\r\n",
            Refusal::NotAnInteger => b"-ERR value is not an integer or out of range\r\n",
            Refusal::InvalidVersion => b"-ERR invalid version\r\n",
            Refusal::InvalidExpireTime => b"-ERR invalid expire time\r\n",
            Refusal::StaleVersion => b"-ERR update version is stale\r\n",
            Refusal::HashValueNotAnInteger => b"-ERR hash value is not an integer\r\n",
            Refusal::Overflow => b"-ERR increment or decrement would overflow\r\n",
            Refusal::VersionOverflow => b"-ERR version overflow\r\n",
            Refusal::StoreFull => b"-ERR store is full\r\n",
        }
    }
}

/// "Reply bytes go at the buffer's start; those beyond keep their contents."
pub struct Reply<'a> {
    buffer: &'a mut [u8],
    length: usize,
}

impl<'a> Reply<'a> {
    pub fn new(buffer: &'a mut [u8]) -> Reply<'a> {
        Reply { buffer, length: 0 }
    }

    pub fn length(&self) -> usize {
        self.length
    }

    pub fn ok(&mut self) {
        self.raw(b"+OK\r\n");
    }

    pub fn nil(&mut self) {
        self.raw(b"$-1\r\n");
    }

    pub fn refuse(&mut self, refusal: Refusal) {
        self.raw(refusal.line());
    }

    pub fn integer(&mut self, value: i64) {
        self.headed(b":", value);
    }

    pub fn count(&mut self, count: usize) {
        self.headed(b":", count as i64);
    }

    pub fn array(&mut self, elements: usize) {
        self.headed(b"*", elements as i64);
    }

    pub fn bulk(&mut self, bytes: &[u8]) {
        self.headed(b"$", bytes.len() as i64);
        self.raw(bytes);
        self.raw(b"\r\n");
    }

    fn headed(&mut self, sign: &[u8], value: i64) {
        self.raw(sign);
        self.raw(Text::of(value).as_bytes());
        self.raw(b"\r\n");
    }

    /// A buffer of `LEAST_REPLY_BUFFER` holds the longest reply, so nothing is ever cut off.
    fn raw(&mut self, bytes: &[u8]) {
        let end = self.length + bytes.len();
        if let Some(place) = self.buffer.get_mut(self.length..end) {
            place.copy_from_slice(bytes);
            self.length = end;
        }
    }
}
