//! Words one after another in one buffer, and their RESP form.

use crate::random::Random;

/// A command's words.
#[derive(Default)]
pub struct Words {
    bytes: Vec<u8>,
    ends: Vec<usize>,
}

impl Words {
    pub fn push(&mut self, word: &[u8]) {
        self.bytes.extend_from_slice(word);
        self.ends.push(self.bytes.len());
    }

    pub fn push_number(&mut self, number: i128) {
        self.push(number.to_string().as_bytes());
    }

    pub fn pop(&mut self) {
        self.ends.pop();
        self.bytes.truncate(self.ends.last().copied().unwrap_or(0));
    }

    pub fn count(&self) -> usize {
        self.ends.len()
    }

    /// A name or option word, its letters in any case now and then.
    pub fn push_in_some_case(&mut self, word: &[u8], random: &mut Random) {
        let start = self.bytes.len();
        self.push(word);
        let bits = match random.below(4) {
            0 => u64::MAX,
            1 => random.number(),
            _ => 0,
        };
        for (at, byte) in self.bytes[start..].iter_mut().enumerate() {
            if bits >> (at % 64) & 1 == 1 {
                byte.make_ascii_lowercase();
            }
        }
    }

    /// `*n\r\n`, then `$len\r\n`, the bytes, `\r\n` for each word.
    pub fn resp(&self) -> Vec<u8> {
        self.resp_with(|_, count| count.to_string())
    }

    /// The same with one of its counts damaged.
    pub fn damaged_resp(&self, random: &mut Random) -> Vec<u8> {
        let target = random.below(self.count() + 1);
        let damage = random.below(7);
        self.resp_with(|header, count| {
            if header != target {
                return count.to_string();
            }
            match damage {
                0 => format!("0{count}"),
                1 => (count + 1).to_string(),
                2 => count.saturating_sub(1).to_string(),
                3 => "-1".to_string(),
                4 => (count as u128 + (1 << 64)).to_string(),
                5 => (count as u128 + (1 << 32)).to_string(),
                _ => String::new(),
            }
        })
    }

    /// `text` gives the count of each header: the array's is header 0.
    fn resp_with(&self, text: impl Fn(usize, usize) -> String) -> Vec<u8> {
        let mut resp = Vec::with_capacity(self.bytes.len() + 8 * self.count() + 8);
        let header = |resp: &mut Vec<u8>, sign: u8, number: usize, count: usize| {
            resp.push(sign);
            resp.extend_from_slice(text(number, count).as_bytes());
            resp.extend_from_slice(b"\r\n");
        };
        header(&mut resp, b'*', 0, self.count());
        let mut start = 0;
        for (at, end) in self.ends.iter().enumerate() {
            header(&mut resp, b'$', at + 1, end - start);
            resp.extend_from_slice(&self.bytes[start..*end]);
            resp.extend_from_slice(b"\r\n");
            start = *end;
        }
        resp
    }
}
