//! The command's words: "one RESP2 array of 1 to 64 bulk strings, filling the L bytes exactly".

use crate::layout::MOST_WORDS;

/// The words of a command, each a part of its bytes.
pub struct Words<'a> {
    words: [&'a [u8]; MOST_WORDS],
    count: usize,
}

impl<'a> Words<'a> {
    pub fn as_slice(&self) -> &[&'a [u8]] {
        &self.words[..self.count]
    }
}

/// The words of `command`, or none if it is not such an array.
pub fn words(command: &[u8]) -> Option<Words<'_>> {
    let mut cursor = Cursor { rest: command };
    let count = cursor.header(b'*')?;
    if !(1..=MOST_WORDS).contains(&count) {
        return None;
    }
    let mut words: [&[u8]; MOST_WORDS] = [&[]; MOST_WORDS];
    for word in &mut words[..count] {
        let length = cursor.header(b'$')?;
        *word = cursor.bytes(length)?;
        cursor.line_end()?;
    }
    cursor.rest.is_empty().then_some(Words { words, count })
}

struct Cursor<'a> {
    rest: &'a [u8],
}

impl<'a> Cursor<'a> {
    /// `*n\r\n` or `$len\r\n`.
    fn header(&mut self, sign: u8) -> Option<usize> {
        self.rest = self.rest.strip_prefix(&[sign])?;
        let count = self.count()?;
        self.line_end()?;
        Some(count)
    }

    /// "Counts are digits with no leading zero but 0 itself." One too large stays too large.
    fn count(&mut self) -> Option<usize> {
        let end = self.rest.iter().position(|byte| !byte.is_ascii_digit())?;
        let digits = self.bytes(end)?;
        if matches!(digits, [] | [b'0', _, ..]) {
            return None;
        }
        let append = |count: usize, digit: &u8| {
            let digit = usize::from(digit - b'0');
            count.saturating_mul(10).saturating_add(digit)
        };
        Some(digits.iter().fold(0, append))
    }

    fn bytes(&mut self, length: usize) -> Option<&'a [u8]> {
        let (bytes, rest) = self.rest.split_at_checked(length)?;
        self.rest = rest;
        Some(bytes)
    }

    fn line_end(&mut self) -> Option<()> {
        self.rest = self.rest.strip_prefix(b"\r\n")?;
        Some(())
    }
}

#[cfg(test)]
mod tests {
    use super::{MOST_WORDS, words};

    #[test]
    fn words_fill_the_command_exactly() {
        let read = words(b"*2\r\n$3\r\na\r\n\r\n$0\r\n\r\n").unwrap();
        assert_eq!(read.as_slice(), [&b"a\r\n"[..], &b""[..]]);
    }

    #[test]
    fn anything_else_is_refused() {
        let damaged: [&[u8]; 16] = [
            b"",
            b"*",
            b"*1",
            b"*0\r\n",
            b"*1\r\n",
            b"*01\r\n$1\r\na\r\n",
            b"*1\r\n$01\r\na\r\n",
            b"*1\r\n$-1\r\n",
            b"*1\r\n$1\r\na\r\n\r\n",
            b"*1\r\n$1\r\na\n",
            b"*1\r\n$2\r\na\r\n",
            b"*1\r\n$18446744073709551617\r\na\r\n",
            b"*18446744073709551617\r\n$1\r\na\r\n",
            b"*-1\r\n",
            b"$1\r\na\r\n",
            b"*+1\r\n$1\r\na\r\n",
        ];
        for command in damaged {
            assert!(
                words(command).is_none(),
                "{:?}",
                command.escape_ascii().to_string()
            );
        }
    }

    #[test]
    fn so_many_words_at_most() {
        for (count, accepted) in [(MOST_WORDS, true), (MOST_WORDS + 1, false)] {
            let command = format!("*{count}\r\n{}", "$0\r\n\r\n".repeat(count));
            assert_eq!(words(command.as_bytes()).is_some(), accepted);
        }
    }
}
