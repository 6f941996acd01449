//! Integers, as text and as bytes.

/// The longest text of a signed 64-bit integer.
pub const LONGEST: usize = 20;

/// "A plain integer is 0, or an optional minus and digits not starting with 0, in signed 64 bits."
pub fn plain(text: &[u8]) -> Option<i64> {
    let (negative, digits) = match text {
        b"0" => return Some(0),
        [b'-', digits @ ..] => (true, digits),
        digits => (false, digits),
    };
    if !matches!(digits.first(), Some(b'1'..=b'9')) {
        return None;
    }
    // Counted downwards, since the negative side reaches one further.
    let mut value: i64 = 0;
    for digit in digits {
        if !digit.is_ascii_digit() {
            return None;
        }
        value = value
            .checked_mul(10)?
            .checked_sub(i64::from(digit - b'0'))?;
    }
    if negative {
        Some(value)
    } else {
        value.checked_neg()
    }
}

/// A plain integer from 0 to `largest`.
pub fn plain_up_to(text: &[u8], largest: u64) -> Option<u64> {
    let value = u64::try_from(plain(text)?).ok()?;
    (value <= largest).then_some(value)
}

/// "Numbers low byte first."
pub fn low_first(bytes: &[u8]) -> u64 {
    let append = |number: u64, byte: &u8| number << 8 | u64::from(*byte);
    bytes.iter().rev().fold(0, append)
}

/// The text of an integer, at the end of its bytes.
pub struct Text {
    bytes: [u8; LONGEST],
    start: usize,
}

impl Text {
    pub fn of(value: i64) -> Text {
        let mut text = Text {
            bytes: [0; LONGEST],
            start: LONGEST,
        };
        let mut rest = value.unsigned_abs();
        loop {
            text.push_front(b'0' + (rest % 10) as u8);
            rest /= 10;
            if rest == 0 {
                break;
            }
        }
        if value < 0 {
            text.push_front(b'-');
        }
        text
    }

    pub fn as_bytes(&self) -> &[u8] {
        &self.bytes[self.start..]
    }

    fn push_front(&mut self, byte: u8) {
        self.start -= 1;
        self.bytes[self.start] = byte;
    }
}

#[cfg(test)]
mod tests {
    use super::*;

    #[test]
    fn plain_integers_and_their_texts_agree() {
        for value in [0, 1, -1, 9, 10, -10, 4_294_967_296, i64::MAX, i64::MIN] {
            assert_eq!(Text::of(value).as_bytes(), value.to_string().as_bytes());
            assert_eq!(plain(Text::of(value).as_bytes()), Some(value));
        }
    }

    #[test]
    fn other_texts_are_not_plain() {
        let texts = [
            "", "-", "-0", "00", "01", "-01", "+1", " 1", "1 ", "1a", "--1",
        ];
        let too_large = [
            "9223372036854775808",
            "-9223372036854775809",
            "99999999999999999999",
        ];
        for text in texts.iter().chain(&too_large) {
            assert_eq!(plain(text.as_bytes()), None, "{text:?}");
        }
    }

    #[test]
    fn the_largest_is_allowed() {
        assert_eq!(plain_up_to(b"7", 7), Some(7));
        assert_eq!(plain_up_to(b"8", 7), None);
        assert_eq!(plain_up_to(b"-1", 7), None);
    }
}
