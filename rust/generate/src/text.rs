//! Keys, fields, values and numbers: few of each, so that hits are frequent, and at their ends.

use crate::layout::{LARGEST_VERSION, LONGEST_FIELD, LONGEST_VALUE};
use crate::random::Random;

pub const KEYS: [&[u8]; 5] = [b"m", b"", b"k", b"M", b"0123456789abcdef"];
pub const LONG_KEYS: [&[u8]; 2] = [b"0123456789abcdefg", &[b'k'; 200]];

pub const FIELDS: [&[u8]; 8] = [
    b"a",
    b"b",
    b"c",
    b"",
    b"A",
    b"a\0",
    &[b'F'; LONGEST_FIELD],
    b"ab",
];
pub const LONG_FIELDS: [&[u8]; 2] = [&[b'F'; LONGEST_FIELD + 1], &[b'f'; 260]];

pub const VALUES: [&[u8]; 18] = [
    b"1",
    b"2",
    b"22",
    b"0",
    b"-1",
    b"",
    b"-0",
    b"01",
    b"+1",
    b"x",
    b"\r\n",
    b"\0\xFF",
    b"9223372036854775807",
    b"9223372036854775806",
    b"9223372036854775808",
    b"-9223372036854775808",
    b"-9223372036854775809",
    &[b'9'; LONGEST_VALUE],
];
pub const LONG_VALUES: [&[u8]; 2] = [&[b'9'; LONGEST_VALUE + 1], &[b'v'; 300]];

/// Numbers at their ends and texts that are no plain numbers.
pub const NUMBERS: [&[u8]; 27] = [
    b"0",
    b"1",
    b"2",
    b"5",
    b"-1",
    b"-0",
    b"01",
    b"00",
    b"",
    b"-",
    b"+1",
    b" 1",
    b"1x",
    b"NX",
    b"4294967294",
    b"4294967295",
    b"4294967296",
    b"4102444800",
    b"4102444801",
    b"4102444800000",
    b"4102444800001",
    b"9223372036854775807",
    b"9223372036854775808",
    b"-9223372036854775808",
    b"-9223372036854775809",
    b"18446744073709551617",
    &[b'1'; 70],
];

/// The largest stands there twice, so that it is met often enough to overflow.
pub const VERSIONS: [u32; 8] = [
    0,
    1,
    2,
    3,
    7,
    LARGEST_VERSION - 1,
    LARGEST_VERSION,
    LARGEST_VERSION,
];

/// Beside the versions above, these tell reading in part, in another byte order or with a sign.
pub const TELLING_VERSIONS: [u32; 6] = [255, 256, 65_535, 65_536, 1 << 24, 1 << 31];

/// One of `usual`, or now and then of `long`.
pub fn usual_or_long(
    random: &mut Random,
    usual: &[&'static [u8]],
    long: &[&'static [u8]],
) -> &'static [u8] {
    if random.once_in(64) {
        random.pick(long)
    } else {
        random.pick(usual)
    }
}

#[cfg(test)]
mod tests {
    use super::*;
    use crate::layout::{LONGEST_KEY, TIME_LIMIT};

    #[test]
    fn texts_stand_at_the_ends() {
        let longest = KEYS.iter().map(|key| key.len()).max();
        assert_eq!(longest, Some(LONGEST_KEY));
        assert_eq!(LONG_KEYS[0].len(), LONGEST_KEY + 1);
        let version = u64::from(LARGEST_VERSION);
        let ends = [version, TIME_LIMIT, TIME_LIMIT / 1000];
        for end in ends.into_iter().flat_map(|end| [end, end + 1]) {
            let text = end.to_string();
            assert!(NUMBERS.contains(&text.as_bytes()), "{text}");
        }
    }
}
