//! Two stores side by side.

use crate::{FIELD_START, KEY_START, Refusal, SLOT_SIZE, accepted, interface, store_size};
use std::iter::FusedIterator;

/// In which of two stores an entry is.
#[derive(Clone, Copy, Debug, PartialEq, Eq)]
pub enum Mark {
    /// `<`
    OnlyFirst,
    /// `>`
    OnlySecond,
    /// `~`: in both, with another value, version or expiry.
    Differs,
}

/// One line of the listing, and the entry that it is about.
#[derive(Clone, Copy, Debug, PartialEq, Eq)]
pub struct Difference<'a> {
    pub mark: Mark,
    /// The slot's number in the store that the line is about, the first for [`Mark::Differs`].
    pub slot: usize,
    pub key: &'a [u8],
    pub field: &'a [u8],
}

/// The differences of two stores, in the listing's order. Keys and fields are parts of the stores and
/// outlive the listing's text.
#[derive(Clone, Debug)]
pub struct Differences<'a, 't> {
    first: &'a [u8],
    second: &'a [u8],
    text: &'t [u8],
    /// What of the text is still to be read.
    rest: &'t [u8],
}

/// The store that has the newer value.
#[derive(Clone, Copy, Debug, PartialEq, Eq)]
pub enum Which {
    First,
    Second,
}

/// The differences of two stores at an instant that is not earlier than either store's clock. The
/// listing is written to the start of `out`, of at least [`COMPARE_SIZE`](crate::COMPARE_SIZE) bytes;
/// the bytes after it are as they were. With an error no byte was changed.
///
/// ```
/// let store = vec![0; exhash::store_size(100)];
/// let mut out = vec![0; exhash::COMPARE_SIZE];
/// for difference in exhash::compare(&store, &store, 1000, &mut out)? {
///     println!("{difference:?}");
/// }
/// # Ok::<(), exhash::Refusal>(())
/// ```
pub fn compare<'a, 't>(
    first: &'a [u8],
    second: &'a [u8],
    instant: u64,
    out: &'t mut [u8],
) -> Result<Differences<'a, 't>, Refusal> {
    let answer = interface::compare(first, second, instant, out);
    accepted(answer.refusal)?;
    let text = &out[..answer.written];
    Ok(Differences {
        first,
        second,
        text,
        rest: text,
    })
}

/// The newer value of one field at an instant, a part of the store that has it; none if it is live in
/// neither.
pub fn newer<'a>(
    first: &'a [u8],
    second: &'a [u8],
    key: &[u8],
    field: &[u8],
    instant: u64,
) -> Result<Option<(Which, &'a [u8])>, Refusal> {
    let place = interface::newer(first, second, key, field, instant);
    accepted(place.refusal)?;
    let (which, store) = match place.which {
        0 => return Ok(None),
        1 => (Which::First, first),
        2 => (Which::Second, second),
        other => panic!("the archive named store {other}: it is not that of include/exhash.h"),
    };
    Ok(Some((which, &store[place.start..][..place.size])))
}

impl<'a, 't> Differences<'a, 't> {
    /// The whole listing, also after some of it was read.
    pub fn text(&self) -> &'t [u8] {
        self.text
    }

    /// What a line of four parts split by spaces says.
    fn difference(&self, line: &[u8]) -> Option<Difference<'a>> {
        let mut parts = line.split(|byte| *byte == b' ');
        let (mark, store) = match parts.next()? {
            b"<" => (Mark::OnlyFirst, self.first),
            b">" => (Mark::OnlySecond, self.second),
            b"~" => (Mark::Differs, self.first),
            _ => return None,
        };
        let mut number = || str::from_utf8(parts.next()?).ok()?.parse().ok();
        let (key, field, slot) = (number()?, number()?, number()?);
        let bytes = store.get(store_size(slot)..)?.get(..SLOT_SIZE)?;
        Some(Difference {
            mark,
            slot,
            key: bytes[KEY_START..].get(..key)?,
            field: bytes[FIELD_START..].get(..field)?,
        })
    }
}

impl<'a> Iterator for Differences<'a, '_> {
    type Item = Difference<'a>;

    fn next(&mut self) -> Option<Difference<'a>> {
        let end = self.rest.iter().position(|byte| *byte == b'\n')?;
        let (line, rest) = self.rest.split_at(end);
        self.rest = &rest[1..];
        let difference = self.difference(line);
        Some(difference.expect("a listing is as include/exhash.h says"))
    }
}

impl FusedIterator for Differences<'_, '_> {}
