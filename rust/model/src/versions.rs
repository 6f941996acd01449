//! Versions.

use crate::layout::LARGEST_VERSION;

/// The version a command gives.
#[derive(Clone, Copy, Debug, PartialEq, Eq)]
pub enum Given {
    Nothing,
    Ver(u32),
    Abs(u32),
    Gt(u32),
}

/// "If the field is live with a version other than 0 and v differs, refusal 20"; but "a VER of 0
/// makes no version check". "A GT not greater than a live field's version is 20."
pub fn is_stale(given: Given, live: Option<u32>) -> bool {
    match (given, live) {
        (Given::Ver(0), _) => false,
        (Given::Ver(given), Some(held)) => held != 0 && given != held,
        (Given::Gt(given), Some(held)) => given <= held,
        _ => false,
    }
}

/// "A missing field gets 1, a live one its version plus 1." None if that passes the largest. A GT
/// "becomes the version", and "a missing field takes it as its version".
pub fn next(given: Given, live: Option<u32>) -> Option<u32> {
    match (given, live) {
        (Given::Abs(given) | Given::Gt(given), _) => Some(given),
        (_, None) => Some(1),
        (_, Some(LARGEST_VERSION)) => None,
        (_, Some(held)) => Some(held + 1),
    }
}
