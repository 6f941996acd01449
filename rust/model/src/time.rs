//! Time.

use crate::layout::TIME_LIMIT;

/// "EX and EXAT are seconds, PX and PXAT ms; EX and PX count from now."
#[derive(Clone, Copy, Debug, PartialEq, Eq)]
pub enum Unit {
    Ex,
    ExAt,
    Px,
    PxAt,
}

/// "Now is the larger of the store's clock and the record's."
pub fn now(store_clock: u64, record_clock: u64) -> u64 {
    store_clock.max(record_clock)
}

/// "An entry is live if it has no expiry or now is less than its expiry, otherwise dead."
pub fn is_live(expiry: Option<u64>, now: u64) -> bool {
    expiry.is_none_or(|expiry| now < expiry)
}

/// The instant a time names, or none if it is above the limit.
pub fn instant(unit: Unit, time: u64, now: u64) -> Option<u64> {
    let instant = match unit {
        Unit::Ex => time.checked_mul(1000)?.checked_add(now)?,
        Unit::ExAt => time.checked_mul(1000)?,
        Unit::Px => time.checked_add(now)?,
        Unit::PxAt => time,
    };
    (instant <= TIME_LIMIT).then_some(instant)
}
