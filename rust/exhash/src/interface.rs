//! The C interface of include/exhash.h, declared again, with all the unsafe code there is.

use crate::WAITING_MOST;

/// The feeder's state as it goes in and comes back.
#[repr(C)]
#[derive(Clone, Copy, Debug, PartialEq, Eq)]
pub struct State {
    pub waiting: [u8; WAITING_MOST],
    pub count: usize,
}

/// What a feeding call answers.
#[repr(C)]
#[derive(Clone, Copy, Debug, PartialEq, Eq)]
pub struct Answer {
    pub refusal: u32,
    pub used: usize,
    pub skipped: usize,
    pub reply_len: usize,
    pub state: State,
}

/// What a comparing call answers.
#[repr(C)]
#[derive(Clone, Copy, Debug, PartialEq, Eq)]
pub struct Compared {
    pub refusal: u32,
    pub written: usize,
}

/// Where the newer value of a field stands: `which` is 0 neither, 1 the first store, 2 the second.
#[repr(C)]
#[derive(Clone, Copy, Debug, PartialEq, Eq)]
pub struct NewerPlace {
    pub refusal: u32,
    pub which: u32,
    pub start: usize,
    pub size: usize,
}

// SAFETY: the signatures and the structs are those of include/exhash.h; exh_feeder_fresh takes
// nothing and is proved for every call.
unsafe extern "C" {
    safe fn exh_feeder_fresh() -> State;
    fn exh_feed(
        state: State,
        piece: *const u8,
        piece_len: usize,
        store: *mut u8,
        store_len: usize,
        reply: *mut u8,
        reply_len: usize,
    ) -> Answer;
    fn exh_store_check(store: *const u8, store_len: usize) -> u32;
    fn exh_compare(
        first: *const u8,
        first_len: usize,
        second: *const u8,
        second_len: usize,
        instant: u64,
        out: *mut u8,
        out_len: usize,
    ) -> Compared;
    fn exh_newer(
        first: *const u8,
        first_len: usize,
        second: *const u8,
        second_len: usize,
        key: *const u8,
        key_len: usize,
        field: *const u8,
        field_len: usize,
        instant: u64,
    ) -> NewerPlace;
}

/// A state with no byte waiting.
pub fn fresh() -> State {
    exh_feeder_fresh()
}

/// One feeding call, with the numbers of its answer as they are.
pub fn feed(state: State, piece: &[u8], store: &mut [u8], reply: &mut [u8]) -> Answer {
    // SAFETY: the call is proved for any bytes and any state, reads and writes only within the
    // lengths, and keeps no pointer. The slices are valid for theirs and, lent so, don't overlap.
    unsafe {
        exh_feed(
            state,
            piece.as_ptr(),
            piece.len(),
            store.as_mut_ptr(),
            store.len(),
            reply.as_mut_ptr(),
            reply.len(),
        )
    }
}

/// 0, or 2 if the bytes are not a well-formed store.
pub fn store_check(store: &[u8]) -> u32 {
    // SAFETY: as for `feed`; this call writes nothing.
    unsafe { exh_store_check(store.as_ptr(), store.len()) }
}

/// One comparing call, with the numbers of its answer as they are.
pub fn compare(first: &[u8], second: &[u8], instant: u64, out: &mut [u8]) -> Compared {
    // SAFETY: as for `feed`; the stores are only read, so they may overlap one another.
    unsafe {
        exh_compare(
            first.as_ptr(),
            first.len(),
            second.as_ptr(),
            second.len(),
            instant,
            out.as_mut_ptr(),
            out.len(),
        )
    }
}

/// Where the newer value of a field stands, with the numbers of the answer as they are.
pub fn newer(first: &[u8], second: &[u8], key: &[u8], field: &[u8], instant: u64) -> NewerPlace {
    // SAFETY: as for `compare`; this call writes nothing.
    unsafe {
        exh_newer(
            first.as_ptr(),
            first.len(),
            second.as_ptr(),
            second.len(),
            key.as_ptr(),
            key.len(),
            field.as_ptr(),
            field.len(),
            instant,
        )
    }
}
