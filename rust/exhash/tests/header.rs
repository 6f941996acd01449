//! The numbers of include/exhash.h are the wrapper's; its version is that of the last note.

use exhash::{
    COMPARE_SIZE, HEADER_SIZE, REPLY_SIZE, Refusal, SLOT_SIZE, SLOTS_MOST, State, USED_MOST,
    WAITING_MOST,
};

const HEADER: &str = include_str!("../../../include/exhash.h");
const NOTES: &str = include_str!("../../../docs/CHANGES.md");

/// What stands behind `#define NAME`.
fn defined(name: &str) -> &'static str {
    let define = format!("#define {name} ");
    let value = HEADER.lines().find_map(|line| line.strip_prefix(&define));
    value.unwrap_or_else(|| panic!("no {name}"))
}

#[test]
fn sizes_are_the_wrappers() {
    for (name, number) in [
        ("EXH_SLOTS_MOST", SLOTS_MOST),
        ("EXH_REPLY_SIZE", REPLY_SIZE),
        ("EXH_COMPARE_SIZE", COMPARE_SIZE),
        ("EXH_WAITING_MOST", WAITING_MOST),
        ("EXH_USED_MOST", USED_MOST),
    ] {
        assert_eq!(defined(name), number.to_string(), "{name}");
    }
    let size = format!("({HEADER_SIZE} + {SLOT_SIZE} * (size_t)(n))");
    assert_eq!(defined("EXH_STORE_SIZE(n)"), size);
    let places = WAITING_MOST.next_multiple_of(align_of::<usize>());
    assert_eq!(size_of::<State>(), places + size_of::<usize>());
}

#[test]
fn refusals_are_the_wrappers() {
    for (name, number) in [
        ("EXH_BAD_STATE", Refusal::State as u32),
        ("EXH_BAD_STORE", Refusal::Store as u32),
        ("EXH_SHORT_REPLY", Refusal::ShortReply as u32),
        ("EXH_BAD_INSTANT", Refusal::Instant as u32),
    ] {
        assert!(HEADER.contains(&format!(" {name} = {number}")), "{name}");
    }
}

/// A note on a change request begins `## M-` and its number.
#[test]
fn the_version_is_the_last_note() {
    let number = |line: &str| -> Option<u32> {
        let heading = line.strip_prefix("## M-")?;
        let end = heading.find(|letter: char| !letter.is_ascii_digit());
        heading[..end.unwrap_or(heading.len())].parse().ok()
    };
    let last = NOTES.lines().filter_map(number).max();
    assert_eq!(defined("EXH_VERSION"), last.unwrap_or(0).to_string());
}
