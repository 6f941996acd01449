//! M-101: VER 0 is not compared.

mod common;

use common::{COMMANDS, Handset, is_setter, live_at, without_field};
use model::layout::{LARGEST_VERSION, TIME_LIMIT};

const NOW: u64 = 5;
const STALE: &str = "-ERR update version is stale";
const VERSION_OVERFLOW: &str = "-ERR version overflow";

/// Versions that a live field has.
const HELD: [u32; 6] = [0, 1, 3, 7, LARGEST_VERSION - 1, LARGEST_VERSION];

/// Number, reply and the store after.
type Outcome = (u32, String, Vec<u8>);

/// What a command comes to on a handset.
fn outcome(handset: &Handset, command: &str) -> Outcome {
    let mut handset = handset.clone();
    let (number, reply) = handset.run(NOW, command);
    (number, reply, handset.store)
}

/// A refusal that sets the clock and leaves all else, on a field at a version.
fn refused(number: u32, line: &str, held: u32) -> Outcome {
    let (_, _, store) = outcome(&live_at(held), "EXHLEN m");
    (number, line.to_string(), store)
}

/// A command whose VER is not stale, on a field at a version: what it does without VER, and the
/// version plus 1.
fn accepted(command: &str, held: u32) -> Outcome {
    if held == LARGEST_VERSION {
        return refused(23, VERSION_OVERFLOW, held);
    }
    let mut handset = live_at(held);
    let reply = handset.reply(NOW, command);
    handset.reply(NOW, &format!("EXHSETVER m a {}", held + 1));
    (0, reply, handset.store)
}

#[test]
fn the_row_of_the_request() {
    let mut handset = live_at(3);
    assert_eq!(handset.reply(0, "EXHSET m a 1 VER 0"), ":0");
    assert_eq!(handset.reply(0, "EXHVER m a"), ":4");
}

#[test]
fn a_missing_field_gets_1_and_a_setter_still_replies_0() {
    for command in COMMANDS {
        let (reply, version, held) = if is_setter(command) {
            (":0", ":-1", ":0")
        } else {
            (":1", ":1", ":1")
        };
        for mut handset in without_field() {
            assert_eq!(handset.reply(1, &format!("{command} VER 0")), reply);
            assert_eq!(handset.reply(1, "EXHLEN m"), held, "{command}");
            assert_eq!(handset.reply(1, "EXHVER m a"), version, "{command}");
        }
    }
}

#[test]
fn a_live_field_gets_its_version_plus_1() {
    for (command, held) in COMMANDS.iter().flat_map(|c| HELD.map(|held| (c, held))) {
        let came_to = outcome(&live_at(held), &format!("{command} VER 0"));
        assert_eq!(came_to, accepted(command, held), "{command}, at {held}");
    }
}

#[test]
fn any_other_ver_is_compared_as_before() {
    for (command, held) in COMMANDS.iter().flat_map(|c| HELD.map(|held| (c, held))) {
        for given in [1, 2, 3, 7, 9, LARGEST_VERSION - 1, LARGEST_VERSION] {
            let expected = if held != 0 && given != held {
                refused(20, STALE, held)
            } else {
                accepted(command, held)
            };
            let command = format!("{command} VER {given}");
            let came_to = outcome(&live_at(held), &command);
            assert_eq!(came_to, expected, "{command}, at {held}");
        }
    }
}

#[test]
fn the_version_before_it_is_stale_afterwards() {
    let mut handset = live_at(3);
    for (command, number, version) in [
        ("EXHPEXPIRE m a 9 VER 0", 0, ":4"),
        ("EXHSET m a 1 VER 3", 20, ":4"),
        ("EXHSET m a 1 VER 4", 0, ":5"),
        ("EXHINCRBY m a 1 VER 0", 0, ":6"),
        ("EXHINCRBY m a 1 VER 5", 20, ":6"),
    ] {
        assert_eq!(handset.run(0, command).0, number, "{command}");
        assert_eq!(handset.reply(0, "EXHVER m a"), version, "{command}");
    }
}

/// Options beside VER, each with the space before it.
const SET_OPTIONS: [&str; 10] = [
    "",
    " NX",
    " XX",
    " EX 4",
    " EXAT 4",
    " PX 4",
    " PXAT 0",
    " KEEPTTL",
    " XX KEEPTTL",
    " PX 4 NX",
];
const INCR_BY_OPTIONS: [&str; 8] = [
    "",
    " EX 4",
    " PX 0",
    " KEEPTTL",
    " MIN 3",
    " MAX 2",
    " MIN 2 MAX 3",
    " MAX 3 PXAT 9 MIN 3",
];

/// Missing, dead, live at every version, with an expiry and without.
fn in_every_state() -> Vec<Handset> {
    let mut handsets = Vec::from(without_field());
    for held in HELD {
        let live = live_at(held);
        let mut expiring = live.clone();
        expiring.reply(0, "EXHPEXPIRE m a 9");
        handsets.extend([live, expiring]);
    }
    handsets
}

#[test]
fn exhset_and_exhincrby_do_what_they_do_without_it() {
    let set = SET_OPTIONS.map(|options| ("EXHSET m a 2", options));
    let incr_by = INCR_BY_OPTIONS.map(|options| ("EXHINCRBY m a 2", options));
    for (command, options) in set.into_iter().chain(incr_by) {
        for handset in in_every_state() {
            let plain = outcome(&handset, &format!("{command}{options}"));
            let first = outcome(&handset, &format!("{command} VER 0{options}"));
            let last = outcome(&handset, &format!("{command}{options} ver 0"));
            assert_eq!([&first, &last], [&plain; 2], "{command}{options}");
        }
    }
}

#[test]
fn where_ver_0_stands_among_the_refusals() {
    let too_late = format!("EXHEXPIREAT m a {} VER 0", TIME_LIMIT / 1000 + 1);
    let too_far = format!("EXHSET m a 1 VER 0 EX {TIME_LIMIT}");
    let mut text = Handset::new(1);
    text.reply(0, &format!("EXHSET m a x ABS {LARGEST_VERSION}"));
    for (command, at_3, at_largest, on_text_at_largest) in [
        ("EXHSET m a 1 VER 0 VER 0", 15, 15, 15),
        ("EXHSET m a 1 VER 0 ABS 4", 15, 15, 15),
        ("EXHSET m a 1 GT 4 VER 0", 15, 15, 15),
        ("EXHEXPIRE m a 9 VER 0 NX", 15, 15, 15),
        ("EXHLEN m VER 0", 15, 15, 15),
        ("EXHSET m a 1 VER 00", 16, 16, 16),
        ("EXHSET m a 1 VER -0", 16, 16, 16),
        ("EXHSET m a 1 VER +0", 16, 16, 16),
        ("EXHSET m a 1 VER 0 EX x", 16, 16, 16),
        ("EXHINCRBY m a x VER 0", 16, 16, 16),
        ("EXHEXPIRE m a x VER 0", 16, 16, 16),
        (&too_late, 18, 18, 18),
        (&too_far, 18, 18, 18),
        ("EXHSET m a 1 VER 0 NX", 0, 0, 0),
        ("EXHSET m b 1 VER 0 XX", 0, 0, 0),
        ("EXHEXPIRE m b 9 VER 0", 0, 0, 0),
        ("EXHINCRBY m a 1 VER 0 MAX 1", 22, 22, 21),
        ("EXHINCRBY m a 1 VER 0", 0, 23, 21),
        ("EXHSET m a 1 VER 0 XX", 0, 23, 23),
        ("EXHEXPIRE m a 9 VER 0", 0, 23, 23),
        ("EXHINCRBY m b 1 VER 0 MAX 0", 22, 22, 22),
        ("EXHINCRBY m b 1 VER 0", 24, 24, 24),
        ("EXHSET m b 1 VER 0", 24, 24, 24),
        // Here VER is a field, for which there is no slot.
        ("EXHMSET m a 1 VER 0", 24, 23, 23),
        // Compared, so before 21 to 24.
        ("EXHINCRBY m a 1 VER 1 MAX 1", 20, 20, 20),
    ] {
        let handsets = [&live_at(3), &live_at(LARGEST_VERSION), &text];
        let numbers = handsets.map(|handset| outcome(handset, command).0);
        assert_eq!(numbers, [at_3, at_largest, on_text_at_largest], "{command}");
    }
}
