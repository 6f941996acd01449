//! M-100: GT, a version that only moves forward.

mod common;

use common::{COMMANDS, Handset, is_setter, live_at, without_field};
use model::layout::{LARGEST_VERSION, TIME_LIMIT};

#[test]
fn the_session_of_source_001() {
    let stale = "-ERR update version is stale";
    let mut handset = Handset::new(1);
    for (command, number, reply) in [
        ("EXHSET k1 f1 v1", 0, ":1"),
        ("EXHSET k1 f1 v1 ver 2", 20, stale),
        ("EXHSET k1 f1 v1 ver 1", 0, ":0"),
        ("EXHSET k1 f1 v1", 0, ":0"),
        ("EXHVER k1 f1", 0, ":3"),
        ("EXHSET k1 f1 v1 GT 3", 20, stale),
        ("EXHSET k1 f1 v1 GT 2", 20, stale),
        ("EXHSET k1 f1 v1 GT 4", 0, ":0"),
        ("EXHVER k1 f1", 0, ":4"),
        ("EXHSET k1 f1 v1 abs 2", 0, ":0"),
        ("EXHVER k1 f1", 0, ":2"),
    ] {
        let expected = (number, reply.to_string());
        assert_eq!(handset.run(0, command), expected, "{command}");
    }
}

#[test]
fn it_must_be_greater_and_becomes_the_version() {
    let ends = [0, 1, 7, LARGEST_VERSION - 1, LARGEST_VERSION];
    for (command, held) in COMMANDS.iter().flat_map(|c| ends.map(|held| (c, held))) {
        for given in ends.into_iter().filter(|given| *given != 0) {
            let mut handset = live_at(held);
            let before = handset.store.clone();
            let (number, _) = handset.run(0, &format!("{command} gt {given}"));
            let accepted = given > held;
            assert_eq!(number, if accepted { 0 } else { 20 }, "{command} {given}");
            assert_eq!(handset.store == before, !accepted, "{command} {given}");
            let version = held.max(given);
            assert_eq!(handset.reply(0, "EXHVER m a"), format!(":{version}"));
        }
    }
}

#[test]
fn a_missing_field_takes_it_and_a_setter_still_replies_0() {
    for command in COMMANDS {
        let (reply, version) = if is_setter(command) {
            (":0", ":-1")
        } else {
            (":1", ":5")
        };
        for mut handset in without_field() {
            assert_eq!(handset.reply(1, &format!("{command} GT 5")), reply);
            assert_eq!(handset.reply(1, "EXHVER m a"), version, "{command}");
        }
    }
}

#[test]
fn gt_0_is_17_whatever_the_field_is() {
    for command in COMMANDS {
        for mut handset in [Handset::new(1), live_at(0), live_at(3)] {
            let before = handset.store.clone();
            let (number, reply) = handset.run(1, &format!("{command} GT 0"));
            assert_eq!((number, reply.as_str()), (17, "-ERR invalid version"));
            assert_eq!(handset.store, before);
        }
    }
}

#[test]
fn where_gt_stands_among_the_refusals() {
    let too_large = u64::from(LARGEST_VERSION) + 1;
    for (command, refusal) in [
        ("EXHSET m a 1 GT 4 VER 3".to_string(), 15),
        ("EXHSET m a 1 ABS 4 GT 4".to_string(), 15),
        ("EXHSET m a 1 GT 4 GT 5".to_string(), 15),
        ("EXHSET m a 1 GT".to_string(), 15),
        ("EXHLEN m GT 4".to_string(), 15),
        ("EXHSET m a 1 GT NX".to_string(), 16),
        ("EXHSET m a 1 GT -1".to_string(), 16),
        ("EXHSET m a 1 GT 04".to_string(), 16),
        (format!("EXHSET m a 1 GT {too_large}"), 16),
        ("EXHSET m a 1 GT 0 EX x".to_string(), 16),
        (format!("EXHSET m a 1 GT 0 EX {TIME_LIMIT}"), 17),
        ("EXHSET m a 1 GT 0 NX".to_string(), 17),
        (format!("EXHSET m a 1 GT 3 EX {TIME_LIMIT}"), 18),
        ("EXHSET m a 1 GT 3 NX".to_string(), 0),
        ("EXHSET m b 1 GT 3 XX".to_string(), 0),
        ("EXHINCRBY m a 1 GT 3 MAX 0".to_string(), 20),
        ("EXHINCRBY m a 1 GT 4 MAX 0".to_string(), 22),
        ("EXHSET m b 1 GT 4".to_string(), 24),
        // Here GT is a field, for which there is no slot.
        ("EXHMSET m a 1 GT 0".to_string(), 24),
        ("EXHSETVER m a GT".to_string(), 16),
    ] {
        assert_eq!(live_at(3).run(0, &command).0, refusal, "{command}");
    }
}
