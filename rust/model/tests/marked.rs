//! The paper's marked presses: "key m, two slots, a fresh store a case".

mod common;

use common::Handset;

/// Clock, command, number of the refusal or 0, reply.
type Step = (u64, &'static str, u32, &'static str);

const STALE: &str = "-ERR update version is stale";
const NOT_A_NUMBER: &str = "-ERR value is not an integer or out of range";
const NO_INTEGER: &str = "-ERR hash value is not an integer";
const OVERFLOW: &str = "-ERR increment or decrement would overflow";
const FULL: &str = "-ERR store is full";

const PRESSES: [(&str, &[Step]); 14] = [
    (
        "P1: on a missing field VER is ignored",
        &[
            (0, "EXHSET m a 1 VER 9", 0, ":1"),
            (0, "EXHVER m a", 0, ":1"),
        ],
    ),
    (
        "P2: a version that differs",
        &[
            (0, "EXHSET m a 1 VER 9", 0, ":1"),
            (0, "EXHSET m a 1 VER 2", 20, STALE),
            (0, "EXHVER m a", 0, ":1"),
        ],
    ),
    (
        "P3: the version matches",
        &[
            (0, "EXHSET m a 1 VER 9", 0, ":1"),
            (0, "EXHSET m a 1 VER 1", 0, ":0"),
            (0, "EXHVER m a", 0, ":2"),
        ],
    ),
    (
        "P4: the dead entry named is removed",
        &[
            (1000, "EXHSET m b 1 PX 500", 0, ":1"),
            (1499, "EXHPTTL m b", 0, ":1"),
            (1499, "EXHTTL m b", 0, ":0"),
            (1500, "EXHGET m b", 0, "$-1"),
            (1500, "EXHLEN m", 0, ":0"),
        ],
    ),
    (
        "P5: EXHLEN removes nothing",
        &[
            (1000, "EXHSET m b 1 PX 500", 0, ":1"),
            (1500, "EXHLEN m", 0, ":1"),
            (1500, "EXHLEN m NOEXP", 0, ":0"),
        ],
    ),
    (
        "P6: full, both kept",
        &[
            (0, "EXHMSET m a 1 b 2", 0, "+OK"),
            (0, "EXHSET m c 1", 24, FULL),
            (0, "EXHGETALL m", 0, "*4 $1 a $1 1 $1 b $1 2"),
        ],
    ),
    (
        "P7: c in b's slot",
        &[
            (1000, "EXHSET m b 1 PX 500", 0, ":1"),
            (1000, "EXHSET m a 1", 0, ":1"),
            (1500, "EXHKEYS m", 0, "*1 $1 a"),
            (1500, "EXHSET m c 1", 0, ":1"),
            (1500, "EXHKEYS m", 0, "*2 $1 c $1 a"),
        ],
    ),
    (
        "P8: under MIN, still absent",
        &[
            (0, "EXHINCRBY m a 5 MIN 6", 22, OVERFLOW),
            (0, "EXHEXISTS m a", 0, ":0"),
        ],
    ),
    (
        "P9: the sum passes signed 64 bits",
        &[
            (0, "EXHSET m a 9223372036854775807", 0, ":1"),
            (0, "EXHINCRBY m a 1", 22, OVERFLOW),
            (0, "EXHGET m a", 0, "$19 9223372036854775807"),
        ],
    ),
    (
        "P10: -0 is no plain integer",
        &[
            (0, "EXHSET m a -0", 0, ":1"),
            (0, "EXHINCRBY m a 1", 21, NO_INTEGER),
        ],
    ),
    (
        "P11: NX is the operand of EX",
        &[(0, "EXHSET m a 1 EX NX", 16, NOT_A_NUMBER)],
    ),
    (
        "P12: a version of 0 takes any VER",
        &[
            (0, "EXHSET m a 1", 0, ":1"),
            (0, "EXHSETVER m a 0", 0, ":1"),
            (0, "EXHSET m a 1 VER 7", 0, ":0"),
            (0, "EXHVER m a", 0, ":1"),
        ],
    ),
    (
        "P13: now never goes back",
        &[
            (1000, "EXHSET m a 1 PXAT 1001", 0, ":1"),
            (900, "EXHPTTL m a", 0, ":1"),
        ],
    ),
    (
        "P14: a field named twice",
        &[
            (0, "EXHMSET m a 1 a 2", 0, "+OK"),
            (0, "EXHVER m a", 0, ":2"),
            (0, "EXHGET m a", 0, "$1 2"),
        ],
    ),
];

#[test]
fn marked_cases() {
    for (press, steps) in PRESSES {
        let mut handset = Handset::new(2);
        for (clock, command, number, reply) in steps {
            let expected = (*number, reply.to_string());
            assert_eq!(handset.run(*clock, command), expected, "{press}: {command}");
        }
    }
}
