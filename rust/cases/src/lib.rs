//! The cases of tests/cases, with their answers: the set of the rules in force. It depends on no
//! implementation; the tests of the library and of the model run each case through theirs.
//!
//! A new table is a struct and its [`Case`]. Columns are found by the names in a table's first line,
//! so a table may gain some.

#![forbid(unsafe_code)]

mod table;

use std::path::Path;
pub use table::{Row, Table};

/// The sizes of pieces that each stream is cut into; the first leaves it whole.
pub const PIECE_SIZES: [usize; 5] = [usize::MAX, 1, 2, 7, 1000];

/// One command on a well-formed store.
#[derive(Clone, Debug)]
pub struct Command {
    pub clock: u64,
    pub command: Vec<u8>,
    pub store: Vec<u8>,
    /// The refusal's number, or 0.
    pub number: u32,
    pub reply: Vec<u8>,
    pub store_after: Vec<u8>,
}

/// A whole stream, from a fresh feeder. Any cutting gives the same.
#[derive(Clone, Debug)]
pub struct Stream {
    pub store: Vec<u8>,
    pub stream: Vec<u8>,
    pub outcome: Outcome,
}

/// What a stream comes to.
#[derive(Clone, Debug, PartialEq, Eq)]
pub struct Outcome {
    /// The joined replies.
    pub replies: Vec<u8>,
    pub skipped: usize,
    pub waiting: Vec<u8>,
    pub store: Vec<u8>,
}

/// Bytes that are a store, or not.
#[derive(Clone, Debug)]
pub struct Store {
    pub store: Vec<u8>,
    pub well_formed: bool,
}

/// Two stores side by side at an instant.
#[derive(Clone, Debug)]
pub struct Compare {
    pub first: Vec<u8>,
    pub second: Vec<u8>,
    pub instant: u64,
    /// The refusal's number, or 0.
    pub number: u32,
    pub listing: Vec<u8>,
}

/// The newer value of one field of two stores.
#[derive(Clone, Debug)]
pub struct Newer {
    pub first: Vec<u8>,
    pub second: Vec<u8>,
    pub instant: u64,
    pub key: Vec<u8>,
    pub field: Vec<u8>,
    /// The refusal's number, or 0.
    pub number: u32,
    /// 0 neither, 1 the first store, 2 the second.
    pub which: u32,
    pub value: Vec<u8>,
}

/// A row of one table of tests/cases.
pub trait Case {
    const TABLE: &'static str;
    fn read(row: Row) -> Self;
}

impl Case for Command {
    const TABLE: &'static str = "commands.tsv";

    fn read(row: Row) -> Command {
        Command {
            clock: row.number("clock"),
            command: row.bytes("command"),
            store: row.bytes("store before"),
            number: row.number("number"),
            reply: row.bytes("reply"),
            store_after: row.bytes("store after"),
        }
    }
}

impl Case for Stream {
    const TABLE: &'static str = "streams.tsv";

    fn read(row: Row) -> Stream {
        Stream {
            store: row.bytes("store before"),
            stream: row.bytes("stream"),
            outcome: Outcome {
                replies: row.bytes("replies"),
                skipped: row.number("skipped"),
                waiting: row.bytes("waiting"),
                store: row.bytes("store after"),
            },
        }
    }
}

impl Case for Store {
    const TABLE: &'static str = "stores.tsv";

    fn read(row: Row) -> Store {
        Store {
            store: row.bytes("store"),
            well_formed: match row.text("well formed") {
                "1" => true,
                "0" => false,
                other => panic!("well formed: {other:?}"),
            },
        }
    }
}

impl Case for Compare {
    const TABLE: &'static str = "compare.tsv";

    fn read(row: Row) -> Compare {
        Compare {
            first: row.bytes("first"),
            second: row.bytes("second"),
            instant: row.number("instant"),
            number: row.number("number"),
            listing: row.bytes("listing"),
        }
    }
}

impl Case for Newer {
    const TABLE: &'static str = "newer.tsv";

    fn read(row: Row) -> Newer {
        Newer {
            first: row.bytes("first"),
            second: row.bytes("second"),
            instant: row.number("instant"),
            key: row.bytes("key"),
            field: row.bytes("field"),
            number: row.number("number"),
            which: row.number("which"),
            value: row.bytes("value"),
        }
    }
}

impl Command {
    /// The record that brings the command: mark, clock, length and the command.
    pub fn record(&self) -> Vec<u8> {
        let length = u16::try_from(self.command.len()).expect("a command is short");
        let (clock, length) = (self.clock.to_le_bytes(), length.to_le_bytes());
        [b"\x45\x57", &clock[..], &length, &self.command].concat()
    }
}

/// Checks every row of a table, each with a name to say where it differs, and prints how many there
/// were. A table that is missing, cut or empty is a failure.
pub fn check<C: Case>(mut each: impl FnMut(&str, C)) {
    let cases = Path::new(env!("CARGO_MANIFEST_DIR")).join("../../tests/cases");
    let table = Table::read(&cases.join(C::TABLE));
    let table = table.unwrap_or_else(|wrong| panic!("tests/cases/{}: {wrong}", C::TABLE));
    let mut count = 0;
    for row in table.rows() {
        each(&format!("row {count} of {}", C::TABLE), C::read(row));
        count += 1;
    }
    assert!(count > 0, "{}", C::TABLE);
    println!("{count} rows of {}", C::TABLE);
}
