//! What is timed: a store, and the pieces that are fed to it.

use generate::Random;
use generate::layout::{
    FIELD, FIELD_LENGTH, HEADER, HELD, KEY, KEY_LENGTH, MOST_SLOTS, MOST_USED, SLOT, STATE, VALUE,
    VALUE_LENGTH, VERSION, store_size,
};

const CLOCK: u64 = 1_700_000_000_000;
const RECORDS: usize = 500;
/// The key of all fields.
pub const KEY_HELD: &str = "mob";

/// A store and pieces, how many records they complete, none of them refused, by how many to divide
/// what they took, and of what these are.
pub struct Load {
    pub name: String,
    pub store: Vec<u8>,
    pub pieces: Vec<Vec<u8>>,
    pub records: usize,
    pub divisor: usize,
    pub unit: &'static str,
}

impl Load {
    fn of_records(name: String, store: Vec<u8>, records: Vec<Vec<u8>>) -> Load {
        Load {
            name,
            store,
            divisor: records.len(),
            records: records.len(),
            pieces: records,
            unit: "record",
        }
    }
}

/// Which names the fields have.
#[derive(Clone, Copy)]
pub enum Named {
    Short,
    /// Ear tags: 15 digits, the first 12 of them alike in all.
    Long,
    /// Fields whose second half is their first: the check's filter has the same bits for all.
    SharingBits,
}

impl Named {
    pub fn name(self, number: usize) -> String {
        match self {
            Named::Short => format!("tag{number:04}"),
            Named::Long => format!("826000123{number:06}"),
            Named::SharingBits => format!("{number:016}").repeat(2),
        }
    }

    fn label(self) -> &'static str {
        match self {
            Named::Short => "",
            Named::Long => ", ear tags",
            Named::SharingBits => ", names that share their bits",
        }
    }
}

/// In which order the slots hold the names.
#[derive(Clone, Copy)]
pub enum Order {
    Ascending,
    Shuffled,
}

impl Order {
    fn numbers(self, count: usize) -> Vec<usize> {
        let mut numbers: Vec<usize> = (0..count).collect();
        if let Order::Shuffled = self {
            let mut random = Random::new(6);
            for last in (1..count).rev() {
                numbers.swap(last, random.below(last + 1));
            }
        }
        numbers
    }

    fn label(self) -> &'static str {
        match self {
            Order::Ascending => "",
            Order::Shuffled => ", names shuffled",
        }
    }
}

/// What a row says of its names.
pub fn label(fields: Named, order: Order) -> String {
    [fields.label(), order.label()].concat()
}

/// Mixes of commands, noise, and commands with many fields.
pub fn mixes() -> [Load; 9] {
    let full_day = |fields, order| day(MOST_SLOTS, MOST_SLOTS, RECORDS, fields, order);
    [
        day(100, 90, RECORDS, Named::Short, Order::Ascending),
        full_day(Named::Short, Order::Ascending),
        full_day(Named::Short, Order::Shuffled),
        full_day(Named::Long, Order::Ascending),
        day_in_pieces(100, 90, RECORDS),
        noise(100, MOST_USED),
        get_all(MOST_SLOTS, 100),
        set_many(100, 20, 200, Named::Short),
        set_many(MOST_SLOTS, 20, 200, Named::Long),
    ]
}

/// EXHGET with some numbers of held slots.
pub fn gets<const N: usize>(numbers: [usize; N]) -> [Load; N] {
    numbers.map(|slots| get(slots, RECORDS, Named::Short, Order::Ascending))
}

/// EXHGET in a full store with other names.
pub fn gets_of_other_names() -> [Load; 3] {
    [
        get(MOST_SLOTS, RECORDS, Named::Short, Order::Shuffled),
        get(MOST_SLOTS, RECORDS, Named::Long, Order::Ascending),
        get(MOST_SLOTS, 100, Named::SharingBits, Order::Ascending),
    ]
}

/// New fields, counts guarded by their version, and questions, in turn.
fn day(slots: usize, held: usize, records: usize, fields: Named, order: Order) -> Load {
    let mut random = Random::new(1);
    let mut versions = vec![1; held];
    versions.resize(slots, 0);
    let records = (0..records).map(|at| {
        let number = random.below(slots);
        let field = fields.name(number);
        let version = versions[number];
        match at % 5 {
            0 => {
                versions[number] = version + 1;
                record(&format!("EXHINCRBY {KEY_HELD} {field} 1 VER {version}"))
            }
            1 => {
                versions[number] = version.max(1);
                record(&format!("EXHSET {KEY_HELD} {field} 0 NX"))
            }
            2 => record(&format!("EXHGET {KEY_HELD} {field}")),
            3 => record(&format!("EXHVER {KEY_HELD} {field}")),
            _ => record(&format!("EXHLEN {KEY_HELD}")),
        }
    });
    let label = label(fields, order);
    let name = format!("a day's mix, {held} of {slots} slots held{label}");
    let store = store(slots, held, fields, order);
    Load::of_records(name, store, records.collect())
}

/// The day's stream in pieces of 1 to 8 bytes.
fn day_in_pieces(slots: usize, held: usize, records: usize) -> Load {
    let mut random = Random::new(2);
    let day = day(slots, held, records, Named::Short, Order::Ascending);
    let stream = day.pieces.concat();
    let mut rest = &stream[..];
    let mut pieces = Vec::new();
    while !rest.is_empty() {
        let (piece, after) = rest.split_at(random.between(1, 8).min(rest.len()));
        pieces.push(piece.to_vec());
        rest = after;
    }
    let name = format!("{}, in pieces of 1 to 8 bytes", day.name);
    Load {
        name,
        pieces,
        ..day
    }
}

/// Bytes of anything, with no record among them.
fn noise(slots: usize, bytes: usize) -> Load {
    let mut random = Random::new(3);
    let noise = (0..bytes).map(|_| random.byte()).collect();
    Load {
        name: format!("{bytes} bytes of noise, {slots} slots held"),
        store: store(slots, slots, Named::Short, Order::Ascending),
        pieces: vec![noise],
        records: 0,
        divisor: bytes,
        unit: "byte",
    }
}

/// All fields of a full store.
fn get_all(slots: usize, records: usize) -> Load {
    let records = vec![record(&format!("EXHGETALL {KEY_HELD}")); records];
    Load::of_records(
        format!("EXHGETALL of {slots}"),
        store(slots, slots, Named::Short, Order::Ascending),
        records,
    )
}

/// Many pairs at once.
fn set_many(slots: usize, pairs: usize, records: usize, fields: Named) -> Load {
    let mut random = Random::new(4);
    let one = |_| {
        let pair = |_| format!(" {} 1", fields.name(random.below(slots)));
        let pairs: String = (0..pairs).map(pair).collect();
        record(&format!("EXHMSET {KEY_HELD}{pairs}"))
    };
    let label = label(fields, Order::Ascending);
    let name = format!("EXHMSET of {pairs} pairs, {slots} slots held{label}");
    let store = store(slots, slots, fields, Order::Ascending);
    Load::of_records(name, store, (0..records).map(one).collect())
}

/// One field at a time.
fn get(slots: usize, records: usize, fields: Named, order: Order) -> Load {
    let mut random = Random::new(5);
    let one = |_| {
        let field = fields.name(random.below(slots));
        record(&format!("EXHGET {KEY_HELD} {field}"))
    };
    let label = label(fields, order);
    let name = format!("EXHGET, {slots} slots held{label}");
    let store = store(slots, slots, fields, order);
    Load::of_records(name, store, (0..records).map(one).collect())
}

/// A record byte by byte, without its last byte: no call completes it.
pub fn single_bytes(slots: usize) -> Load {
    let record = record(&format!("EXHMGET {KEY_HELD}{}", " tag0000".repeat(60)));
    let bytes = record[..record.len() - 1].iter();
    let pieces: Vec<Vec<u8>> = bytes.map(|byte| vec![*byte]).collect();
    Load {
        name: format!("one byte fed, {slots} slots held"),
        store: store(slots, slots, Named::Short, Order::Ascending),
        records: 0,
        divisor: pieces.len(),
        unit: "byte",
        pieces,
    }
}

/// A store whose first slots hold fields with such names.
pub fn store(slots: usize, held: usize, fields: Named, order: Order) -> Vec<u8> {
    let numbers = order.numbers(held).into_iter();
    store_of(slots, numbers.map(|number| fields.name(number)))
}

/// A store whose first slots hold fields with value 1 and version 1.
pub fn store_of(slots: usize, fields: impl Iterator<Item = String>) -> Vec<u8> {
    let mut store = vec![0; store_size(slots)];
    for (slot, field) in store[HEADER..].chunks_mut(SLOT).zip(fields) {
        slot[STATE] = HELD;
        slot[KEY_LENGTH] = KEY_HELD.len() as u8;
        slot[FIELD_LENGTH] = field.len() as u8;
        slot[VALUE_LENGTH] = 1;
        slot[VERSION.start] = 1;
        slot[KEY][..KEY_HELD.len()].copy_from_slice(KEY_HELD.as_bytes());
        slot[FIELD][..field.len()].copy_from_slice(field.as_bytes());
        slot[VALUE.start] = b'1';
    }
    store
}

/// A record with a command of words split by spaces.
fn record(command: &str) -> Vec<u8> {
    generate::record(CLOCK, command)
}
