//! The cases kept in crates/cases/stdin.

use generate::layout::LEAST_REPLY_BUFFER;
use make_cases::{CASES, LONGEST_PART, SEED, bytes, cases};
use model::reply::Refusal;
use model::{Feeder, feed, store_check};
use std::collections::BTreeMap;

const LARGEST_FILE: usize = 400_000;

fn kept() -> Vec<u8> {
    let file = concat!(env!("CARGO_MANIFEST_DIR"), "/../../crates/cases/stdin");
    std::fs::read(file).expect("the file is kept")
}

/// Reads parts off the front of the file.
struct Reader<'a> {
    rest: &'a [u8],
}

impl<'a> Reader<'a> {
    fn bytes(&mut self, count: usize) -> &'a [u8] {
        let (bytes, rest) = self.rest.split_at(count);
        self.rest = rest;
        bytes
    }

    fn part(&mut self) -> &'a [u8] {
        let length = u32::from_le_bytes(self.bytes(4).try_into().unwrap());
        assert!(length as usize <= LONGEST_PART);
        self.bytes(length as usize)
    }

    fn number(&mut self) -> u64 {
        u64::from_le_bytes(self.bytes(8).try_into().unwrap())
    }
}

#[test]
fn the_file_is_made_from_its_seed() {
    assert!(kept() == bytes(&cases(SEED, CASES)));
    assert!(kept().len() < LARGEST_FILE);
}

/// Read as described, each stream fed byte by byte gives the answers.
#[test]
fn feeding_byte_by_byte_gives_the_answers() {
    let file = kept();
    let mut reader = Reader { rest: &file };
    let mut reply = vec![0; LEAST_REPLY_BUFFER];
    let mut count = 0;
    while !reader.rest.is_empty() {
        let mut store = reader.part().to_vec();
        assert_eq!(store_check(&store), 0);
        let (mut feeder, mut replies, mut skipped) = (Feeder::fresh(), Vec::new(), 0);
        for byte in reader.part() {
            let fed = feed(feeder, &[*byte], &mut store, &mut reply);
            replies.extend_from_slice(&reply[..fed.reply_len]);
            skipped += fed.skipped as u64;
            feeder = fed.feeder;
        }
        assert_eq!(replies, reader.part(), "replies of case {count}");
        assert_eq!(skipped, reader.number(), "skipped of case {count}");
        let waiting = &feeder.waiting[..feeder.count];
        assert_eq!(waiting, reader.part(), "waiting of case {count}");
        assert_eq!(store, reader.part(), "store of case {count}");
        count += 1;
    }
    assert_eq!(count, CASES);
}

/// Every name and version option is offered, VER 0 too, every refusal of a command given; bytes are
/// skipped and left waiting.
#[test]
fn the_cases_meet_every_name_and_refusal() {
    let cases = cases(SEED, CASES);
    let text = |bytes: &[u8]| String::from_utf8_lossy(bytes).to_ascii_uppercase();
    let streams: String = cases.iter().map(|case| text(&case.stream)).collect();
    for name in generate::names().chain(["VER", "ABS", "GT"]) {
        let word = format!("${}\r\n{name}\r\n", name.len());
        assert!(streams.contains(&word), "{name}");
    }
    assert!(streams.matches("$3\r\nVER\r\n$1\r\n0\r\n").count() >= 5);
    let replies: String = cases.iter().map(|case| text(&case.replies)).collect();
    let mut errors = BTreeMap::new();
    for line in replies.lines().filter(|line| line.starts_with("-ERR ")) {
        *errors.entry(line).or_insert(0) += 1;
    }
    assert_eq!(errors.len(), Refusal::ALL.len());
    assert!(errors.values().all(|count| *count >= 5), "{errors:?}");
    assert!(cases.iter().any(|case| case.skipped > 0));
    assert!(cases.iter().any(|case| !case.waiting.is_empty()));
    assert!(cases.iter().any(|case| case.store != case.store_after));
}
