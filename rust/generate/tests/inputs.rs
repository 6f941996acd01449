//! What the generator promises of its inputs, judged by the model.

use generate::layout::{
    LARGEST_VERSION, LEAST_LISTING_BUFFER, LEAST_REPLY_BUFFER, MOST_SLOTS, store_size,
};
use generate::{
    Generator, LONGEST_LISTING_BUFFER, LONGEST_REPLY_BUFFER, MOST_SLOTS_SEARCHED, Search, State,
    record,
};
use model::feeder::whole;
use model::reply::Refusal;
use model::resp::words;
use model::store::{self, Name};
use model::{Feeder, compare, execute, feed, newer, search, store_check};
use std::collections::BTreeMap;

fn feeder(state: &State) -> Feeder {
    Feeder {
        waiting: state.waiting,
        count: state.count,
    }
}

#[test]
fn stores_are_well_formed_or_damaged() {
    let mut generator = Generator::new(1);
    let mut changed_but_well_formed = 0;
    for _ in 0..5_000 {
        assert_eq!(store_check(&generator.store()), 0);
        assert_eq!(store_check(&generator.damaged_store()), 2);
        let changed = generator.store_with_one_byte_changed();
        changed_but_well_formed += usize::from(store_check(&changed) == 0);
    }
    assert!((100..4_900).contains(&changed_but_well_formed));
    assert_eq!(store_check(&generator.large_store()), 0);
}

#[test]
fn states_are_left_by_feeding_or_damaged() {
    let mut generator = Generator::new(2);
    let mut reply = vec![0; LEAST_REPLY_BUFFER];
    for _ in 0..5_000 {
        let mut store = generator.store();
        let left = feeder(&generator.left_state(&store));
        let fed = feed(left.clone(), &[], &mut store, &mut reply);
        assert_eq!((fed.refusal, fed.feeder), (0, left));
        let damaged = feeder(&generator.damaged_state(&store));
        let fed = feed(damaged.clone(), &[], &mut store, &mut reply);
        assert_eq!((fed.refusal, fed.feeder), (1, damaged));
    }
}

/// Every refusal is met, no other command is refused, and the store stays well formed.
#[test]
fn commands_meet_every_refusal() {
    let mut generator = Generator::new(3);
    let mut met = BTreeMap::new();
    let mut reply = vec![0; LEAST_REPLY_BUFFER];
    for _ in 0..20_000 {
        let mut store = generator.store();
        let before = store.clone();
        let (clock, command) = (generator.clock(&store), generator.command(&store));
        let done = execute(clock, &command, &mut store, &mut reply);
        *met.entry(done.refusal).or_insert(0) += 1;
        assert_eq!(store_check(&store), 0);
        assert!(done.reply_len > 0);
        assert!(!(10..=18).contains(&done.refusal) || store == before);
    }
    println!("commands by refusal: {met:?}");
    assert!(met[&0] > 10_000);
    for refusal in Refusal::ALL {
        assert!(met[&refusal.number()] >= 20, "{refusal:?}");
    }
    assert_eq!(met.len(), 1 + Refusal::ALL.len());
}

/// The operands that VER, ABS and GT are offered with on a field at a version.
fn version_operands(held: u32) -> [Vec<Vec<u8>>; 3] {
    let mut generator = Generator::new(7);
    let mut store = vec![0; store_size(1)];
    whole(&record(0, "EXHSET m a 1"), &mut store);
    whole(&record(0, &format!("EXHSETVER m a {held}")), &mut store);
    let mut met: BTreeMap<Vec<u8>, Vec<Vec<u8>>> = BTreeMap::new();
    for _ in 0..20_000 {
        let command = generator.command(&store);
        let words = words(&command).map_or(Vec::new(), |words| words.as_slice().to_vec());
        for (option, operand) in words.iter().zip(words.iter().skip(1)).skip(4) {
            let operands = met.entry(option.to_ascii_uppercase()).or_default();
            operands.push(operand.to_vec());
        }
    }
    [&b"VER"[..], b"ABS", b"GT"].map(|option| met.remove(option).unwrap_or_default())
}

/// VER, ABS and GT are offered alike, VER and GT with every telling operand, and VER 0 often.
#[test]
fn version_options_are_offered_alike() {
    for held in [0, 1, 7, LARGEST_VERSION - 1, LARGEST_VERSION] {
        let [ver, abs, gt] = version_operands(held);
        for other in [&ver, &abs] {
            assert!(gt.len().abs_diff(other.len()) < gt.len() / 4);
        }
        let count = |offered: &[Vec<u8>], operand: i64| {
            let text = operand.to_string().into_bytes();
            offered.iter().filter(|given| **given == text).count()
        };
        let (held, largest) = (i64::from(held), i64::from(LARGEST_VERSION));
        for operand in [0, 1, held - 1, held, held + 1, largest, largest + 1, -1] {
            assert!(count(&ver, operand) > 0, "VER {operand} at {held}");
            assert!(count(&gt, operand) > 0, "GT {operand} at {held}");
        }
        assert!(count(&gt, held + 1000) > 0, "at {held}");
        assert!(count(&ver, 0) > ver.len() / 8, "at {held}");
        for text in [&b"00"[..], b"-0", b"01"].map(<[u8]>::to_vec) {
            assert!(ver.contains(&text) && gt.contains(&text), "{text:?}");
        }
    }
}

/// Cut anywhere, with refused calls in between, a stream gives what it gives uncut.
#[test]
fn cut_streams_agree_with_the_uncut_one() {
    let mut generator = Generator::new(4);
    let mut reply = vec![0; LONGEST_REPLY_BUFFER];
    for _ in 0..2_000 {
        let mut store = generator.store();
        let stream = generator.stream(&store);
        let mut uncut_store = store.clone();
        let uncut = whole(&stream, &mut uncut_store);

        let (mut feeder, mut replies, mut skipped) = (Feeder::fresh(), Vec::new(), 0);
        let mut rest = &stream[..];
        for length in generator.pieces(stream.len()) {
            let (mut piece, after) = rest.split_at(length);
            rest = after;
            while !piece.is_empty() {
                let buffer = generator.reply_buffer_length();
                let fed = feed(feeder, piece, &mut store, &mut reply[..buffer]);
                assert_eq!(fed.refusal, if buffer < LEAST_REPLY_BUFFER { 3 } else { 0 });
                assert_eq!(fed.used == 0, fed.refusal == 3);
                replies.extend_from_slice(&reply[..fed.reply_len]);
                skipped += fed.skipped;
                feeder = fed.feeder;
                piece = &piece[fed.used..];
            }
        }
        assert!(rest.is_empty());
        assert_eq!((replies, skipped), (uncut.replies, uncut.skipped));
        assert_eq!(&feeder.waiting[..feeder.count], uncut.rest);
        assert_eq!(store, uncut_store);
    }
}

/// "Any bytes, any store and any feeder state get an answer and never a trap."
#[test]
fn anything_gets_an_answer() {
    let mut generator = Generator::new(6);
    let mut reply = vec![0; LONGEST_REPLY_BUFFER];
    for _ in 0..10_000 {
        let mut store = generator.damaged_store();
        let (clock, command) = (generator.clock(&store), generator.command(&store));
        execute(clock, &command, &mut store.clone(), &mut reply);

        let before = store.clone();
        let state = feeder(&generator.state(&store));
        let stream = generator.stream(&store);
        let buffer = generator.reply_buffer_length();
        let fed = feed(state.clone(), &stream, &mut store, &mut reply[..buffer]);
        assert!(matches!(fed.refusal, 1 | 2));
        assert_eq!((fed.used, fed.skipped, fed.reply_len), (0, 0, 0));
        assert_eq!((fed.feeder, store), (state, before));
    }
}

/// Well-formed pairs are mostly compared, at every refusal's input some are refused, and lines of each
/// kind come, up to the longest listing.
#[test]
fn pairs_of_stores_meet_every_mark_and_refusal() {
    let mut generator = Generator::new(8);
    let (mut met, mut marks, mut most) = (BTreeMap::new(), BTreeMap::new(), 0);
    let mut out = vec![0; LONGEST_LISTING_BUFFER];
    for _ in 0..5_000 {
        let stores = generator.stores();
        let [first, second] = &stores;
        assert_eq!((store_check(first), store_check(second)), (0, 0));
        let (instant, size) = (
            generator.instant(&stores),
            generator.listing_buffer_length(),
        );
        let compared = compare(first, second, instant, &mut out[..size]);
        assert!(compared.refusal != 3 || size < LEAST_LISTING_BUFFER);
        *met.entry(compared.refusal).or_insert(0) += 1;
        let lines = out[..compared.written].split_inclusive(|byte| *byte == b'\n');
        most = most.max(lines.clone().count());
        lines.for_each(|line| *marks.entry(line[0]).or_insert(0) += 1);
    }
    println!("pairs by refusal: {met:?}, lines by mark: {marks:?}, lines at most: {most}");
    assert!(met[&0] > 3_000 && met[&3] > 50 && met[&11] > 200);
    assert!(b"<>~".iter().all(|mark| marks[mark] > 500));
    assert_eq!((met.len(), marks.len(), most), (3, 3, 2 * MOST_SLOTS));
}

/// Each store is the damaged one, and each answer to a name comes.
#[test]
fn damaged_pairs_are_refused_and_names_are_found_or_not() {
    let mut generator = Generator::new(9);
    let (mut damaged, mut found) = (BTreeMap::new(), BTreeMap::new());
    for _ in 0..5_000 {
        let [first, second] = generator.damaged_stores();
        let checked = (store_check(&first), store_check(&second));
        *damaged.entry(checked).or_insert(0) += 1;
        let stores = generator.stores();
        let (instant, (key, field)) = (generator.instant(&stores), generator.name(&stores));
        let place = newer(&stores[0], &stores[1], &key, &field, instant);
        *found
            .entry((place.refusal, place.which as u32))
            .or_insert(0) += 1;
    }
    println!("damaged pairs by check: {damaged:?}, places by refusal and store: {found:?}");
    assert!(
        [(0, 2), (2, 0), (2, 2)]
            .iter()
            .all(|pair| damaged[pair] > 1_000)
    );
    assert!(
        [(0, 0), (0, 1), (0, 2), (11, 0)]
            .iter()
            .all(|answer| found[answer] > 200)
    );
    assert_eq!((damaged.len(), found.len()), (3, 4));
}

/// Stores to search are well formed, lengths of names fit in one byte, and a search finds what is held.
#[test]
fn searches_are_of_well_formed_stores_and_find_what_is_held() {
    let mut generator = Generator::new(10);
    let small: Vec<Search> = (0..5_000).map(|_| generator.search()).collect();
    let longest = store_size(MOST_SLOTS_SEARCHED);
    assert!(small.iter().all(|search| search.store.len() <= longest));
    for Search { store, key, field } in small.iter().chain(&generator.full_store_searches()) {
        let slots = store::contents(store).expect("it is well formed").slots;
        assert!(key.len() <= 255 && field.len() <= 255);
        let is_named =
            |slot: &store::Slot| store::is_held(slot) && store::name(slot) == Name { key, field };
        let held = slots.iter().position(is_named);
        let searched = search(store, key, field);
        assert_eq!(searched.slot, held);
        let (size, looked_at) = (
            key.len() + field.len(),
            held.map_or(slots.len(), |number| number + 1),
        );
        assert!(searched.compared <= size * looked_at);
        assert!(held.is_none() || searched.compared >= size);
    }
}

#[test]
fn the_same_seed_gives_the_same_inputs() {
    let inputs = |seed| {
        let mut generator = Generator::new(seed);
        let store = generator.store();
        (generator.stream(&store), generator.clock(&store), store)
    };
    assert_eq!(inputs(5), inputs(5));
    assert_ne!(inputs(5), inputs(6));
}
