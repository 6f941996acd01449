//! Command by command.

use crate::integer::{Text, plain};
use crate::layout::{LARGEST_VERSION, LEAST_REPLY_BUFFER, TIME_LIMIT};
use crate::parse::{self, Command, Condition, Expire, IncrBy, NewExpiry, Set};
use crate::reply::{Refusal, Reply};
use crate::resp;
use crate::store::{self, Entry, Name, Slot, Store};
use crate::time;
use crate::versions::{self, Given};

/// What a command answers: its refusal's number or 0, and the length of its reply.
#[derive(Clone, Copy, Debug, PartialEq, Eq)]
pub struct Done {
    pub refusal: u32,
    pub reply_len: usize,
}

/// One command with its record's clock, on a well-formed store.
///
/// A store of the wrong length is refused as 2 and a short buffer as 3; the store is not checked
/// further here.
pub fn execute(clock: u64, command: &[u8], store: &mut [u8], reply: &mut [u8]) -> Done {
    let refused = |refusal| Done {
        refusal,
        reply_len: 0,
    };
    let Some(mut store) = Store::view(store) else {
        return refused(2);
    };
    if reply.len() < LEAST_REPLY_BUFFER {
        return refused(3);
    }
    let mut reply = Reply::new(reply);
    let outcome = obey(clock, command, &mut store, &mut reply);
    if let Err(refusal) = outcome {
        reply.refuse(refusal);
    }
    Done {
        refusal: outcome.err().map_or(0, Refusal::number),
        reply_len: reply.length(),
    }
}

fn obey(clock: u64, command: &[u8], store: &mut Store, reply: &mut Reply) -> Result<(), Refusal> {
    let words = resp::words(command).ok_or(Refusal::Protocol)?;
    if clock >= TIME_LIMIT {
        return Err(Refusal::ClockOutOfRange);
    }
    let now = time::now(store.clock(), clock);
    let command = parse::command(words.as_slice(), now)?;
    // "Every command that passes checks 10 to 18 sets the store's clock to now."
    store.set_clock(now);
    run(&command, store, now, reply)
}

/// A refused command has written nothing to the reply.
fn run(command: &Command, store: &mut Store, now: u64, reply: &mut Reply) -> Result<(), Refusal> {
    match command {
        Command::Set(command) => reply.integer(set(command, store, now)?),
        Command::MSet(key, pairs) => {
            mset(key, pairs, store, now)?;
            reply.ok();
        }
        Command::IncrBy(command) => reply.integer(incr_by(command, store, now)?),
        Command::Expire(command) => reply.integer(expire(command, store, now)?),
        Command::Persist(name) => reply.integer(persist(*name, store, now)),
        Command::SetVer(name, version) => reply.integer(set_ver(*name, *version, store, now)),
        Command::PTtl(name) => reply.integer(pttl(*name, store, now)),
        Command::Ttl(name) => reply.integer(ttl(*name, store, now)),
        Command::Ver(name) => reply.integer(ver(*name, store, now)),
        Command::Get(name) => write_value(store.lookup(*name, now), reply),
        Command::StrLen(name) => reply.count(str_len(*name, store, now)),
        Command::Exists(name) => reply.count(usize::from(store.lookup(*name, now).is_some())),
        Command::GetWithVer(name) => write_value_and_version(store.lookup(*name, now), reply),
        Command::MGet(key, fields) => mget(key, fields, write_value, store, now, reply),
        Command::MGetWithVer(key, fields) => {
            mget(key, fields, write_value_and_version, store, now, reply);
        }
        Command::Del(key, fields) => reply.count(del(key, fields, store, now)),
        Command::Len(key) => reply.count(store.held(key).count()),
        Command::LenNoExp(key) => reply.count(store.live(key, now).count()),
        Command::Keys(key) => keys(key, store, now, reply),
        Command::Vals(key) => vals(key, store, now, reply),
        Command::GetAll(key) => get_all(key, store, now, reply),
    }
    Ok(())
}

/// "New 1, overwritten 0."
fn set(command: &Set, store: &mut Store, now: u64) -> Result<i64, Refusal> {
    let live = store.lookup(command.name, now);
    // "NX on a live field or XX on a missing one: reply -1 before checks 20 to 24."
    match (command.condition, &live) {
        (Some(Condition::Nx), Some(_)) | (Some(Condition::Xx), None) => return Ok(-1),
        _ => {}
    }
    let held = live.as_deref().map(store::version);
    if versions::is_stale(command.version, held) {
        return Err(Refusal::StaleVersion);
    }
    let entry = Entry {
        name: command.name,
        value: command.value,
        version: versions::next(command.version, held).ok_or(Refusal::VersionOverflow)?,
        expiry: new_expiry(command.expiry, live.as_deref()),
    };
    let (slot, answer) = match live {
        Some(slot) => (slot, 0),
        None => (store.free_slot(now).ok_or(Refusal::StoreFull)?, 1),
    };
    store::write(slot, &entry);
    Ok(answer)
}

fn new_expiry(expiry: NewExpiry, live: Option<&Slot>) -> Option<u64> {
    match expiry {
        NewExpiry::Cleared => None,
        NewExpiry::Kept => live.and_then(store::expiry),
        NewExpiry::At(instant) => Some(instant),
    }
}

/// "Plain EXHSET of each pair in order, replies dropped. All or none."
fn mset(key: &[u8], pairs: &[[&[u8]; 2]], store: &mut Store, now: u64) -> Result<(), Refusal> {
    for [field, _] in pairs {
        store.lookup(Name { key, field }, now);
    }
    let mut new_fields = 0;
    for (at, [field, _]) in pairs.iter().enumerate() {
        let earlier = pairs.iter().take(at);
        let repeats = earlier.filter(|pair| pair[0] == *field).count() as u32;
        match store.lookup(Name { key, field }, now) {
            // "A repeated field counted once."
            None => new_fields += usize::from(repeats == 0),
            // "Version would pass its largest, at any pair of an EXHMSET."
            Some(slot) if store::version(slot) >= LARGEST_VERSION - repeats => {
                return Err(Refusal::VersionOverflow);
            }
            Some(_) => {}
        }
    }
    if new_fields > store.room(now) {
        return Err(Refusal::StoreFull);
    }
    for [field, value] in pairs {
        set(&plain_set(Name { key, field }, value), store, now)?;
    }
    Ok(())
}

fn plain_set<'w>(name: Name<'w>, value: &'w [u8]) -> Set<'w> {
    Set {
        name,
        value,
        condition: None,
        version: Given::Nothing,
        expiry: NewExpiry::Cleared,
    }
}

/// "The sum is stored as a plain integer's text and replied as a number."
fn incr_by(command: &IncrBy, store: &mut Store, now: u64) -> Result<i64, Refusal> {
    let live = store.lookup(command.name, now);
    let held = live.as_deref().map(store::version);
    if versions::is_stale(command.version, held) {
        return Err(Refusal::StaleVersion);
    }
    let sum = sum(command, live.as_deref())?;
    let text = Text::of(sum);
    let entry = Entry {
        name: command.name,
        value: text.as_bytes(),
        version: versions::next(command.version, held).ok_or(Refusal::VersionOverflow)?,
        expiry: new_expiry(command.expiry, live.as_deref()),
    };
    let slot = match live {
        Some(slot) => slot,
        None => store.free_slot(now).ok_or(Refusal::StoreFull)?,
    };
    store::write(slot, &entry);
    Ok(sum)
}

/// Checks 21 and 22. "A missing field counts as 0."
fn sum(command: &IncrBy, live: Option<&Slot>) -> Result<i64, Refusal> {
    let number = live.map_or(Some(0), |slot| plain(store::value(slot)));
    let number = number.ok_or(Refusal::HashValueNotAnInteger)?;
    let sum = number.checked_add(command.increment);
    let sum = sum.filter(|sum| (command.min..=command.max).contains(sum));
    sum.ok_or(Refusal::Overflow)
}

/// "Missing 0 (before 20), else 1."
fn expire(command: &Expire, store: &mut Store, now: u64) -> Result<i64, Refusal> {
    let Some(slot) = store.lookup(command.name, now) else {
        return Ok(0);
    };
    let held = Some(store::version(slot));
    if versions::is_stale(command.version, held) {
        return Err(Refusal::StaleVersion);
    }
    // "The four expiry setters change the version only when VER or ABS is given", or GT: "take it
    // there and on the four expiry setters, where a missing field still replies 0".
    if command.version != Given::Nothing {
        let version = versions::next(command.version, held);
        store::set_version(slot, version.ok_or(Refusal::VersionOverflow)?);
    }
    store::set_expiry(slot, Some(command.expiry));
    Ok(1)
}

/// "1 if an expiry was removed, else 0."
fn persist(name: Name, store: &mut Store, now: u64) -> i64 {
    match store.lookup(name, now) {
        Some(slot) if store::expiry(slot).is_some() => {
            store::set_expiry(slot, None);
            1
        }
        _ => 0,
    }
}

/// "Missing 0, else 1."
fn set_ver(name: Name, version: u32, store: &mut Store, now: u64) -> i64 {
    match store.lookup(name, now) {
        Some(slot) => {
            store::set_version(slot, version);
            1
        }
        None => 0,
    }
}

/// "Missing -2, no expiry -1, else expiry less now."
fn pttl(name: Name, store: &mut Store, now: u64) -> i64 {
    match store.lookup(name, now) {
        None => -2,
        Some(slot) => store::expiry(slot).map_or(-1, |expiry| (expiry - now) as i64),
    }
}

/// "-2 and -1 as there, else that difference divided by 1,000 and rounded down."
fn ttl(name: Name, store: &mut Store, now: u64) -> i64 {
    match pttl(name, store, now) {
        missing @ (-2 | -1) => missing,
        difference => difference / 1000,
    }
}

/// "No such key -1, no such field -2, else the version."
fn ver(name: Name, store: &mut Store, now: u64) -> i64 {
    if let Some(slot) = store.lookup(name, now) {
        return i64::from(store::version(slot));
    }
    if store.key_exists(name.key, now) {
        -2
    } else {
        -1
    }
}

fn str_len(name: Name, store: &mut Store, now: u64) -> usize {
    let live = store.lookup(name, now);
    live.map_or(0, |slot| store::value(slot).len())
}

fn write_value(live: Option<&mut Slot>, reply: &mut Reply) {
    match live {
        Some(slot) => reply.bulk(store::value(slot)),
        None => reply.nil(),
    }
}

/// "Nil, or an array of value and version."
fn write_value_and_version(live: Option<&mut Slot>, reply: &mut Reply) {
    match live {
        Some(slot) => {
            reply.array(2);
            reply.bulk(store::value(slot));
            reply.integer(i64::from(store::version(slot)));
        }
        None => reply.nil(),
    }
}

/// "An array with one element a named field, in the order named, nil where missing."
fn mget(
    key: &[u8],
    fields: &[&[u8]],
    write_element: fn(Option<&mut Slot>, &mut Reply),
    store: &mut Store,
    now: u64,
    reply: &mut Reply,
) {
    reply.array(fields.len());
    for field in fields {
        write_element(store.lookup(Name { key, field }, now), reply);
    }
}

/// "Number of live entries removed."
fn del(key: &[u8], fields: &[&[u8]], store: &mut Store, now: u64) -> usize {
    let mut removed = 0;
    for field in fields {
        if let Some(slot) = store.lookup(Name { key, field }, now) {
            store::clear(slot);
            removed += 1;
        }
    }
    removed
}

fn keys(key: &[u8], store: &Store, now: u64, reply: &mut Reply) {
    reply.array(store.live(key, now).count());
    for slot in store.live(key, now) {
        reply.bulk(store::field(slot));
    }
}

fn vals(key: &[u8], store: &Store, now: u64, reply: &mut Reply) {
    reply.array(store.live(key, now).count());
    for slot in store.live(key, now) {
        reply.bulk(store::value(slot));
    }
}

fn get_all(key: &[u8], store: &Store, now: u64, reply: &mut Reply) {
    reply.array(2 * store.live(key, now).count());
    for slot in store.live(key, now) {
        reply.bulk(store::field(slot));
        reply.bulk(store::value(slot));
    }
}
