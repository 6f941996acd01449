//! Commands: all names, options in any order and case, and damaged RESP.

use crate::Generator;
use crate::layout::{LARGEST_VERSION, LONGEST_COMMAND, MOST_WORDS, TIME_LIMIT, VERSION};
use crate::store::{clock_of, low_first, name_of};
use crate::text::{self, usual_or_long};
use crate::words::Words;

/// The words after the name and the key.
#[derive(Clone, Copy)]
enum Shape {
    Nothing,
    Field,
    FieldAndValue,
    FieldAndIncrement,
    FieldAndTime(Unit),
    FieldAndVersion,
    Fields,
    Pairs,
    NoExp,
}

#[derive(Clone, Copy)]
enum Unit {
    Ex,
    ExAt,
    Px,
    PxAt,
}

const NAMES: [(&[u8], Shape); 23] = [
    (b"EXHSET", Shape::FieldAndValue),
    (b"EXHMSET", Shape::Pairs),
    (b"EXHINCRBY", Shape::FieldAndIncrement),
    (b"EXHEXPIRE", Shape::FieldAndTime(Unit::Ex)),
    (b"EXHEXPIREAT", Shape::FieldAndTime(Unit::ExAt)),
    (b"EXHPEXPIRE", Shape::FieldAndTime(Unit::Px)),
    (b"EXHPEXPIREAT", Shape::FieldAndTime(Unit::PxAt)),
    (b"EXHPERSIST", Shape::Field),
    (b"EXHSETVER", Shape::FieldAndVersion),
    (b"EXHPTTL", Shape::Field),
    (b"EXHTTL", Shape::Field),
    (b"EXHVER", Shape::Field),
    (b"EXHGET", Shape::Field),
    (b"EXHSTRLEN", Shape::Field),
    (b"EXHEXISTS", Shape::Field),
    (b"EXHGETWITHVER", Shape::Field),
    (b"EXHMGET", Shape::Fields),
    (b"EXHMGETWITHVER", Shape::Fields),
    (b"EXHDEL", Shape::Fields),
    (b"EXHLEN", Shape::NoExp),
    (b"EXHKEYS", Shape::Nothing),
    (b"EXHVALS", Shape::Nothing),
    (b"EXHGETALL", Shape::Nothing),
];

/// The names of all commands.
pub fn names() -> impl Iterator<Item = &'static str> {
    let text = |name| std::str::from_utf8(name).unwrap_or_default();
    NAMES.iter().map(move |(name, _)| text(*name))
}

/// Commands left out, and names that are almost one.
const UNKNOWN_NAMES: [&[u8]; 9] = [
    b"EXHINCRBYFLOAT",
    b"EXHSCAN",
    b"EXHSCANUNORDER",
    b"DEL",
    b"EXPIRE",
    b"EXH",
    b"EXHSETS",
    b"XHSET",
    b"",
];

#[derive(Clone, Copy)]
enum Operand {
    Nothing,
    Time(Unit),
    Version(Versions),
    Bound,
}

/// Versions to choose from; what stands there twice is chosen twice as often.
#[derive(Clone, Copy)]
struct Versions {
    /// What is added to a slot's version.
    near: &'static [i128],
    others: &'static [u32],
}

/// For ABS and EXHSETVER, which write it.
const WRITTEN_VERSIONS: Versions = Versions {
    near: &[0, 0, 0, 1],
    others: &[0, 1, 2, LARGEST_VERSION],
};
/// For VER, which must be the one held; 0 is not compared.
const HELD_VERSIONS: Versions = Versions {
    near: &[-1, 0, 0, 1],
    others: &[0, 0, 0, 1, LARGEST_VERSION],
};
/// For GT, which must be greater than the one held; 0 is refused.
const GREATER_VERSIONS: Versions = Versions {
    near: &[-1, 0, 0, 1, 1, 1000],
    others: &[0, 1, 1000, LARGEST_VERSION],
};

type OptionWord = (&'static [u8], Operand);

const EXPIRY_OPTIONS: [OptionWord; 5] = [
    (b"EX", Operand::Time(Unit::Ex)),
    (b"EXAT", Operand::Time(Unit::ExAt)),
    (b"PX", Operand::Time(Unit::Px)),
    (b"PXAT", Operand::Time(Unit::PxAt)),
    (b"KEEPTTL", Operand::Nothing),
];
const CONDITION_OPTIONS: [OptionWord; 2] = [(b"NX", Operand::Nothing), (b"XX", Operand::Nothing)];
const VERSION_OPTIONS: [OptionWord; 3] = [
    (b"VER", Operand::Version(HELD_VERSIONS)),
    (b"ABS", Operand::Version(WRITTEN_VERSIONS)),
    (b"GT", Operand::Version(GREATER_VERSIONS)),
];
const MIN_OPTION: [OptionWord; 1] = [(b"MIN", Operand::Bound)];
const MAX_OPTION: [OptionWord; 1] = [(b"MAX", Operand::Bound)];
const STRAY_OPTIONS: [OptionWord; 5] = [
    (b"NOEXP", Operand::Nothing),
    (b"COUNT", Operand::Version(WRITTEN_VERSIONS)),
    (b"EXX", Operand::Nothing),
    (b"", Operand::Nothing),
    (b"7", Operand::Nothing),
];

/// Groups of options that exclude one another.
type Groups = &'static [&'static [OptionWord]];

const SET_OPTIONS: Groups = &[&EXPIRY_OPTIONS, &CONDITION_OPTIONS, &VERSION_OPTIONS];
const INCREMENT_OPTIONS: Groups = &[&EXPIRY_OPTIONS, &VERSION_OPTIONS, &MIN_OPTION, &MAX_OPTION];
const EXPIRE_OPTIONS: Groups = &[&VERSION_OPTIONS];
const ALL_OPTIONS: Groups = &[
    &EXPIRY_OPTIONS,
    &CONDITION_OPTIONS,
    &VERSION_OPTIONS,
    &MIN_OPTION,
    &MAX_OPTION,
    &STRAY_OPTIONS,
];

/// The store that a command is made for, and the slot whose entry it is mostly about.
#[derive(Clone, Copy)]
struct Target<'s> {
    store: &'s [u8],
    slot: &'s [u8],
}

impl Generator {
    /// A command's bytes, no more than a record takes. Its names, versions and times are often the store's.
    pub fn command(&mut self, store: &[u8]) -> Vec<u8> {
        loop {
            let command = self.command_of_any_length(store);
            if (1..=LONGEST_COMMAND).contains(&command.len()) {
                return command;
            }
        }
    }

    fn command_of_any_length(&mut self, store: &[u8]) -> Vec<u8> {
        match self.random.below(64) {
            0 => self.noise(100),
            1 => self.longest_command(store),
            2 => self.command_of_many_words(store),
            3 => self.words(store).damaged_resp(&mut self.random),
            4 => {
                let mut command = self.words(store).resp();
                self.damage_one_place(&mut command);
                command
            }
            _ => self.words(store).resp(),
        }
    }

    /// A byte changed, removed, inserted or appended, or the end cut off.
    fn damage_one_place(&mut self, command: &mut Vec<u8>) {
        let random = &mut self.random;
        let at = random.below(command.len());
        let byte = random.pick(b"\r\n*$0123456789-+ aE\0\xFF");
        match random.below(5) {
            0 => command[at] = byte,
            1 => {
                command.remove(at);
            }
            2 => command.insert(at, byte),
            3 => command.push(byte),
            _ => command.truncate(at),
        }
    }

    /// As many bytes as a record takes, by a word that is too long.
    fn longest_command(&mut self, store: &[u8]) -> Vec<u8> {
        let mut words = Words::default();
        words.push(b"EXHMGET");
        let slot = self.slot(store);
        self.push_key(&mut words, slot);
        let filled = words.resp().len() + b"$999\r\n\r\n".len();
        words.push(&vec![b'x'; LONGEST_COMMAND.saturating_sub(filled)]);
        words.resp()
    }

    /// Around the most words, mostly empty.
    fn command_of_many_words(&mut self, store: &[u8]) -> Vec<u8> {
        let mut words = Words::default();
        let name = self
            .random
            .pick(&[&b"EXHMGET"[..], b"EXHDEL", b"EXHMSET", b"EXHMGETWITHVER"]);
        words.push(name);
        let slot = self.slot(store);
        self.push_key(&mut words, slot);
        let count = self.random.between(MOST_WORDS - 4, MOST_WORDS + 1);
        while words.count() < count {
            words.push(self.random.pick(&[&b""[..], b"a", b"b", b"1"]));
        }
        words.resp()
    }

    fn words(&mut self, store: &[u8]) -> Words {
        let slot = self.held_slot(store);
        let target = Target { store, slot };
        let mut words = Words::default();
        // The three that write values are the most frequent, then the four that set an expiry.
        let names = self.random.pick(&[3, 7, NAMES.len(), NAMES.len()]);
        let (name, shape) = self.random.pick(&NAMES[..names]);
        let unknown = self
            .random
            .once_in(64)
            .then(|| self.random.pick(&UNKNOWN_NAMES));
        words.push_in_some_case(unknown.unwrap_or(name), &mut self.random);
        self.push_key(&mut words, slot);
        self.push_arguments(&mut words, shape, target);
        match self.random.below(48) {
            0 => words.pop(),
            1 => words.push(usual_or_long(
                &mut self.random,
                &text::FIELDS,
                &text::LONG_FIELDS,
            )),
            2 => self.push_option(&mut words, ALL_OPTIONS, target),
            _ => {}
        }
        words
    }

    fn push_arguments(&mut self, words: &mut Words, shape: Shape, target: Target) {
        match shape {
            Shape::Nothing | Shape::NoExp => {}
            Shape::Fields => return self.push_fields(words, target.store, false),
            Shape::Pairs => return self.push_fields(words, target.store, true),
            _ => self.push_field(words, target.slot),
        }
        match shape {
            Shape::FieldAndValue => {
                self.push_value(words);
                self.push_options(words, SET_OPTIONS, target);
            }
            Shape::FieldAndIncrement => {
                self.push_increment(words);
                self.push_options(words, INCREMENT_OPTIONS, target);
            }
            Shape::FieldAndTime(unit) => {
                self.push_time(words, unit, target.store);
                self.push_options(words, EXPIRE_OPTIONS, target);
            }
            Shape::FieldAndVersion => self.push_version(words, WRITTEN_VERSIONS, target.slot),
            Shape::NoExp if self.random.once_in(2) => {
                words.push_in_some_case(b"NOEXP", &mut self.random)
            }
            _ => {}
        }
    }

    /// 1 to 6 fields, with values or without.
    fn push_fields(&mut self, words: &mut Words, store: &[u8], with_values: bool) {
        for _ in 0..self.random.between(1, 6) {
            let slot = self.slot(store);
            self.push_field(words, slot);
            if with_values {
                self.push_value(words);
            }
        }
    }

    fn push_key(&mut self, words: &mut Words, slot: &[u8]) {
        match name_of(slot) {
            Some((key, _)) if !self.random.once_in(8) => words.push(key),
            _ => words.push(usual_or_long(
                &mut self.random,
                &text::KEYS,
                &text::LONG_KEYS,
            )),
        }
    }

    fn push_field(&mut self, words: &mut Words, slot: &[u8]) {
        match name_of(slot) {
            Some((_, field)) if !self.random.once_in(3) => words.push(field),
            _ => words.push(usual_or_long(
                &mut self.random,
                &text::FIELDS,
                &text::LONG_FIELDS,
            )),
        }
    }

    fn push_value(&mut self, words: &mut Words) {
        words.push(usual_or_long(
            &mut self.random,
            &text::VALUES,
            &text::LONG_VALUES,
        ));
    }

    fn push_increment(&mut self, words: &mut Words) {
        if self.random.once_in(4) {
            words.push(self.random.pick(&text::NUMBERS));
        } else {
            words.push(self.random.pick(&[&b"1"[..], b"-1", b"5", b"0"]));
        }
    }

    /// Each group's option or none, in any order; now and then one too many.
    fn push_options(&mut self, words: &mut Words, groups: Groups, target: Target) {
        let first = self.random.below(groups.len());
        let backwards = self.random.once_in(2);
        for at in 0..groups.len() {
            let at = if backwards { groups.len() - 1 - at } else { at };
            let group = groups[(first + at) % groups.len()];
            if self.random.once_in(2) {
                self.push_option(words, &[group], target);
            }
        }
        if self.random.once_in(12) {
            self.push_option(words, groups, target);
        }
    }

    /// One option with its operand, which is missing now and then.
    fn push_option(&mut self, words: &mut Words, groups: &[&[OptionWord]], target: Target) {
        let group = self.random.pick(groups);
        let (name, operand) = self.random.pick(group);
        words.push_in_some_case(name, &mut self.random);
        if self.random.once_in(48) {
            return;
        }
        match operand {
            Operand::Nothing => {}
            Operand::Time(unit) => self.push_time(words, unit, target.store),
            Operand::Version(versions) => self.push_version(words, versions, target.slot),
            Operand::Bound => self.push_increment(words),
        }
    }

    /// A version: mostly near the slot's, or another, or a text that may be none.
    fn push_version(&mut self, words: &mut Words, versions: Versions, slot: &[u8]) {
        let held = i128::from(low_first(&slot[VERSION]));
        match self.random.below(8) {
            0 => words.push(self.random.pick(&text::NUMBERS)),
            1..=3 => words.push_number(self.random.pick(versions.others).into()),
            _ => words.push_number(held + self.random.pick(versions.near)),
        }
    }

    /// A time around the store's clock or around the limit, or an end.
    fn push_time(&mut self, words: &mut Words, unit: Unit, store: &[u8]) {
        let clock = i128::from(clock_of(store));
        let limit = i128::from(TIME_LIMIT);
        let near = self.random.below(3) as i128 - 1;
        let short = self.random.pick(&[0, 1, 2, 500, 1000]);
        let (from_now, to_limit) = match unit {
            Unit::Ex => (short, (limit - clock) / 1000),
            Unit::ExAt => (clock / 1000 + near, limit / 1000),
            Unit::Px => (short, limit - clock),
            Unit::PxAt => (clock + near + short, limit),
        };
        match self.random.below(8) {
            0 => words.push(self.random.pick(&text::NUMBERS)),
            1 => words.push_number(to_limit + near),
            _ => words.push_number(from_now),
        }
    }
}
