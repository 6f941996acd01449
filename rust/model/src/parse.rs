//! From words to a command: checks 12 to 18, in that order.

use crate::integer::{plain, plain_up_to};
use crate::layout::{LARGEST_VERSION, LONGEST_FIELD, LONGEST_KEY, LONGEST_VALUE, TIME_LIMIT};
use crate::reply::Refusal;
use crate::store::Name;
use crate::time::{self, Unit};
use crate::versions::Given;

type Word<'w> = &'w [u8];

/// A command that passed checks 10 to 18.
#[derive(Debug)]
pub enum Command<'w> {
    Set(Set<'w>),
    MSet(Word<'w>, &'w [[Word<'w>; 2]]),
    IncrBy(IncrBy<'w>),
    Expire(Expire<'w>),
    Persist(Name<'w>),
    SetVer(Name<'w>, u32),
    PTtl(Name<'w>),
    Ttl(Name<'w>),
    Ver(Name<'w>),
    Get(Name<'w>),
    StrLen(Name<'w>),
    Exists(Name<'w>),
    GetWithVer(Name<'w>),
    MGet(Word<'w>, &'w [Word<'w>]),
    MGetWithVer(Word<'w>, &'w [Word<'w>]),
    Del(Word<'w>, &'w [Word<'w>]),
    Len(Word<'w>),
    LenNoExp(Word<'w>),
    Keys(Word<'w>),
    Vals(Word<'w>),
    GetAll(Word<'w>),
}

#[derive(Debug)]
pub struct Set<'w> {
    pub name: Name<'w>,
    pub value: Word<'w>,
    pub condition: Option<Condition>,
    pub version: Given,
    pub expiry: NewExpiry,
}

#[derive(Debug)]
pub struct IncrBy<'w> {
    pub name: Name<'w>,
    pub increment: i64,
    pub min: i64,
    pub max: i64,
    pub version: Given,
    pub expiry: NewExpiry,
}

/// EXHEXPIRE, EXHEXPIREAT, EXHPEXPIRE or EXHPEXPIREAT.
#[derive(Debug)]
pub struct Expire<'w> {
    pub name: Name<'w>,
    pub expiry: u64,
    pub version: Given,
}

#[derive(Clone, Copy, Debug, PartialEq, Eq)]
pub enum Condition {
    Nx,
    Xx,
}

/// "Expiry is cleared unless an option sets it or KEEPTTL keeps it."
#[derive(Clone, Copy, Debug, PartialEq, Eq)]
pub enum NewExpiry {
    Cleared,
    Kept,
    At(u64),
}

#[derive(Clone, Copy)]
enum Kind {
    Set,
    MSet,
    IncrBy,
    Expire(Unit),
    Persist,
    SetVer,
    PTtl,
    Ttl,
    Ver,
    Get,
    StrLen,
    Exists,
    GetWithVer,
    MGet,
    MGetWithVer,
    Del,
    Len,
    Keys,
    Vals,
    GetAll,
}

const KINDS: [(&[u8], Kind); 23] = [
    (b"EXHSET", Kind::Set),
    (b"EXHMSET", Kind::MSet),
    (b"EXHINCRBY", Kind::IncrBy),
    (b"EXHEXPIRE", Kind::Expire(Unit::Ex)),
    (b"EXHEXPIREAT", Kind::Expire(Unit::ExAt)),
    (b"EXHPEXPIRE", Kind::Expire(Unit::Px)),
    (b"EXHPEXPIREAT", Kind::Expire(Unit::PxAt)),
    (b"EXHPERSIST", Kind::Persist),
    (b"EXHSETVER", Kind::SetVer),
    (b"EXHPTTL", Kind::PTtl),
    (b"EXHTTL", Kind::Ttl),
    (b"EXHVER", Kind::Ver),
    (b"EXHGET", Kind::Get),
    (b"EXHSTRLEN", Kind::StrLen),
    (b"EXHEXISTS", Kind::Exists),
    (b"EXHGETWITHVER", Kind::GetWithVer),
    (b"EXHMGET", Kind::MGet),
    (b"EXHMGETWITHVER", Kind::MGetWithVer),
    (b"EXHDEL", Kind::Del),
    (b"EXHLEN", Kind::Len),
    (b"EXHKEYS", Kind::Keys),
    (b"EXHVALS", Kind::Vals),
    (b"EXHGETALL", Kind::GetAll),
];

/// "The lowest number that applies is given", of 12 to 18.
pub fn command<'w>(words: &'w [Word<'w>], now: u64) -> Result<Command<'w>, Refusal> {
    let kind = words.first().and_then(|word| look_up(&KINDS, word));
    let kind = kind.ok_or(Refusal::UnknownCommand)?;
    if !has_word_count(kind, words.len()) {
        return Err(Refusal::WrongNumberOfArguments);
    }
    if is_too_long(kind, words) {
        return Err(Refusal::TooLong);
    }
    arguments(kind, words, now)
}

/// "Names and option words are read without regard to case."
fn look_up<T: Copy>(table: &[(&[u8], T)], word: &[u8]) -> Option<T> {
    let row = table.iter().find(|row| row.0.eq_ignore_ascii_case(word))?;
    Some(row.1)
}

fn has_word_count(kind: Kind, count: usize) -> bool {
    match kind {
        Kind::Keys | Kind::Vals | Kind::GetAll => count == 2,
        Kind::Get | Kind::Persist | Kind::PTtl | Kind::Ttl => count == 3,
        Kind::Ver | Kind::GetWithVer | Kind::Exists | Kind::StrLen => count == 3,
        Kind::SetVer => count == 4,
        Kind::MGet | Kind::MGetWithVer | Kind::Del => count >= 3,
        Kind::MSet => count >= 4 && count.is_multiple_of(2),
        Kind::Set | Kind::IncrBy | Kind::Expire(_) => count >= 4,
        Kind::Len => count >= 2,
    }
}

/// "Key, field or value too long."
fn is_too_long(kind: Kind, words: &[Word]) -> bool {
    let long_field = |field: &Word| field.len() > LONGEST_FIELD;
    let long_pair = |[field, value]: &[Word; 2]| long_field(field) || value.len() > LONGEST_VALUE;
    let [_, key, rest @ ..] = words else {
        return false;
    };
    let long_rest = match kind {
        Kind::Keys | Kind::Vals | Kind::GetAll | Kind::Len => false,
        Kind::MGet | Kind::MGetWithVer | Kind::Del => rest.iter().any(long_field),
        Kind::MSet => rest.as_chunks().0.iter().any(long_pair),
        Kind::Set => rest.first_chunk().is_some_and(long_pair),
        _ => rest.first().is_some_and(long_field),
    };
    key.len() > LONGEST_KEY || long_rest
}

/// The fixed words by their places, then checks 15 to 18.
fn arguments<'w>(kind: Kind, words: &'w [Word<'w>], now: u64) -> Result<Command<'w>, Refusal> {
    let (key, rest) = match words {
        [_, key, rest @ ..] => (*key, rest),
        _ => return Err(Refusal::WrongNumberOfArguments),
    };
    let named = |field| Name { key, field };
    let command = match (kind, rest) {
        (Kind::Set, [field, value, options @ ..]) => set(named(field), value, options, now)?,
        (Kind::MSet, pairs) => Command::MSet(key, pairs.as_chunks().0),
        (Kind::IncrBy, [field, number, options @ ..]) => {
            incr_by(named(field), number, options, now)?
        }
        (Kind::Expire(unit), [field, time, options @ ..]) => {
            expire(named(field), unit, time, options, now)?
        }
        (Kind::Persist, [field]) => Command::Persist(named(field)),
        (Kind::SetVer, [field, number]) => Command::SetVer(named(field), version(number)?),
        (Kind::PTtl, [field]) => Command::PTtl(named(field)),
        (Kind::Ttl, [field]) => Command::Ttl(named(field)),
        (Kind::Ver, [field]) => Command::Ver(named(field)),
        (Kind::Get, [field]) => Command::Get(named(field)),
        (Kind::StrLen, [field]) => Command::StrLen(named(field)),
        (Kind::Exists, [field]) => Command::Exists(named(field)),
        (Kind::GetWithVer, [field]) => Command::GetWithVer(named(field)),
        (Kind::MGet, fields) => Command::MGet(key, fields),
        (Kind::MGetWithVer, fields) => Command::MGetWithVer(key, fields),
        (Kind::Del, fields) => Command::Del(key, fields),
        (Kind::Len, options) => len(key, options)?,
        (Kind::Keys, []) => Command::Keys(key),
        (Kind::Vals, []) => Command::Vals(key),
        (Kind::GetAll, []) => Command::GetAll(key),
        _ => return Err(Refusal::WrongNumberOfArguments),
    };
    Ok(command)
}

fn set<'w>(
    name: Name<'w>,
    value: Word<'w>,
    options: &[Word],
    now: u64,
) -> Result<Command<'w>, Refusal> {
    let options = Options::read(options, is_for_set)?;
    let numbers = options.numbers()?;
    refuse_zero(numbers.version)?;
    Ok(Command::Set(Set {
        name,
        value,
        condition: options.condition,
        version: numbers.version,
        expiry: numbers.expiry(now)?,
    }))
}

fn incr_by<'w>(
    name: Name<'w>,
    increment: Word,
    options: &[Word],
    now: u64,
) -> Result<Command<'w>, Refusal> {
    let options = Options::read(options, is_for_incr_by)?;
    let increment = integer(increment)?;
    let numbers = options.numbers()?;
    refuse_zero(numbers.version)?;
    Ok(Command::IncrBy(IncrBy {
        name,
        increment,
        min: numbers.min,
        max: numbers.max,
        version: numbers.version,
        expiry: numbers.expiry(now)?,
    }))
}

fn expire<'w>(
    name: Name<'w>,
    unit: Unit,
    time: Word,
    options: &[Word],
    now: u64,
) -> Result<Command<'w>, Refusal> {
    let options = Options::read(options, is_for_expire)?;
    let time = self::time(time)?;
    let version = options.numbers()?.version;
    refuse_zero(version)?;
    Ok(Command::Expire(Expire {
        name,
        expiry: instant(unit, time, now)?,
        version,
    }))
}

fn len<'w>(key: Word<'w>, options: &[Word]) -> Result<Command<'w>, Refusal> {
    let options = Options::read(options, |name| matches!(name, OptionName::NoExp))?;
    Ok(match options.no_exp {
        None => Command::Len(key),
        Some(()) => Command::LenNoExp(key),
    })
}

// Numbers: checks 16 to 18.

fn integer(text: Word) -> Result<i64, Refusal> {
    plain(text).ok_or(Refusal::NotAnInteger)
}

/// "Times are plain, 0 to 4,102,444,800,000."
fn time(text: Word) -> Result<u64, Refusal> {
    plain_up_to(text, TIME_LIMIT).ok_or(Refusal::NotAnInteger)
}

/// "Versions plain, 0 to their largest."
fn version(text: Word) -> Result<u32, Refusal> {
    let version = plain_up_to(text, u64::from(LARGEST_VERSION));
    version
        .map(|version| version as u32)
        .ok_or(Refusal::NotAnInteger)
}

/// "ABS v: version v; 0 is refused." "GT 0 is 17."
fn refuse_zero(version: Given) -> Result<(), Refusal> {
    match version {
        Given::Abs(0) | Given::Gt(0) => Err(Refusal::InvalidVersion),
        _ => Ok(()),
    }
}

fn instant(unit: Unit, time: u64, now: u64) -> Result<u64, Refusal> {
    time::instant(unit, time, now).ok_or(Refusal::InvalidExpireTime)
}

// Options: check 15.

#[derive(Clone, Copy)]
enum OptionName {
    Time(Unit),
    KeepTtl,
    Condition(Condition),
    Ver,
    Abs,
    Gt,
    Min,
    Max,
    NoExp,
}

const OPTION_NAMES: [(&[u8], OptionName); 13] = [
    (b"EX", OptionName::Time(Unit::Ex)),
    (b"EXAT", OptionName::Time(Unit::ExAt)),
    (b"PX", OptionName::Time(Unit::Px)),
    (b"PXAT", OptionName::Time(Unit::PxAt)),
    (b"KEEPTTL", OptionName::KeepTtl),
    (b"NX", OptionName::Condition(Condition::Nx)),
    (b"XX", OptionName::Condition(Condition::Xx)),
    (b"VER", OptionName::Ver),
    (b"ABS", OptionName::Abs),
    (b"GT", OptionName::Gt),
    (b"MIN", OptionName::Min),
    (b"MAX", OptionName::Max),
    (b"NOEXP", OptionName::NoExp),
];

fn is_for_set(name: OptionName) -> bool {
    !matches!(name, OptionName::Min | OptionName::Max | OptionName::NoExp)
}

/// "Options of EXHSET but NX and XX; also MIN, MAX."
fn is_for_incr_by(name: OptionName) -> bool {
    !matches!(name, OptionName::Condition(_) | OptionName::NoExp)
}

fn is_for_expire(name: OptionName) -> bool {
    matches!(name, OptionName::Ver | OptionName::Abs | OptionName::Gt)
}

/// The options as given, their operands not yet read as numbers.
#[derive(Default)]
struct Options<'w> {
    expiry: Option<ExpiryOption<'w>>,
    condition: Option<Condition>,
    version: Option<VersionOption<'w>>,
    min: Option<Word<'w>>,
    max: Option<Word<'w>>,
    no_exp: Option<()>,
}

enum ExpiryOption<'w> {
    Time(Unit, Word<'w>),
    KeepTtl,
}

/// "GT joins VER and ABS: at most one."
enum VersionOption<'w> {
    Ver(Word<'w>),
    Abs(Word<'w>),
    Gt(Word<'w>),
}

impl<'w> Options<'w> {
    /// "Options follow the fixed words in any order; each at most once."
    fn read(words: &[Word<'w>], is_known: fn(OptionName) -> bool) -> Result<Options<'w>, Refusal> {
        let mut options = Options::default();
        let mut words = words.iter().copied();
        while let Some(word) = words.next() {
            let name = look_up(&OPTION_NAMES, word).filter(|name| is_known(*name));
            options.take(name.ok_or(Refusal::SyntaxError)?, &mut words)?;
        }
        Ok(options)
    }

    /// "A word after an option that takes one is its operand, whatever it says."
    fn take(
        &mut self,
        name: OptionName,
        words: &mut impl Iterator<Item = Word<'w>>,
    ) -> Result<(), Refusal> {
        let mut operand = || words.next().ok_or(Refusal::SyntaxError);
        match name {
            OptionName::Time(unit) => once(&mut self.expiry, ExpiryOption::Time(unit, operand()?)),
            OptionName::KeepTtl => once(&mut self.expiry, ExpiryOption::KeepTtl),
            OptionName::Condition(condition) => once(&mut self.condition, condition),
            OptionName::Ver => once(&mut self.version, VersionOption::Ver(operand()?)),
            OptionName::Abs => once(&mut self.version, VersionOption::Abs(operand()?)),
            OptionName::Gt => once(&mut self.version, VersionOption::Gt(operand()?)),
            OptionName::Min => once(&mut self.min, operand()?),
            OptionName::Max => once(&mut self.max, operand()?),
            OptionName::NoExp => once(&mut self.no_exp, ()),
        }
    }

    fn numbers(&self) -> Result<Numbers, Refusal> {
        Ok(Numbers {
            expiry: match self.expiry {
                None => ExpiryNumber::Cleared,
                Some(ExpiryOption::KeepTtl) => ExpiryNumber::Kept,
                Some(ExpiryOption::Time(unit, text)) => ExpiryNumber::Time(unit, time(text)?),
            },
            version: match self.version {
                None => Given::Nothing,
                Some(VersionOption::Ver(text)) => Given::Ver(version(text)?),
                Some(VersionOption::Abs(text)) => Given::Abs(version(text)?),
                Some(VersionOption::Gt(text)) => Given::Gt(version(text)?),
            },
            min: self.min.map_or(Ok(i64::MIN), integer)?,
            max: self.max.map_or(Ok(i64::MAX), integer)?,
        })
    }
}

/// Options that exclude one another share a place, so a second one is repeated or conflicting.
fn once<T>(place: &mut Option<T>, option: T) -> Result<(), Refusal> {
    match place.replace(option) {
        None => Ok(()),
        Some(_) => Err(Refusal::SyntaxError),
    }
}

/// The options' numbers, all plain and in range.
struct Numbers {
    expiry: ExpiryNumber,
    version: Given,
    min: i64,
    max: i64,
}

enum ExpiryNumber {
    Cleared,
    Kept,
    Time(Unit, u64),
}

impl Numbers {
    fn expiry(&self, now: u64) -> Result<NewExpiry, Refusal> {
        Ok(match self.expiry {
            ExpiryNumber::Cleared => NewExpiry::Cleared,
            ExpiryNumber::Kept => NewExpiry::Kept,
            ExpiryNumber::Time(unit, time) => NewExpiry::At(instant(unit, time, now)?),
        })
    }
}
