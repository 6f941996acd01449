//! What GT and VER 0 came to in a record, told from the record, the store before it and its reply.

use generate::layout::{HEAD, MARK};
use model::parse::{self, Command};
use model::reply::Refusal;
use model::resp;
use model::store::{self, Name, Store};
use model::time;
use model::versions::Given;

/// A version option, and what it came to.
pub type Outcome = (&'static str, &'static str);

const GT: &str = "GT";
const VER_0: &str = "VER 0";

const TAKEN_LIVE: &str = "accepted on a live field";
const TAKEN_MISSING: &str = "accepted on a missing field";
const SETTER_LIVE: &str = "on a setter of a live field";
const SETTER_MISSING: &str = "on a setter of a missing field";
const REFUSED_17: &str = "refused as 17";
const REFUSED_20: &str = "refused as 20";
const REFUSED_23: &str = "refused as 23";

/// All that the two come to where they decide. A live field is here one with a version other than 0:
/// at 0 every VER and every GT but 0 is accepted, so no comparison is told there.
pub const OUTCOMES: [Outcome; 11] = [
    (GT, TAKEN_LIVE),
    (GT, TAKEN_MISSING),
    (GT, SETTER_LIVE),
    (GT, SETTER_MISSING),
    (GT, REFUSED_17),
    (GT, REFUSED_20),
    (VER_0, TAKEN_LIVE),
    (VER_0, TAKEN_MISSING),
    (VER_0, SETTER_LIVE),
    (VER_0, SETTER_MISSING),
    (VER_0, REFUSED_23),
];

/// Name, key and field, and a value, an increment or a time; then the options.
const FIXED_WORDS: usize = 4;

/// What one of the two came to, or none if the record has neither or something else decided.
pub fn outcome(record: &[u8], store: &[u8], reply: &[u8]) -> Option<Outcome> {
    let words = resp::words(record.get(HEAD..)?)?;
    let words = words.as_slice();
    let mut refusals = Refusal::ALL.into_iter();
    let refusal = refusals.find(|refusal| reply == refusal.line());
    if refusal == Some(Refusal::InvalidVersion) {
        // Of ABS 0 and GT 0, which exclude one another.
        let mut options = words.iter().skip(FIXED_WORDS);
        let is_gt = options.any(|word| word.eq_ignore_ascii_case(b"GT"));
        return is_gt.then_some((GT, REFUSED_17));
    }
    let mut store = store.to_vec();
    let mut store = Store::view(&mut store)?;
    let clock = u64::from_le_bytes(*record.get(MARK.len()..)?.first_chunk()?);
    let now = time::now(store.clock(), clock);
    let command = parse::command(words, now).ok()?;
    let (option, name) = option_and_field(&command)?;
    let came_to = match refusal {
        Some(Refusal::StaleVersion) => REFUSED_20,
        Some(Refusal::VersionOverflow) => REFUSED_23,
        Some(_) => return None,
        None => {
            let held = store.lookup(name, now).map(|slot| store::version(slot));
            accepted(&command, reply, held)?
        }
    };
    Some((option, came_to))
}

/// Which of the two a command has, and its field.
fn option_and_field<'w>(command: &Command<'w>) -> Option<(&'static str, Name<'w>)> {
    let (version, name) = match command {
        Command::Set(set) => (set.version, set.name),
        Command::IncrBy(incr_by) => (incr_by.version, incr_by.name),
        Command::Expire(expire) => (expire.version, expire.name),
        _ => return None,
    };
    match version {
        Given::Gt(_) => Some((GT, name)),
        Given::Ver(0) => Some((VER_0, name)),
        _ => None,
    }
}

/// What a command that is not refused came to on a field, by the version held if that is live.
fn accepted(command: &Command, reply: &[u8], held: Option<u32>) -> Option<&'static str> {
    match (command, held) {
        // NX or XX has answered.
        (Command::Set(_), _) if reply == b":-1\r\n" => None,
        (_, Some(0)) => None,
        (Command::Expire(_), Some(_)) => Some(SETTER_LIVE),
        (Command::Expire(_), None) => Some(SETTER_MISSING),
        (_, Some(_)) => Some(TAKEN_LIVE),
        (_, None) => Some(TAKEN_MISSING),
    }
}

#[cfg(test)]
mod tests {
    use super::*;
    use generate::layout::{LARGEST_VERSION, LEAST_REPLY_BUFFER, store_size};
    use generate::record;

    /// What the last of some commands comes to.
    fn last(commands: &[&str]) -> Option<Outcome> {
        let mut store = vec![0; store_size(1)];
        let mut reply = vec![0; LEAST_REPLY_BUFFER];
        let mut last = None;
        for command in commands {
            let record = record(5, command);
            let before = store.clone();
            let done = model::execute(5, &record[HEAD..], &mut store, &mut reply);
            last = outcome(&record, &before, &reply[..done.reply_len]);
        }
        last
    }

    /// A command, and what its option comes to on a missing field and on one at version 6.
    type Row = (&'static str, Option<&'static str>, Option<&'static str>);

    fn check(option: &'static str, rows: &[Row]) {
        for (command, on_missing, on_live) in rows {
            let on_missing = on_missing.map(|came_to| (option, came_to));
            let on_live = on_live.map(|came_to| (option, came_to));
            assert_eq!(last(&[command]), on_missing, "{command}");
            assert_eq!(last(&["EXHSET m a 1 ABS 6", command]), on_live, "{command}");
            let dead = ["EXHSET m a 1 ABS 9 PX 0", command];
            assert_eq!(last(&dead), on_missing, "{command}");
        }
    }

    #[test]
    fn outcomes_of_gt_are_told_apart() {
        let (live, missing) = (Some(TAKEN_LIVE), Some(TAKEN_MISSING));
        let rows = [
            ("EXHSET m a 1 gt 7", missing, live),
            ("EXHINCRBY m a 1 GT 7", missing, live),
            (
                "EXHEXPIRE m a 1 GT 7",
                Some(SETTER_MISSING),
                Some(SETTER_LIVE),
            ),
            ("EXHEXPIRE m a 1 GT 0", Some(REFUSED_17), Some(REFUSED_17)),
            ("EXHSET m a 1 GT 6", missing, Some(REFUSED_20)),
            ("EXHSET m a 1 GT 7 NX", missing, None),
            ("EXHSET m a 1 GT 7 XX", None, live),
            ("EXHSET m a 1 GT 7 EX x", None, None),
            ("EXHINCRBY m a 1 GT 7 MAX 0", None, None),
            ("EXHSET m a 1 ABS 0", None, None),
            ("EXHSET m GT 1 ABS 0", None, None),
            ("EXHMSET m GT 7", None, None),
        ];
        check(GT, &rows);
    }

    #[test]
    fn outcomes_of_ver_0_are_told_apart() {
        let (live, missing) = (Some(TAKEN_LIVE), Some(TAKEN_MISSING));
        let rows = [
            ("EXHSET m a 1 ver 0", missing, live),
            ("EXHINCRBY m a 1 VER 0", missing, live),
            (
                "EXHPEXPIRE m a 1 VER 0",
                Some(SETTER_MISSING),
                Some(SETTER_LIVE),
            ),
            ("EXHSET m a 1 VER 0 NX", missing, None),
            ("EXHSET m a 1 XX VER 0", None, live),
            ("EXHSET m a 1 VER 00", None, None),
            ("EXHINCRBY m a 1 VER 0 MAX 0", None, None),
            ("EXHSET m a 1 VER 5", None, None),
            ("EXHSET m a 1 VER 6", None, None),
            ("EXHMSET m VER 0", None, None),
        ];
        check(VER_0, &rows);
    }

    #[test]
    fn a_live_field_at_version_0_tells_nothing() {
        for option in ["VER 0", "GT 7"] {
            for command in [
                format!("EXHSET m a 1 {option}"),
                format!("EXHEXPIRE m a 1 {option}"),
            ] {
                let commands = ["EXHSET m a 1", "EXHSETVER m a 0", &command];
                assert_eq!(last(&commands), None, "{command}");
            }
        }
    }

    #[test]
    fn at_the_largest_version_ver_0_is_refused() {
        let live = format!("EXHSET m a 1 ABS {LARGEST_VERSION}");
        for command in ["EXHSET m a 1", "EXHINCRBY m a 1", "EXHEXPIRE m a 1"] {
            let came_to = last(&[&live, &format!("{command} VER 0")]);
            assert_eq!(came_to, Some((VER_0, REFUSED_23)), "{command}");
        }
    }
}
