//! Times the proved library and the model on the same loads, in turns, and prints the medians; or does
//! one round of one load with the library alone, so that its instructions can be counted.

#![forbid(unsafe_code)]

mod load;
mod once;
mod side_by_side;

use generate::layout::{LEAST_REPLY_BUFFER, MOST_SLOTS};
use load::Load;
use std::hint::black_box;
use std::process::ExitCode;
use std::time::Instant;

const ROUNDS: usize = 41;
const READS: usize = 50;
/// EXHGET is timed with these numbers of held slots, and its growth from the second to the last.
const GROWTH: [usize; 5] = [10, 50, 100, 250, MOST_SLOTS];

/// An implementation's feeder.
trait Feeding {
    fn fresh() -> Self;
    /// One call; answers the bytes used and the reply's length.
    fn call(&mut self, piece: &[u8], store: &mut [u8], reply: &mut [u8]) -> (usize, usize);
}

impl Feeding for exhash::Feeder {
    fn fresh() -> exhash::Feeder {
        exhash::Feeder::fresh()
    }

    fn call(&mut self, piece: &[u8], store: &mut [u8], reply: &mut [u8]) -> (usize, usize) {
        let fed = self.feed(piece, store, reply).expect("nothing is damaged");
        (fed.used, fed.reply_len)
    }
}

impl Feeding for model::Feeder {
    fn fresh() -> model::Feeder {
        model::Feeder::fresh()
    }

    fn call(&mut self, piece: &[u8], store: &mut [u8], reply: &mut [u8]) -> (usize, usize) {
        let fed = model::feed(self.clone(), piece, store, reply);
        assert_eq!(fed.refusal, 0);
        *self = fed.feeder;
        (fed.used, fed.reply_len)
    }
}

/// The lent bytes, the same for both implementations and in all rounds.
struct Lent {
    store: Vec<u8>,
    reply: Vec<u8>,
}

impl Lent {
    fn new() -> Lent {
        Lent {
            store: Vec::new(),
            reply: vec![0; LEAST_REPLY_BUFFER],
        }
    }
}

/// Feeds a load from its start, each piece until it is used up.
fn feed_all<F: Feeding>(load: &Load, lent: &mut Lent, mut each: impl FnMut(&[u8])) {
    let mut feeder = F::fresh();
    for piece in &load.pieces {
        let mut piece = &piece[..];
        while !piece.is_empty() {
            let (used, reply_len) = feeder.call(piece, &mut lent.store, &mut lent.reply);
            each(&lent.reply[..reply_len]);
            piece = &piece[used..];
        }
    }
}

/// The joined replies and the store that a load leaves; it does all its records.
fn outcome<F: Feeding>(load: &Load, lent: &mut Lent) -> (Vec<u8>, Vec<u8>) {
    let (mut replies, mut records) = (Vec::new(), 0);
    lent.store.clone_from(&load.store);
    feed_all::<F>(load, lent, |reply| {
        assert!(!reply.starts_with(b"-"), "{}", load.name);
        replies.extend_from_slice(reply);
        records += usize::from(!reply.is_empty());
    });
    assert_eq!(records, load.records, "{}", load.name);
    (replies, lent.store.clone())
}

/// Nanoseconds of one round, by the load's divisor. Neither buffer is cleared before.
fn round<F: Feeding>(load: &Load, lent: &mut Lent) -> f64 {
    lent.store.clone_from(&load.store);
    let start = Instant::now();
    feed_all::<F>(load, lent, |reply| {
        black_box(reply);
    });
    start.elapsed().as_nanos() as f64 / load.divisor as f64
}

/// Nanoseconds of the library and of the model, and the library's time in the model's.
struct Times {
    library: f64,
    model: f64,
    ratio: f64,
}

/// Both implementations do a load's records, and leave the same.
fn assert_alike(load: &Load, lent: &mut Lent) {
    let [ours, models] = [outcome::<exhash::Feeder>, outcome::<model::Feeder>];
    assert!(ours(load, lent) == models(load, lent), "{}", load.name);
}

fn times(load: &Load, lent: &mut Lent) -> Times {
    assert_alike(load, lent);
    in_turns(
        lent,
        |lent| round::<exhash::Feeder>(load, lent),
        |lent| round::<model::Feeder>(load, lent),
    )
}

/// Medians of rounds made in turns, once one and once the other first. Each answers its nanoseconds.
fn in_turns<L>(
    lent: &mut L,
    library: impl Fn(&mut L) -> f64,
    model: impl Fn(&mut L) -> f64,
) -> Times {
    let pairs = (0..ROUNDS).map(|at| {
        if at % 2 == 0 {
            let library = library(lent);
            (library, model(lent))
        } else {
            let model = model(lent);
            (library(lent), model)
        }
    });
    let pairs: Vec<(f64, f64)> = pairs.collect();
    Times {
        library: median(pairs.iter().map(|(library, _)| *library)),
        model: median(pairs.iter().map(|(_, model)| *model)),
        ratio: median(pairs.iter().map(|(library, model)| library / model)),
    }
}

fn median(numbers: impl Iterator<Item = f64>) -> f64 {
    let mut numbers: Vec<f64> = numbers.collect();
    numbers.sort_by(f64::total_cmp);
    numbers[numbers.len() / 2]
}

/// The sum of bytes.
fn sum(bytes: &[u8]) -> u32 {
    bytes.iter().map(|byte| u32::from(*byte)).sum()
}

/// The sum of bytes modulo 256: no bytes are widened, so vectors read them fastest.
fn sum_modulo_256(bytes: &[u8]) -> u8 {
    bytes.iter().fold(0, |sum, byte| sum.wrapping_add(*byte))
}

/// Nanoseconds to read a store's bytes once.
fn time_of_reading<T>(store: &[u8], read: impl Fn(&[u8]) -> T) -> f64 {
    let start = Instant::now();
    for _ in 0..READS {
        black_box(read(black_box(store)));
    }
    start.elapsed().as_nanos() as f64 / READS as f64
}

fn print_row(name: &str, unit: &str, times: &Times) {
    let Times {
        library,
        model,
        ratio,
    } = times;
    let unit = match unit {
        "record" => String::new(),
        _ => format!(" (ns a {unit})"),
    };
    println!("| {name}{unit} | {library:.1} | {model:.1} | {ratio:.2} |");
}

fn print_load(load: &Load, lent: &mut Lent) -> Times {
    let times = times(load, lent);
    print_row(&load.name, load.unit, &times);
    times
}

/// EXHGET by the number of held slots, and its growth.
fn print_growth(lent: &mut Lent) {
    let times = load::gets(GROWTH).map(|load| print_load(&load, lent));
    let [_, few, .., most] = times;
    let (library, model) = (most.library / few.library, most.model / few.model);
    let [_, from, .., to] = GROWTH;
    println!("| growth from {from} to {to}, times | {library:.1} | {model:.1} | |");
}

fn print_loads(lent: &mut Lent) {
    println!("| ns a record, unless said otherwise | exhash | model | exhash / model |");
    println!("|---|---|---|---|");
    for load in load::mixes() {
        print_load(&load, lent);
    }
    print_growth(lent);
    for load in load::gets_of_other_names() {
        print_load(&load, lent);
    }
}

/// One byte fed beside two ways to read the store's bytes once, both made of vectors by the compiler.
fn print_single_byte(lent: &mut Lent) {
    let names = [
        "sum of the store's bytes",
        "sum of the store's bytes modulo 256",
        "one byte fed, exhash",
        "one byte fed, model",
    ];
    let load = load::single_bytes(MOST_SLOTS);
    assert_alike(&load, lent);
    let rounds = (0..ROUNDS).map(|_| {
        [
            time_of_reading(&load.store, sum),
            time_of_reading(&load.store, sum_modulo_256),
            round::<exhash::Feeder>(&load, lent),
            round::<model::Feeder>(&load, lent),
        ]
    });
    let rounds: Vec<[f64; 4]> = rounds.collect();
    println!("\n| {MOST_SLOTS} slots held | ns | times the sum | times the sum modulo 256 |");
    println!("|---|---|---|---|");
    for (row, name) in names.iter().enumerate() {
        let ns = median(rounds.iter().map(|times| times[row]));
        let plain = median(rounds.iter().map(|times| times[row] / times[0]));
        let fastest = median(rounds.iter().map(|times| times[row] / times[1]));
        println!("| {name} | {ns:.1} | {plain:.1} | {fastest:.1} |");
    }
}

fn print_times() {
    let mut lent = Lent::new();
    print_loads(&mut lent);
    side_by_side::print_rows();
    print_single_byte(&mut lent);
    println!("\nMedians of {ROUNDS} rounds, in turns; the buffers are not cleared before a call.");
}

fn main() -> ExitCode {
    let arguments: Vec<String> = std::env::args().skip(1).collect();
    let arguments: Vec<&str> = arguments.iter().map(String::as_str).collect();
    match arguments[..] {
        [] => print_times(),
        ["names"] => once::print_names(),
        ["once", name] => return once::run(name),
        _ => {
            eprintln!("usage: bench [names | once NAME]");
            return ExitCode::FAILURE;
        }
    }
    ExitCode::SUCCESS
}
