//! The time that 200,000 commands and 20,000 cut streams take, made only and then run by the model.

use generate::Generator;
use generate::layout::LEAST_REPLY_BUFFER;
use model::{Feeder, execute, feed};
use std::time::Instant;

const COMMANDS: usize = 200_000;
const STREAMS: usize = 20_000;

fn main() {
    let start = Instant::now();
    let made: usize = make_commands(|_, _, command| command.len());
    println!(
        "{COMMANDS} commands made: {made} bytes, {:?}",
        start.elapsed()
    );

    let mut reply = vec![0; LEAST_REPLY_BUFFER];
    let start = Instant::now();
    let replied =
        make_commands(|store, clock, command| execute(clock, command, store, &mut reply).reply_len);
    println!(
        "{COMMANDS} commands made and run: {replied} bytes replied, {:?}",
        start.elapsed()
    );

    let start = Instant::now();
    let calls = make_streams(|_, _, pieces| pieces.len());
    println!(
        "{STREAMS} streams made: {calls} pieces, {:?}",
        start.elapsed()
    );

    let start = Instant::now();
    let calls =
        make_streams(|store, stream, pieces| feed_pieces(store, stream, pieces, &mut reply));
    println!(
        "{STREAMS} streams made and fed: {calls} calls, {:?}",
        start.elapsed()
    );
}

fn make_commands(mut each: impl FnMut(&mut [u8], u64, &[u8]) -> usize) -> usize {
    let mut generator = Generator::new(1);
    let one = |_| {
        let mut store = generator.store();
        let (clock, command) = (generator.clock(&store), generator.command(&store));
        each(&mut store, clock, &command)
    };
    (0..COMMANDS).map(one).sum()
}

fn make_streams(mut each: impl FnMut(&mut [u8], &[u8], &[usize]) -> usize) -> usize {
    let mut generator = Generator::new(2);
    let one = |_| {
        let mut store = generator.store();
        let stream = generator.stream(&store);
        let pieces = generator.pieces(stream.len());
        each(&mut store, &stream, &pieces)
    };
    (0..STREAMS).map(one).sum()
}

fn feed_pieces(store: &mut [u8], stream: &[u8], pieces: &[usize], reply: &mut [u8]) -> usize {
    let mut calls = 0;
    let mut feeder = Feeder::fresh();
    let mut rest = stream;
    for length in pieces {
        let (mut piece, after) = rest.split_at(*length);
        rest = after;
        while !piece.is_empty() {
            let fed = feed(feeder, piece, store, reply);
            piece = &piece[fed.used..];
            feeder = fed.feeder;
            calls += 1;
        }
    }
    calls
}
