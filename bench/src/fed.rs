//! The fed walk beside the arriving walk over the whole buffer, both of the port: what it costs not to have the file.

use crate::inputs::*;
use crate::measure::{Clock, Pass};
use crate::port;

/// The bytes a piece has: a large read, and a packet's.
const PIECES: [usize; 2] = [1 << 16, 1400];

/// The records that a call has room for.
const ROOM: usize = 1000;

/// An input: its name, its bytes, and the ratios that are wanted for both sizes of pieces, with one record a call and with many.
type Input = (&'static str, Vec<u8>, [Option<f64>; 2], [Option<f64>; 2]);

/// The inputs: searches, hostile ones among them, then records.
fn inputs() -> Vec<Input> {
    let search = [Some(1.1), Some(1.5)];
    let none = [None; 2];
    let most = [Some(2.0); 2];
    vec![
        ("random bytes, no key", random(MIB), search, none),
        ("zeros", vec![0; MIB], search, none),
        ("hostile: half of the bytes 06", half(0x06, MIB), search, none),
        ("hostile: `06 0e 2b` repeated", repeated(&[0x06, 0x0e, 0x2b], MIB), search, none),
        ("hostile: `06 0e 2c 34` repeated", repeated(&[0x06, 0x0e, 0x2c, 0x34], MIB), search, none),
        ("hostile: adjoining keys with no length", no_lengths(MIB), none, none),
        ("records of 1,020 bytes", records(MIB, 4, (1000, 1000), (0, 0)), most, most),
        ("small values (0 to 20 bytes)", records(MIB, 1, (0, 20), (0, 0)), none, most),
        ("records of 17 bytes", records(MIB, 1, (0, 0), (0, 0)), none, most),
    ]
}

/// A list's number: so many records, and a sum over their places and lengths.
#[derive(Default)]
struct Sum(u64);

impl Sum {
    fn add(&mut self, value: u64, length: u64) {
        self.0 = self.0.wrapping_mul(31).wrapping_add(length ^ value);
    }
}

/// The arriving walk over the whole, one record a call.
fn arrive(s: &[u8]) -> u64 {
    let (mut at, mut since, mut sum, mut out) = (0, 0, Sum::default(), port::Stepped::default());
    loop {
        port::arrive(s, s.len(), at, since, &mut out);
        let [found, _, value, length, next, .., gone_on] = out;
        if found == 0 {
            return sum.0;
        }
        sum.add(value, length);
        (at, since) = (next as usize, gone_on as usize);
    }
}

/// The same with many records a call.
fn arrivals(s: &[u8]) -> u64 {
    let (mut at, mut since, mut sum) = (0, 0, Sum::default());
    let mut room = [0; ROOM * port::EACH];
    loop {
        let [count, next, gone_on] = port::arrivals(s, s.len(), at, since, &mut room);
        room.chunks_exact(port::EACH).take(count as usize).for_each(|record| sum.add(record[1], record[2]));
        if (count as usize) < ROOM {
            return sum.0;
        }
        (at, since) = (next as usize, gone_on as usize);
    }
}

/// The fed walk, one record a call.
fn feed(s: &[u8], size: usize) -> u64 {
    let (mut state, mut sum) = (port::fed_limit(s.len()), Sum::default());
    let (mut label, mut out) = ([0; 16], port::Fed::default());
    for mut piece in s.chunks(size) {
        loop {
            port::feed(&mut state, piece, &mut label, &mut out);
            let [found, taken, _, value, length, ..] = out;
            piece = &piece[taken as usize..];
            if found == 0 {
                break;
            }
            sum.add(value, length);
        }
    }
    sum.0
}

/// The same with many records a call.
fn feed_records(s: &[u8], size: usize) -> u64 {
    let (mut state, mut sum) = (port::fed_limit(s.len()), Sum::default());
    let (mut room, mut labels) = ([0; ROOM * port::EACH], [0; ROOM * 16]);
    for mut piece in s.chunks(size) {
        loop {
            let [count, taken] = port::feed_records(&mut state, piece, &mut room, &mut labels);
            room.chunks_exact(port::EACH).take(count as usize).for_each(|record| sum.add(record[1], record[2]));
            piece = &piece[taken as usize..];
            if (count as usize) < ROOM {
                break;
            }
        }
    }
    sum.0
}

/// The table: the arriving walk's time, and of the fed one the ratio to it, for both sizes of pieces.
pub fn table(clock: &mut Clock) {
    println!(
        "\n| 1 MiB | calls | arriving, µs | pieces of 64 KiB | at most | pieces of 1,400 | at most | by layout |\n|---|---|---|---|---|---|---|---|"
    );
    for (name, bytes, one, many) in inputs() {
        let s: &'static [u8] = bytes.leak();
        row(name, "a record each", Box::new(|| arrive(s)), PIECES.map(|size| Box::new(move || feed(s, size)) as Pass), one, clock);
        row(
            name,
            "1,000 records each",
            Box::new(|| arrivals(s)),
            PIECES.map(|size| Box::new(move || feed_records(s, size)) as Pass),
            many,
            clock,
        );
    }
}

/// A row measured. The walks must agree.
fn row(name: &str, calls: &str, arriving: Pass, fed: [Pass; 2], most: [Option<f64>; 2], clock: &mut Clock) {
    let [large, small] = fed;
    let passes = [&arriving, &large, &small];
    for pass in passes {
        assert_eq!(pass(), arriving(), "{name}, {calls}");
    }
    let times = clock.times(&passes);
    let [most_large, most_small] = most.map(|most| most.map_or(String::new(), |most| most.to_string()));
    let (whole, large, small, range) = (times.of(0) / 1000.0, times.ratio(1, 0), times.ratio(2, 0), times.range(2, 0));
    println!("| {name} | {calls} | {whole:.1} | **{large:.2}** | {most_large} | **{small:.2}** | {most_small} | {range} |");
}
