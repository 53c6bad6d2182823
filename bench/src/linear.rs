//! The arriving walk from cursor to cursor over uploads that come in pieces: what it costs a byte as uploads grow.

use crate::inputs::*;
use crate::measure::{Pass, least};
use crate::port;

/// The pieces that uploads come in, each with the bytes of the shortest upload: the others have twice and four times as many.
const PIECES: [(usize, usize); 3] = [(1, 1 << 14), (1400, 1 << 18), (1 << 16, 1 << 18)];

/// An upload: its name, its bytes given their count, and how many bytes more the limit lets come.
type Upload = (&'static str, fn(usize) -> Vec<u8>, usize);

/// The uploads, ordinary ones first.
const UPLOADS: [Upload; 8] = [
    ("small records", |count| records(count, 1, (0, 20), (0, 0)), 1 << 20),
    ("records of 8 KiB", |count| records(count, 4, (8192, 8192), (0, 0)), 1 << 20),
    ("hostile: random bytes, no key", random, 1 << 20),
    ("hostile: `06 0e 2b` repeated, so that pieces end in it", |count| repeated(&[0x06, 0x0e, 0x2b], count), 1 << 20),
    ("hostile: `06 0e 2c 34` repeated", |count| repeated(&[0x06, 0x0e, 0x2c, 0x34], count), 1 << 20),
    ("hostile: one value that is waited for to the end", |count| long_values(count, count), 64),
    ("hostile: adjoining keys with no length", no_lengths, 1 << 20),
    ("hostile: adjoining keys, each with a value past the limit", |count| long_values(24, count), 0),
];

/// Keys so far apart, each with a length of all the upload's bytes: a value that is waited for where the limit lets it come.
fn long_values(apart: usize, count: usize) -> Vec<u8> {
    let mut bytes = Vec::with_capacity(count + apart);
    while bytes.len() < count {
        let place = bytes.len();
        bytes.extend(KEY);
        bytes.extend([0x80; 12]);
        bytes.push(0x87);
        bytes.extend(&(count as u64).to_be_bytes()[1..]);
        bytes.resize(place + apart, 0x80);
    }
    bytes.truncate(count);
    bytes
}

/// The records that are certain by the end of an upload, and where it then waits, as one number: after each piece the walk
/// goes on from its cursor.
fn walk(upload: &[u8], piece: usize, limit: usize) -> u64 {
    let (mut at, mut since, mut records) = (0, 0, 0);
    let (mut arrived, mut out) = (0, port::Stepped::default());
    while arrived < upload.len() {
        arrived = upload.len().min(arrived + piece);
        loop {
            port::arrive(&upload[..arrived], limit, at, since, &mut out);
            let [found, _, _, _, next, .., gone_on] = out;
            (at, since) = (next as usize, gone_on as usize);
            if found == 0 {
                break;
            }
            records += 1;
        }
    }
    records << 32 | at as u64
}

/// The table: ns a byte for uploads of n, 2n and 4n bytes.
pub fn table() {
    println!("\n| upload | bytes a piece | n | ns a byte at n | at 2n | at 4n | 4n to n |\n|---|---|---|---|---|---|---|");
    for (name, upload, more) in UPLOADS {
        for (piece, shortest) in PIECES {
            let passes: Vec<Pass> = [1, 2, 4].map(|times| pass(upload(shortest * times), piece, more)).into();
            let times = least(&passes.iter().collect::<Vec<_>>());
            let each: Vec<f64> = times.iter().zip([1.0, 2.0, 4.0]).map(|(time, times)| time / (shortest as f64 * times)).collect();
            let [n, two, four] = each[..] else { unreachable!("three lengths") };
            println!("| {name} | {piece} | {} KiB | {n:.4} | {two:.4} | {four:.4} | **{:.2}** |", shortest >> 10, four / n);
        }
    }
}

/// A pass over an upload.
fn pass(upload: Vec<u8>, piece: usize, more: usize) -> Pass {
    let limit = upload.len() + more;
    Box::new(move || walk(&upload, piece, limit))
}
