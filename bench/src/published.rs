//! The published Rust's side, and plain forms of it over a slice.

use std::io::{BufRead, BufReader, Cursor, Seek};

use oracle::mxf::reach;

use crate::inputs::KEY;

/// The buffer that the published walks read through.
const BUFFER_SIZE: usize = 128 * 1024;

/// A stream as the published functions take it: their reader, over bytes in memory.
fn stream(s: &[u8]) -> BufReader<Cursor<&[u8]>> {
    BufReader::with_capacity(BUFFER_SIZE, Cursor::new(s))
}

/// The place of the first key: `next_key` over a stream.
pub fn search(s: &[u8]) -> u64 {
    let mut stream = stream(s);
    reach::search(&mut stream, s.len() as u64);
    stream.stream_position().unwrap()
}

/// The number of keys from the first place on, each searched so many bytes after the one before: `next_key` over a stream,
/// whose buffer holds all of the bytes.
pub fn searches(s: &[u8], after: usize) -> u64 {
    let mut stream = stream(s);
    let mut found = 0;
    stream.fill_buf().unwrap();
    loop {
        stream.consume(after);
        reach::search(&mut stream, s.len() as u64);
        if stream.fill_buf().unwrap().is_empty() {
            return found;
        }
        found += 1;
    }
}

/// The place of the first key from a place on, by the published loop over a slice.
pub fn plain_search(s: &[u8], from: usize) -> usize {
    let mut last = 0u32;
    let found = s[from..].iter().position(|byte| {
        last = last << 8 | *byte as u32;
        last == u32::from_be_bytes(KEY)
    });
    found.map_or(s.len(), |i| from + i - 3)
}

/// The records of a walk as a sum over their values' places and lengths: `next_klv` over a stream.
pub fn walk(s: &[u8]) -> u64 {
    let mut stream = stream(s);
    let mut sum = 0u64;
    while let Some((_, length)) = reach::step(&mut stream, s.len() as u64) {
        sum = sum.wrapping_mul(31).wrapping_add(length ^ stream.stream_position().unwrap());
        stream.seek_relative(length as i64).unwrap();
    }
    sum
}

/// The same walk as plain Rust over a slice.
pub fn plain_walk(s: &[u8]) -> u64 {
    let (mut at, mut sum) = (0, 0u64);
    while let Some((value, length)) = plain_step(s, at) {
        sum = sum.wrapping_mul(31).wrapping_add((length ^ value) as u64);
        at = value + length;
    }
    sum
}

/// A step of it: the value's place and length.
fn plain_step(s: &[u8], mut at: usize) -> Option<(usize, usize)> {
    loop {
        if s.len().saturating_sub(at) < 17 {
            return None;
        }
        let mut from = at + 1;
        if s[at..at + 4] == KEY {
            let first = *s.get(at + 16)?;
            let more = if first < 0x80 { 0 } else { (first & 0x7f) as usize };
            from = at + 17;
            if more <= 8 {
                from += more;
                let number = s.get(at + 17..from)?.iter().fold(0, |number, byte| number << 8 | *byte as u64);
                let length = if first < 0x80 { first as u64 } else { number };
                if length <= (s.len() - from) as u64 {
                    return Some((from, length as usize));
                }
            }
        }
        at = plain_search(s, from.min(s.len()));
    }
}
