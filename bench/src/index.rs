//! The rows of an index: look-ups in the port's rows and columns beside a search of the Rust's own in a vector of starts.

use crate::inputs::Random;
use crate::port::{self, Entry};
use crate::rows::{Row, kept};

/// The records of the large index, and the look-ups of a pass.
const RECORDS: usize = 1_000_000;
const LOOKUPS: usize = 4096;

const PART: &str = "look-up in 1,000,000 records, 4,096 of them";
const WALKED: &str = "every byte of a real file asked for";

/// The rows.
pub fn rows(rows: &mut Vec<Row>) {
    large(rows);
    walked(rows);
}

/// An index in one layout, and the bytes that it takes.
fn made(entries: &[Entry], columns: bool) -> &'static [u8] {
    let mut bytes = vec![0; 16 * entries.len()];
    for (used, entry) in entries.iter().enumerate() {
        assert_eq!(port::index_add(&mut bytes, columns, used, entry), 0);
    }
    kept(bytes)
}

/// Where an entry ends.
fn end(entry: &Entry) -> u64 {
    entry[0] + 16 + entry[1] + entry[3]
}

/// The number of the record that covers a position, and 1, or 0: by a search of the starts.
fn searched(starts: &[u64], ends: &[u64], position: u64) -> u64 {
    let at = match starts.binary_search(&position) {
        Ok(at) => at + 1,
        Err(at) => at,
    };
    if at > 0 && position < ends[at - 1] { at as u64 } else { 0 }
}

/// So many look-ups at positions up to an end; where they are chained, each position goes by the answer before it.
fn lookups(end: u64, chained: bool, find: impl Fn(u64) -> u64) -> u64 {
    let (mut state, mut sum) = (1, 0);
    for _ in 0..LOOKUPS {
        let found = find((u128::from(state) * u128::from(end) >> 64) as u64);
        sum ^= found;
        let mixed: u64 = if chained { state ^ found } else { state };
        state = mixed.wrapping_mul(0x9e37_79b9_7f4a_7c15).rotate_left(31) ^ 0x1234_5678;
    }
    sum ^ state
}

/// Look-ups in many records, of up to 1,000 bytes each.
fn large(rows: &mut Vec<Row>) {
    let mut random = Random::new();
    let mut at = 0;
    let entries: Vec<Entry> = (0..RECORDS)
        .map(|_| {
            let entry = [at, 1, 4095, random.between(0, 999) as u64];
            at = end(&entry);
            entry
        })
        .collect();
    let starts: &'static [u64] = entries.iter().map(|entry| entry[0]).collect::<Vec<_>>().leak();
    let ends: &'static [u64] = entries.iter().map(end).collect::<Vec<_>>().leak();
    for (layout, columns) in [("columns", true), ("rows", false)] {
        let index = made(&entries, columns);
        for (way, chained) in [("each position by the answer before", true), ("positions that do not wait for an answer", false)] {
            rows.push(Row {
                part: PART,
                name: format!("{layout}, {way}"),
                target: Some(1.5),
                port: Box::new(move || lookups(at, chained, |position| port::index_find(index, columns, RECORDS, position))),
                rust: Box::new(move || lookups(at, chained, |position| searched(starts, ends, position))),
                others: Vec::new(),
            });
        }
    }
}

/// An index of a walk's records, and every byte of the file asked for.
fn walked(rows: &mut Vec<Row>) {
    let file = kept(std::fs::read(concat!(env!("CARGO_MANIFEST_DIR"), "/../tests/files/gst_m2v.mxf")).unwrap());
    let (mut at, mut since, mut out) = (0, 0, port::Stepped::default());
    let mut entries: Vec<Entry> = Vec::new();
    loop {
        port::step(file, at, since, &mut out);
        if out[0] == 0 {
            break;
        }
        entries.push([out[1], out[5], 4095, out[3]]);
        (at, since) = (out[4] as usize, out[8] as usize);
    }
    let starts: &'static [u64] = entries.iter().map(|entry| entry[0]).collect::<Vec<_>>().leak();
    let ends: &'static [u64] = entries.iter().map(end).collect::<Vec<_>>().leak();
    let (used, count) = (entries.len(), file.len() as u64);
    for (layout, columns) in [("columns", true), ("rows", false)] {
        let index = made(&entries, columns);
        rows.push(Row {
            part: WALKED,
            name: format!("{layout}, {used} records, {count} bytes"),
            target: None,
            port: Box::new(move || {
                (0..count).fold(0, |sum, position| sum * 31 % 1_000_003 + port::index_find(index, columns, used, position))
            }),
            rust: Box::new(move || (0..count).fold(0, |sum, position| sum * 31 % 1_000_003 + searched(starts, ends, position))),
            others: Vec::new(),
        });
    }
}
