//! The rows of the table: what is done, by the port and by the Rust, and the ratio that is wanted.

use memchr::memmem;

use crate::inputs::*;
use crate::measure::Pass;
use crate::{index, port, published, tables, values};

/// A row: the same work by the port and by the Rust, and by others for interest.
pub struct Row {
    pub part: &'static str,
    pub name: String,
    /// The ratio of times, port to Rust, that is wanted at most.
    pub target: Option<f64>,
    pub port: Pass,
    pub rust: Pass,
    pub others: Vec<(&'static str, Pass)>,
}

/// All rows.
pub fn rows() -> Vec<Row> {
    let mut rows = Vec::new();
    searches(&mut rows);
    near_keys(&mut rows);
    walks(&mut rows);
    batches(&mut rows);
    tables::rows(&mut rows);
    values::rows(&mut rows);
    index::rows(&mut rows);
    rows
}

/// Bytes that live as long as the program, for passes to share.
pub fn kept(bytes: Vec<u8>) -> &'static [u8] {
    bytes.leak()
}

/// Searches of 1 MiB that has no key.
fn searches(rows: &mut Vec<Row>) {
    let inputs = [
        ("random bytes", random(MIB), 0.13),
        ("zeros", vec![0; MIB], 0.13),
        ("half of the bytes 06", half(0x06, MIB), 0.13),
        ("`06 0e 2b` repeated", repeated(&[0x06, 0x0e, 0x2b], MIB), 0.13),
        ("hostile: half of the bytes 0e", half(0x0e, MIB), 0.4),
        ("hostile: `06 34` repeated", repeated(&[0x06, 0x34], MIB), 0.4),
        ("hostile: `06 0e 2c 34` repeated", repeated(&[0x06, 0x0e, 0x2c, 0x34], MIB), 0.4),
        ("hostile: `34 06 06 34 0e 0e` repeated", repeated(&[0x34, 0x06, 0x06, 0x34, 0x0e, 0x0e], MIB), 0.4),
        ("hostile: `0e 00 34` and 10 zeros repeated", repeated(&[0x0e, 0, 0x34, 0, 0, 0, 0, 0, 0, 0, 0, 0, 0], MIB), 0.4),
        ("hostile: `0e 00 34` in each 64 bytes", pairs(16, MIB), 0.4),
        ("hostile: `0e 00 34` in half of the 64 bytes, by chance", pairs(8, MIB), 0.4),
        ("hostile: `0e 00 34` in 7 of 8 of the 64 bytes, by chance", pairs(14, MIB), 0.4),
    ];
    for (name, bytes, target) in inputs {
        let s = kept(bytes);
        rows.push(Row {
            part: "search of 1 MiB without a key",
            name: name.into(),
            target: Some(target),
            port: Box::new(|| port::next_key(s, 0) as u64),
            rust: Box::new(|| published::search(s)),
            others: vec![
                ("its loop over a slice", Box::new(|| published::plain_search(s, 0) as u64)),
                ("glibc memmem", Box::new(|| glibc_memmem(s) as u64)),
                ("memchr", Box::new(|| memmem::find(s, &KEY).unwrap_or(s.len()) as u64)),
            ],
        });
    }
}

unsafe extern "C" {
    #[link_name = "memmem"]
    fn c_memmem(s: *const u8, s_len: usize, part: *const u8, part_len: usize) -> *const u8;
}

/// The first key by the C library's search.
fn glibc_memmem(s: &[u8]) -> usize {
    let found = unsafe { c_memmem(s.as_ptr(), s.len(), KEY.as_ptr(), KEY.len()) };
    if found.is_null() { s.len() } else { found as usize - s.as_ptr() as usize }
}

/// Searches that find a key soon: keys so far apart that each is found a given number of bytes on.
fn near_keys(rows: &mut Vec<Row>) {
    for distance in [1, 2, 3, 4, 6, 8, 12, 16, 24, 32, 48, 64, 128] {
        let apart = 4.max(distance + 1);
        let after = apart - distance;
        let s = kept(keys_every(apart, 1 << 16));
        let all = move |find: fn(&[u8], usize) -> usize| {
            let (mut at, mut found) = (0, 0);
            loop {
                at = find(s, at + after);
                if at >= s.len() {
                    return found;
                }
                found += 1;
            }
        };
        rows.push(Row {
            part: "key soon found",
            name: format!("{distance} byte{} on", if distance == 1 { "" } else { "s" }),
            target: (distance <= 16).then_some(1.1),
            port: Box::new(move || all(port::next_key)),
            rust: Box::new(move || published::searches(s, after)),
            others: vec![("its loop over a slice", Box::new(move || all(|s, from| published::plain_search(s, from.min(s.len())))))],
        });
    }
}

/// The records of a walk, one exported call a record, as a sum over their values' places and lengths.
fn walk(s: &[u8]) -> u64 {
    let (mut at, mut since, mut sum) = (0, 0, 0u64);
    let mut out = port::Stepped::default();
    loop {
        port::step(s, at, since, &mut out);
        let [found, _, value, length, next, .., gone_on] = out;
        if found == 0 {
            return sum;
        }
        sum = sum.wrapping_mul(31).wrapping_add(length ^ value);
        (at, since) = (next as usize, gone_on as usize);
    }
}

/// Walks over 1 MiB.
fn walks(rows: &mut Vec<Row>) {
    let inputs = [
        ("small values (0 to 20 bytes)", records(MIB, 1, (0, 20), (0, 0)), Some(0.8)),
        ("values of 4 bytes", records(MIB, 1, (4, 4), (0, 0)), None),
        ("small values (0 to 40 bytes), lengths of 4 bytes", records(MIB, 4, (0, 40), (0, 0)), None),
        ("large values (65,280 bytes)", records(MIB, 4, (0xff00, 0xff00), (0, 0)), None),
        ("10 to 40 bytes of junk between small records", records(MIB, 1, (0, 20), (10, 40)), Some(0.8)),
        ("1 to 64 bytes of junk between small records", records(MIB, 1, (0, 20), (1, 64)), None),
        ("1,000 bytes of junk between small records", records(MIB, 1, (0, 20), (1000, 1000)), Some(0.2)),
        ("hostile: adjoining keys with no length", no_lengths(MIB), Some(0.8)),
        ("hostile: keys with no length, 50 bytes apart", no_lengths_every(50, MIB), Some(1.0)),
        ("hostile: keys with no length, 113 bytes apart", no_lengths_every(113, MIB), Some(1.0)),
    ];
    for (name, bytes, target) in inputs {
        let s = kept(bytes);
        rows.push(Row {
            part: "step, one exported call a record, 1 MiB",
            name: name.into(),
            target,
            port: Box::new(|| walk(s)),
            rust: Box::new(|| published::walk(s)),
            others: vec![("plain Rust over a slice", Box::new(|| published::plain_walk(s)))],
        });
    }
}

/// The same sum, by exported calls that put up to 1,000 records each.
fn batch_walk(s: &[u8]) -> u64 {
    let (mut at, mut since, mut sum) = (0, 0, 0u64);
    let mut room = [0; 1000 * port::EACH];
    loop {
        let [count, next, gone_on] = port::records(s, at, since, &mut room);
        for record in room.chunks_exact(port::EACH).take(count as usize) {
            sum = sum.wrapping_mul(31).wrapping_add(record[2] ^ record[1]);
        }
        if (count as usize) < room.len() / port::EACH {
            return sum;
        }
        (at, since) = (next as usize, gone_on as usize);
    }
}

/// Walks over 1 MiB in batches.
fn batches(rows: &mut Vec<Row>) {
    let inputs = [
        ("small values (0 to 20 bytes)", records(MIB, 1, (0, 20), (0, 0))),
        ("10 to 40 bytes of junk between small records", records(MIB, 1, (0, 20), (10, 40))),
    ];
    for (name, bytes) in inputs {
        let s = kept(bytes);
        rows.push(Row {
            part: "batches of 1,000 records a call, 1 MiB",
            name: name.into(),
            target: Some(0.8),
            port: Box::new(|| batch_walk(s)),
            rust: Box::new(|| published::walk(s)),
            others: vec![("plain Rust over a slice", Box::new(|| published::plain_walk(s)))],
        });
    }
}
