//! Cases of `ber`, `walk`, `step`, `klvs`, `arrive` and `tally`.

use super::random::Random;
use super::sketch::{LABELS, START, Sketch, encoded, label};

/// A first length byte of every kind with its bytes, some missing, some left over.
pub fn ber(random: &mut Random) -> Vec<u8> {
    if random.percent(3) {
        return Vec::new();
    }
    let first = if random.percent(60) { random.between(0x7e, 0x8b) as u8 } else { random.byte() };
    let more = (first & 0x7f).min(9) as usize;
    let count = if random.percent(60) { more } else { random.below(12) };
    let digits: Vec<u8> = match random.below(3) {
        0 => random.bytes(count),
        1 => random.edge().to_be_bytes().into_iter().cycle().skip(8 - more.min(8)).take(count).collect(),
        _ => (0..count).map(|_| *random.one(&[0, 0, 1, 0x7f, 0x80, 0xff])).collect(),
    };
    [vec![first], digits].concat()
}

/// An end and bytes, a value's end being near the end or the bytes' own now and then.
pub fn walk(random: &mut Random) -> (Vec<u64>, Vec<u8>) {
    let mut sketch = Sketch::any(random);
    let end = sketch.end(random);
    aimed(random, &mut sketch, end);
    (vec![end], sketch.bytes)
}

/// Makes a value end near an end or near the bytes' own, now and then.
fn aimed(random: &mut Random, sketch: &mut Sketch, end: u64) {
    if random.percent(30) {
        let count = sketch.bytes.len() as u64;
        let at = if random.percent(60) { end.min(count) } else { count };
        sketch.aim(random, at);
    }
}

/// An end, a cursor that may be anywhere, and bytes.
pub fn step(random: &mut Random) -> (Vec<u64>, Vec<u8>) {
    let mut sketch = Sketch::any(random);
    let end = sketch.end(random);
    aimed(random, &mut sketch, end);
    let count = sketch.bytes.len();
    let from = match random.below(20) {
        0..5 => 0,
        5..12 => sketch.near_mark(random) as u64,
        12..16 => random.below(count + 3) as u64,
        16 => end.saturating_add(random.below(4) as u64).saturating_sub(1),
        17 => end.saturating_sub(random.between(15, 19) as u64),
        18 => count as u64 + random.below(3) as u64,
        _ => random.edge(),
    };
    (vec![end, from], sketch.bytes)
}

/// A run, whose labels may be of any kind.
pub fn klvs(random: &mut Random) -> Vec<u8> {
    if random.percent(40) {
        return Sketch::any(random).bytes;
    }
    let mut sketch = Sketch::default();
    for _ in 0..random.between(0, 5) {
        let place = sketch.bytes.len();
        sketch.element(random);
        if random.percent(50) {
            let other = random.bytes(16);
            sketch.bytes[place..place + 16].copy_from_slice(&other);
        }
    }
    if random.percent(30) {
        let count = sketch.bytes.len() as u64;
        sketch.aim(random, count);
    }
    if random.percent(40) {
        sketch.cut(random);
    }
    sketch.bytes
}

/// A limit and bytes, a value's end being near the limit now and then.
pub fn arrive(random: &mut Random) -> (Vec<u64>, Vec<u8>) {
    let mut sketch = Sketch::any(random);
    if random.percent(60) {
        sketch.cut(random);
    }
    let count = sketch.bytes.len() as u64;
    let limit = match random.below(10) {
        0..3 => count,
        3..7 => count + random.below(40) as u64,
        7 => count.saturating_sub(random.below(3) as u64),
        8 => count.saturating_add(random.edge()),
        _ => 1 << 16,
    };
    if random.percent(40) {
        sketch.aim(random, limit);
    }
    (vec![limit], sketch.bytes)
}

/// What byte 5 of a label is: how a set's items are coded, or something else.
const CODINGS: [u8; 8] = [0x13, 0x43, 0x53, 0x13, 0x53, 0x63, 0x05, 0x52];

/// A label with a byte at 8, a coding at 5 and mostly 2 at 4.
fn set_label(random: &mut Random, kind: u8) -> [u8; 16] {
    let mut label = [0; 16];
    label[..4].copy_from_slice(&START);
    label[4] = *random.one(&[2, 2, 2, 1]);
    label[5] = *random.one(&CODINGS);
    label[8] = kind;
    label
}

/// Records whose labels come again, at times more than 64 kinds of them.
pub fn tally(random: &mut Random) -> Vec<u8> {
    if random.percent(50) {
        return Sketch::any(random).bytes;
    }
    let many = random.percent(6);
    let kinds = if many { random.between(60, 90) } else { random.between(1, 8) };
    let labels: Vec<[u8; 16]> = (0..kinds).map(|kind| kind_of_label(random, kind, many)).collect();
    let count = random.between(0, kinds + kinds / 2 + 2);
    let mut bytes = Vec::new();
    for turn in 0..count {
        let mut label = if turn < kinds && random.percent(80) { labels[turn] } else { *random.one(&labels) };
        if random.percent(20) {
            label[7] = random.byte();
        }
        if matches!(label[4], 1 | 2) && random.percent(30) {
            label[5] = *random.one(&CODINGS);
        }
        bytes.extend(label);
        let size = random.below(3);
        bytes.extend(encoded(size as u64, 1));
        bytes.resize(bytes.len() + size, 0);
    }
    bytes
}

/// A label that differs from those of other kinds in one byte: always where there are many, else mostly.
fn kind_of_label(random: &mut Random, kind: usize, many: bool) -> [u8; 16] {
    match random.below(6) {
        0 if !many => label(random),
        1 if !many => LABELS[kind % LABELS.len()],
        2 if !many => set_label(random, 0),
        3 => set_label(random, kind as u8),
        _ => {
            let mut label = [0; 16];
            label[..4].copy_from_slice(&START);
            label[*random.one(if many { &[4, 6, 8, 15] } else { &[6, 7, 7, 8] })] = kind as u8;
            label
        }
    }
}
