//! Cases of `outline`: sets of every coding, with runs in them that have sets again.

use super::forms::field;
use super::{numbered, room};
use crate::asked::outline::Outline;
use crate::cases::random::Random;
use crate::cases::sketch::{START, Sketch};
use crate::line::Case;

/// An end, a depth, a room near what is needed, and a file with sets.
pub fn outline(random: &mut Random) -> Case {
    let mut sketch = if random.percent(15) { Sketch::any(random) } else { file(random) };
    let end = if random.percent(60) { sketch.bytes.len() as u64 } else { sketch.end(random) };
    let depth = if random.percent(90) { random.between(1, 8) as u64 } else { *random.one(&[0, 9, 10, u64::MAX]) };
    let needed = match (end <= sketch.bytes.len() as u64, depth) {
        (true, 1..=8) => Outline::of(&sketch.bytes, end, depth).text.len(),
        _ => 0,
    };
    numbered([end, depth, room(random, needed)], sketch.bytes)
}

/// Records, most of them sets, cut or damaged now and then.
fn file(random: &mut Random) -> Sketch {
    let mut sketch = Sketch::default();
    for _ in 0..random.between(1, 3) {
        if random.percent(10) {
            sketch.between(random);
        }
        let place = sketch.bytes.len();
        let record = record(random, 4);
        sketch.bytes.extend(record);
        sketch.marks.extend([place, sketch.bytes.len()]);
    }
    if random.percent(15) {
        sketch.damage(random);
    }
    if random.percent(15) {
        sketch.cut(random);
    }
    sketch
}

/// A record that is a set of some coding, or a label near one.
fn record(random: &mut Random, levels: usize) -> Vec<u8> {
    let coding = *random.one(&[0x53, 0x13, 0x43, 0x43, 0x43, 0x63, 0x05]);
    let mut label = [0; 16];
    label[..4].copy_from_slice(&START);
    label[4] = if random.percent(92) { 2 } else { 1 };
    label[5] = coding;
    if random.percent(10) {
        label[random.below(16)] = random.byte();
    }
    let value = match random.below(10) {
        0 => small(random),
        _ => set(random, coding, levels),
    };
    [&label[..], &field(random, value.len() as u64), &value].concat()
}

/// The items of a set in a coding, mostly whole ones, runs in those of a 43h one.
fn set(random: &mut Random, coding: u8, levels: usize) -> Vec<u8> {
    let (tags, ber) = match coding {
        0x43 => (1, false),
        0x13 => (2, true),
        _ => (2, false),
    };
    let mut set = Vec::new();
    for _ in 0..random.below(4) {
        let run = random.percent(if coding == 0x43 { 75 } else { 25 });
        let value = if run && levels > 0 { run_of(random, levels - 1) } else { small(random) };
        let tag = if run { 0x88 } else { random.byte() };
        set.extend(vec![tag; tags]);
        let said = if random.percent(4) { value.len() + 1 } else { value.len() };
        set.extend(if ber { field(random, said as u64) } else { (said as u16).to_be_bytes().to_vec() });
        set.extend(value);
    }
    rest(random, &mut set);
    set
}

/// A run of records.
fn run_of(random: &mut Random, levels: usize) -> Vec<u8> {
    let mut run = Vec::new();
    for _ in 0..random.below(3) {
        run.extend(record(random, levels));
    }
    rest(random, &mut run);
    run
}

/// Puts a few bytes after the last item now and then.
fn rest(random: &mut Random, bytes: &mut Vec<u8>) {
    if random.percent(25) {
        let count = random.between(1, 18);
        bytes.extend(random.bytes(count));
    }
}

/// A few bytes.
fn small(random: &mut Random) -> Vec<u8> {
    let count = random.below(6);
    random.bytes(count)
}
