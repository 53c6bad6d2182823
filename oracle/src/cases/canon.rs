//! Cases of `packs`, `package`, `sequence` and `canon`.

use super::random::Random;
use super::sketch::{LABELS, Sketch, encoded, form};
use super::sony::{finished, put_frame};
use super::tables::damaged;

const PACKAGE_METADATA: [u8; 16] = LABELS[5];
const SEQUENCE_INFO: [u8; 16] = LABELS[6];
const PRIVATE_CAMERA_METADATA: [u8; 16] = LABELS[7];

/// A Private Camera Metadata, some of its packs coming again.
pub fn packs(random: &mut Random) -> Vec<u8> {
    let bytes = camera_metadata(random, 6);
    if random.percent(15) { damaged(random, bytes) } else { bytes }
}

/// A count and fewer packs than a bound.
fn camera_metadata(random: &mut Random, bound: usize) -> Vec<u8> {
    if random.percent(2) {
        return Vec::new();
    }
    let packs = random.below(bound);
    let count = if random.percent(75) { packs } else { *random.one(&[0, 1, 2, 255]) };
    let again = random.percent(40).then(|| random.below(22) as u8);
    let mut bytes = vec![count as u8];
    for _ in 0..packs {
        let id = again.unwrap_or_else(|| id(random));
        bytes.push(id);
        bytes.extend(pack(random));
    }
    if random.percent(10) {
        let more = random.between(1, 4);
        bytes.extend(random.bytes(more));
    }
    bytes
}

/// A pack's number, of one with several values more often.
fn id(random: &mut Random) -> u8 {
    match random.below(20) {
        0 => random.byte(),
        1..7 => *random.one(&[2, 5, 7, 7, 10, 11, 11]),
        _ => random.below(22) as u8,
    }
}

/// The four bytes of a pack, where something changes.
fn pack(random: &mut Random) -> [u8; 4] {
    match random.below(5) {
        0..2 => (random.draw() as u32).to_be_bytes(),
        2 => {
            let half = |random: &mut Random| *random.one(&[0u16, 1, 28, 0x7fff, 0x8000, 0x8001, 0x0fff, 0xfff0, 65533, 65534, 65535]);
            let (a, b) = (half(random).to_be_bytes(), half(random).to_be_bytes());
            [a[0], a[1], b[0], b[1]]
        }
        3 => (*random.one(&[0u32, 1, 0xffff_ffff, 0xffff_fffe, 0xffff_fffd, 0x7fff_ffff, 0x8000_0000])).to_be_bytes(),
        _ => std::array::from_fn(|_| *random.one(&[0u8, 1, 3, 0x1e, 0x1f, 0x20, 0x40, 0x7f, 0x80, 0xc0, 0xe0, 0xf0, 0xff])),
    }
}

/// A package set with Private Camera Metadata in its 88h items.
pub fn package(random: &mut Random) -> Vec<u8> {
    let bytes = package_set(random);
    if random.percent(25) { damaged(random, bytes) } else { bytes }
}

/// Items with a tag of 1 and a length of 2.
fn package_set(random: &mut Random) -> Vec<u8> {
    let mut bytes = Vec::new();
    for _ in 0..random.between(1, 3) {
        let value = if random.percent(85) { run(random) } else { few_bytes(random) };
        let said = if random.percent(4) { random.below(80) } else { value.len() };
        bytes.push(if random.percent(90) { 0x88 } else { random.byte() });
        bytes.extend((said as u16).to_be_bytes());
        bytes.extend(value);
    }
    bytes
}

/// A run with Private Camera Metadata in it, its label now and then another.
fn run(random: &mut Random) -> Vec<u8> {
    let mut bytes = Vec::new();
    for _ in 0..random.between(1, 2) {
        let mut label = PRIVATE_CAMERA_METADATA;
        if random.percent(25) {
            label[*random.one(&[7, 7, 7, 0, 15])] = random.byte();
        }
        let value = camera_metadata(random, 3);
        let said = if random.percent(3) { random.edge() } else { value.len() as u64 };
        let form = form(random, said);
        bytes.extend(label);
        bytes.extend(encoded(said, form));
        bytes.extend(value);
    }
    bytes
}

/// A few bytes of any kind.
fn few_bytes(random: &mut Random) -> Vec<u8> {
    let count = random.below(10);
    random.bytes(count)
}

/// A sequence info, some of its items coming again.
pub fn sequence(random: &mut Random) -> Vec<u8> {
    let bytes = sequence_info(random);
    if random.percent(25) { damaged(random, bytes) } else { bytes }
}

/// Items with a tag of 2 and a length of 2, positions mostly having 8 bytes.
fn sequence_info(random: &mut Random) -> Vec<u8> {
    let mut bytes = Vec::new();
    for _ in 0..random.below(6) {
        let tag = *random.one(&[0x1501u16, 0x1501, 0x1201, 0x1201, 0x3c0a, 0x4401, 0x3c0b, 0x0115]);
        let value = match random.below(5) {
            0 => few_bytes(random),
            _ if tag == 0x3c0a => random.bytes(16),
            _ => random.edge().to_be_bytes().to_vec(),
        };
        let said = if random.percent(3) { random.draw() as u16 } else { value.len() as u16 };
        bytes.extend(tag.to_be_bytes());
        bytes.extend(said.to_be_bytes());
        bytes.extend(value);
    }
    bytes
}

/// An end, and Canon's values, ST 436 elements and others.
pub fn canon(random: &mut Random) -> (Vec<u64>, Vec<u8>) {
    let mut sketch = Sketch::default();
    for _ in 0..random.between(1, 4) {
        match random.below(10) {
            0 => sketch.element(random),
            1..4 => put_frame(random, &mut sketch),
            _ => put_value(random, &mut sketch),
        }
    }
    finished(random, sketch)
}

/// Puts a package set or a sequence info, its label's byte at 7 changed now and then.
fn put_value(random: &mut Random, sketch: &mut Sketch) {
    let is_package = random.percent(60);
    let mut label = if is_package { PACKAGE_METADATA } else { SEQUENCE_INFO };
    if random.percent(25) {
        label[*random.one(&[7, 7, 7, 15])] = random.byte();
    }
    let value = if is_package { package_set(random) } else { sequence_info(random) };
    sketch.put(random, label, &value);
}
