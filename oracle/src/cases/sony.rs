//! Cases of `anc`, `set` and `sony`.

use super::arri::word;
use super::random::Random;
use super::sketch::{LABELS, PIECES, Sketch};
use super::tables::damaged;

pub const ANCILLARY: [u8; 16] = LABELS[2];

/// An ST 436 element, its counts right mostly.
pub fn anc(random: &mut Random) -> Vec<u8> {
    if random.percent(4) {
        let size = random.below(135);
        return damaged(random, PIECES[1][548..548 + size].to_vec());
    }
    let bytes = element(random);
    if random.percent(30) { damaged(random, bytes) } else { bytes }
}

/// A count and lines.
pub fn element(random: &mut Random) -> Vec<u8> {
    let lines = if random.percent(10) { 0 } else { random.between(1, 4) };
    let count = if random.percent(75) { lines as u16 } else { *random.one(&[0, 1, 2, 5, 0x100, 0xffff]) };
    let mut bytes = count.to_be_bytes().to_vec();
    for _ in 0..lines {
        bytes.extend(line(random));
    }
    bytes
}

/// A line: its array of bytes mostly begins 43 05 and has as many samples as it says.
fn line(random: &mut Random) -> Vec<u8> {
    let size = if random.percent(25) { random.below(6) } else { random.between(4, 16) };
    let mut array = random.bytes(size);
    for (at, byte) in [0x43, 0x05].into_iter().enumerate() {
        if at < size && random.percent(95) {
            array[at] = byte;
        }
    }
    let samples = match random.below(8) {
        0 => random.below(7) as u16,
        1 => (size as u16 + random.below(3) as u16).saturating_sub(1),
        2 => *random.one(&[3, 4, 5, 0xffff]),
        _ => size as u16,
    };
    let arrays = match random.below(30) {
        0 => 0,
        1 => size as u32 + 1,
        2 => word(random),
        _ => size as u32,
    };
    let length = if random.percent(95) { 1 } else { *random.one(&[0, 2, 0x0100_0000, 0x0001_0001]) };
    [&random.bytes(4)[..], &samples.to_be_bytes(), &arrays.to_be_bytes(), &u32::to_be_bytes(length), &array].concat()
}

/// Items of a descriptor, of the right length mostly, some coming again.
pub fn set(random: &mut Random) -> Vec<u8> {
    const ITEMS: [(u16, usize); 18] = [
        (0x0202, 8),
        (0x1502, 2),
        (0x1501, 8),
        (0x1503, 1),
        (0x3001, 8),
        (0x3002, 8),
        (0x3202, 4),
        (0x3203, 4),
        (0x3204, 4),
        (0x3205, 4),
        (0x3206, 4),
        (0x3207, 4),
        (0x3208, 4),
        (0x3209, 4),
        (0x320a, 4),
        (0x320b, 4),
        (0x320e, 8),
        (0x3306, 4),
    ];
    if random.percent(3) {
        let size = random.below(150);
        return damaged(random, PIECES[0][1956..1956 + size].to_vec());
    }
    let few = random.percent(50).then(|| [*random.one(&ITEMS), *random.one(&ITEMS)]);
    let mut bytes = Vec::new();
    for _ in 0..random.below(6) {
        let rate = random.percent(25);
        let (tag, size) = match &few {
            _ if rate => (*random.one(&[0x3001, 0x320e]), 8),
            Some(few) => *random.one(few),
            None => *random.one(&ITEMS),
        };
        let tag = if random.percent(5) { random.draw() as u16 } else { tag };
        let size = if random.percent(15) { random.below(12) } else { size };
        let said = if random.percent(2) { size + 1 } else { size };
        let value: Vec<u8> = [part(random), part(random), part(random)].concat();
        bytes.extend(tag.to_be_bytes());
        bytes.extend((said as u16).to_be_bytes());
        bytes.extend(&value[..size]);
    }
    if random.percent(15) {
        let more = random.below(4);
        bytes.extend(random.bytes(more));
    }
    if random.percent(10) { damaged(random, bytes) } else { bytes }
}

/// Four bytes of a number, often 0.
fn part(random: &mut Random) -> [u8; 4] {
    if random.percent(25) { [0; 4] } else { word(random).to_be_bytes() }
}

/// An end and ST 436 elements among others.
pub fn sony(random: &mut Random) -> (Vec<u64>, Vec<u8>) {
    let mut sketch = Sketch::default();
    for _ in 0..random.between(1, 4) {
        if random.percent(40) {
            sketch.element(random);
        } else {
            put_frame(random, &mut sketch);
        }
    }
    finished(random, sketch)
}

/// Puts an ST 436 element, its label now and then not quite.
pub fn put_frame(random: &mut Random, sketch: &mut Sketch) {
    let mut label = ANCILLARY;
    if random.percent(15) {
        label[*random.one(&[7, 13, 15])] = random.below(4) as u8;
    }
    let value = element(random);
    sketch.put(random, label, &value);
}

/// An end and the bytes of a sketch, damaged or cut now and then, seldom after a piece of a real file.
pub fn finished(random: &mut Random, mut sketch: Sketch) -> (Vec<u64>, Vec<u8>) {
    if random.percent(4) {
        let mut whole = Sketch::default();
        whole.piece(random);
        whole.bytes.append(&mut sketch.bytes);
        sketch = whole;
    }
    if random.percent(25) {
        sketch.damage(random);
    }
    if random.percent(20) {
        sketch.cut(random);
    }
    (vec![sketch.end(random)], sketch.bytes)
}
