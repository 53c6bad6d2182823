//! Cases of `dynamic`, `ofdynamic`, `alexa` and `arri`.

use super::random::Random;
use super::sketch::{LABELS, Sketch, encoded, form};
use super::tables::damaged;

pub const PICTURE_METADATA: [u8; 16] = LABELS[3];
pub const FRAME_DATA: [u8; 16] = LABELS[4];
const LENS_UNIT_SET: [u8; 16] = LABELS[8];

/// The places of the fields of 4 bytes in ARRI's 256.
pub const FIELDS: [usize; 11] = [0x50, 0x54, 0xa4, 0xa8, 0xac, 0xc0, 0xe0, 0xe4, 0xe8, 0xec, 0xfc];

/// Numbers of 32 bits where something changes: sentinels, signs, what an f32 rounds, infinities and what is none.
const EDGES: [u32; 24] = [
    0,
    1,
    2,
    999,
    1000,
    1001,
    0xffff_ffff,
    0xffff_fffe,
    0xffff_fffd,
    0x7fff_ffff,
    0x8000_0000,
    0x8000_0001,
    16_777_215,
    16_777_216,
    16_777_217,
    16_777_219,
    33_554_433,
    0x7f80_0000,
    0xff80_0000,
    0x7fc0_0000,
    0x7f7f_ffff,
    0x0080_0000,
    0x3f80_0000,
    0x0000_ffff,
];

/// A number of 32 bits, where something changes or of any size.
pub fn word(random: &mut Random) -> u32 {
    match random.below(4) {
        0 => *random.one(&EDGES),
        1 => random.draw() as u32,
        2 => random.draw() as u32 >> random.below(32),
        // Halfway between two f32, or one off it
        _ => {
            let dropped = random.between(1, 8);
            let kept = (random.draw() as u32 >> 9 | 1 << 23) >> random.below(2);
            (kept << dropped | 1 << (dropped - 1)).wrapping_add(random.below(3) as u32).wrapping_sub(1)
        }
    }
}

/// The bits of an f32: usual, or where something changes.
fn float(random: &mut Random) -> u32 {
    match random.below(4) {
        0 => word(random),
        1 => ((random.below(40_001) as f32 - 20_000.0) / 1000.0).to_bits(),
        2 => (10.0f32).to_bits().wrapping_add(random.below(3) as u32).wrapping_sub(1),
        _ => (random.below(30_000) as f32).to_bits(),
    }
}

/// ARRI's 256 bytes: nothing set, zeros or anything, with fields where something changes.
pub fn block(random: &mut Random) -> Vec<u8> {
    let mut bytes = match random.below(3) {
        0 => vec![0; 256],
        1 => vec![0xff; 256],
        _ => random.bytes(256),
    };
    for at in FIELDS {
        if random.percent(70) {
            let number = if matches!(at, 0x54 | 0xe8 | 0xec) && random.percent(50) { float(random) } else { word(random) };
            bytes[at..at + 4].copy_from_slice(&number.to_be_bytes());
        }
    }
    for at in (0xb0..0xbc).step_by(2) {
        if random.percent(50) {
            let number = *random.one(&[0, 1, 0xfffe, 0xffff, 0x8000]);
            bytes[at..at + 2].copy_from_slice(&u16::to_be_bytes(number));
        }
    }
    if random.percent(80) {
        let version = *random.one(&[0, 1, 2, 3, 4, 0x10000, 0x20000, 0x2ffff, 0x30000, 0xffff, 0xffff_ffff, 0x8003_0000]);
        bytes[0xfc..].copy_from_slice(&u32::to_be_bytes(version));
    }
    bytes
}

/// An element that has ARRI's 256 bytes in the usual place, or near it, or not.
pub fn dynamic(random: &mut Random) -> Vec<u8> {
    let count = random.between(1, 3);
    let bytes = picture_metadata(random, count, true);
    if random.percent(40) { damaged(random, bytes) } else { bytes }
}

/// So many items with a tag of 1 and a length of 2, those of 88h holding runs.
pub fn picture_metadata(random: &mut Random, count: usize, full: bool) -> Vec<u8> {
    let mut bytes = Vec::new();
    for _ in 0..count {
        let run = random.percent(75);
        let value = match run {
            true => lens_run(random, full),
            false => small_bytes(random, 9),
        };
        let said = if random.percent(4) { random.draw() as u16 } else { value.len() as u16 };
        bytes.push(if run && random.percent(92) { 0x88 } else { random.byte() });
        bytes.extend(said.to_be_bytes());
        bytes.extend(value);
    }
    bytes
}

/// A run with lens unit sets in it.
fn lens_run(random: &mut Random, full: bool) -> Vec<u8> {
    let mut bytes = Vec::new();
    for _ in 0..random.between(1, 2) {
        let mut label = LENS_UNIT_SET;
        if random.percent(20) {
            label[7] = random.byte();
        }
        if random.percent(8) {
            label[random.below(16)] ^= 1;
        }
        let set = lens_set(random, full);
        bytes.extend(label);
        bytes.extend(length(random, set.len() as u64));
        bytes.extend(set);
    }
    bytes
}

/// Items with lengths of 2, the one of 8200h often of 256 bytes, one less or one more.
fn lens_set(random: &mut Random, full: bool) -> Vec<u8> {
    let mut bytes = Vec::new();
    for _ in 0..random.between(1, 2) {
        let wanted = random.percent(70);
        let tag = if wanted { 0x8200 } else { *random.one(&[0x8201, 0x0082, 0x8100]) };
        let size = if !wanted || !full && random.percent(90) { random.below(9) } else { *random.one(&[255, 256, 256, 256, 256, 257]) };
        let said = if random.percent(4) { random.below(600) } else { size };
        bytes.extend(u16::to_be_bytes(tag));
        bytes.extend((said as u16).to_be_bytes());
        let mut value = block(random);
        value.resize(size, 0);
        bytes.extend(value);
    }
    bytes
}

/// A length in any form, seldom none.
fn length(random: &mut Random, number: u64) -> Vec<u8> {
    if random.percent(2) {
        return vec![random.between(0x80, 0xff) as u8];
    }
    let form = form(random, number);
    encoded(number, form)
}

/// Fewer bytes than a bound.
fn small_bytes(random: &mut Random, bound: usize) -> Vec<u8> {
    let count = random.below(bound);
    random.bytes(count)
}

/// An ALEXA 35's element: sets of items, some coming again.
pub fn alexa(random: &mut Random) -> Vec<u8> {
    let sets = random.between(1, 2);
    let bytes = alexa_sets(random, sets);
    if random.percent(25) { damaged(random, bytes) } else { bytes }
}

/// So many sets of ARRI's items, their own labels being of any kind.
pub fn alexa_sets(random: &mut Random, count: usize) -> Vec<u8> {
    let mut bytes = Vec::new();
    for _ in 0..count {
        let mut set = Vec::new();
        for _ in 0..random.between(0, 5) {
            set.extend(alexa_item(random));
        }
        bytes.extend(random.bytes(16));
        bytes.extend(length(random, set.len() as u64));
        bytes.extend(set);
    }
    bytes
}

/// One of ARRI's items, its value of the right size mostly.
fn alexa_item(random: &mut Random) -> Vec<u8> {
    const ITEMS: [(u8, u8); 19] = [
        (0x0c, 3),
        (0x0c, 4),
        (0x0d, 1),
        (0x0d, 2),
        (0x0d, 3),
        (0x0d, 5),
        (0x0d, 6),
        (0x0d, 7),
        (0x0d, 8),
        (0x0d, 9),
        (0x0d, 10),
        (0x0d, 11),
        (0x0d, 12),
        (0x0e, 1),
        (0x0e, 3),
        (0x0e, 5),
        (0x0e, 6),
        (0x0e, 7),
        (0x0e, 8),
    ];
    let (set, item) = if random.percent(95) { *random.one(&ITEMS) } else { (random.between(0x0b, 0x0f) as u8, random.below(16) as u8) };
    let mut label = hex_literal::hex!("060e2b34 0101010e 0e170102 00000000");
    (label[12], label[13]) = (set, item);
    for free in [4, 5, 6, 7, 14, 15] {
        if random.percent(5) {
            label[free] = random.byte();
        }
    }
    if random.percent(4) {
        label[random.below(14)] ^= 1 << random.below(8);
    }
    let value = alexa_value(random, set, item);
    [&label[..], &length(random, value.len() as u64), &value].concat()
}

/// A value for one of ARRI's items.
fn alexa_value(random: &mut Random, set: u8, item: u8) -> Vec<u8> {
    if random.percent(12) {
        return small_bytes(random, 11);
    }
    match (set, item) {
        (0x0e, 1 | 7) => {
            let denominator = if random.percent(20) { 0 } else { word(random) };
            [word(random).to_be_bytes(), denominator.to_be_bytes()].concat()
        }
        (0x0e, 3 | 5) | (0x0d, 7..=12) => small_bytes(random, 10),
        (0x0c, _) | (0x0e, 6 | 8) => float(random).to_be_bytes().to_vec(),
        _ => word(random).to_be_bytes().to_vec(),
    }
}

/// An end and elements of frames among others.
pub fn arri(random: &mut Random) -> (Vec<u64>, Vec<u8>) {
    let mut sketch = Sketch::default();
    let near_the_limit = random.below(250) == 0;
    for _ in 0..random.between(1, 3) {
        if random.percent(25) {
            sketch.element(random);
        }
        let large = near_the_limit && random.percent(50);
        frame(random, &mut sketch, large);
    }
    if random.percent(20) {
        sketch.damage(random);
    }
    if random.percent(20) {
        sketch.cut(random);
    }
    (vec![sketch.end(random)], sketch.bytes)
}

/// An element of a frame, near the longest that is read or small.
fn frame(random: &mut Random, sketch: &mut Sketch, large: bool) {
    let alexa35 = random.percent(55);
    let mut label = if alexa35 { FRAME_DATA } else { PICTURE_METADATA };
    for free in [7, 13, 15] {
        if random.percent(if alexa35 || free == 7 { 15 } else { 3 }) {
            label[free] = random.byte();
        }
    }
    let mut value = match (alexa35, random.percent(12)) {
        (true, _) => alexa_sets(random, 1),
        (false, full) => picture_metadata(random, 1, full),
    };
    if large {
        value.resize(random.between(8190, 8195), 0);
        hide_frame(random, &mut value);
    }
    sketch.put(random, label, &value);
}

/// Puts an empty frame into a large value, which a walk that steps over the value does not meet.
fn hide_frame(random: &mut Random, value: &mut [u8]) {
    let place = value.len() - random.between(17, 4000);
    value[place..place + 16].copy_from_slice(&FRAME_DATA);
    value[place + 16] = 0;
}
