//! Cases of `takes`: a recording and a second one that is nearly the same.

use crate::cases::arri::{FIELDS, FRAME_DATA, PICTURE_METADATA, alexa_sets, picture_metadata, word};
use crate::cases::random::Random;
use crate::cases::sketch::Sketch;
use crate::line::Case;

/// Two ends and two recordings.
pub fn takes(random: &mut Random) -> Case {
    let (mut main, mut backup) = (Sketch::default(), Sketch::default());
    let large = random.percent(5);
    for turn in 0..random.below(4) {
        let element = if large && turn == 0 { near_the_longest(random) } else { element(random) };
        put(random, &mut main, &element);
        let second = match random.below(8) {
            0 => continue,
            1 => self::element(random),
            2 if large && turn == 0 => near_the_longest(random),
            2..6 => changed(random, &element),
            _ => element,
        };
        put(random, &mut backup, &second);
    }
    if random.percent(10) {
        backup.damage(random);
    }
    if random.percent(5) {
        std::mem::swap(&mut main, &mut backup);
    }
    let numbers = vec![end(random, &mut main), end(random, &mut backup)];
    Case { numbers, bytes: main.bytes, other: backup.bytes, ..Case::default() }
}

/// The bytes' own end mostly.
fn end(random: &mut Random, sketch: &mut Sketch) -> u64 {
    if random.percent(85) { sketch.bytes.len() as u64 } else { sketch.end(random) }
}

/// A label and a value near the longest that is read.
fn near_the_longest(random: &mut Random) -> ([u8; 16], Vec<u8>) {
    (FRAME_DATA, vec![0; random.between(8191, 8194)])
}

/// A label and a value: an ALEXA 35's, ARRI's 256 bytes, or one without values.
fn element(random: &mut Random) -> ([u8; 16], Vec<u8>) {
    match random.below(10) {
        0 => (PICTURE_METADATA, vec![0; random.below(3)]),
        1 => (FRAME_DATA, zero_tint(random)),
        2..6 => (FRAME_DATA, alexa_sets(random, 1)),
        _ => (PICTURE_METADATA, picture_metadata(random, 1, true)),
    }
}

/// An ALEXA 35's value with a tint of 0, of either sign.
fn zero_tint(random: &mut Random) -> Vec<u8> {
    let mut value = [[0; 16].to_vec(), vec![21], hex_literal::hex!("060e2b34 0101010e 0e170102 0e060000 04").to_vec(), vec![0; 4]].concat();
    let sign = value.len() - 4;
    value[sign] = *random.one(&[0, 0x80]);
    value
}

/// Puts an element, now and then behind another one.
fn put(random: &mut Random, sketch: &mut Sketch, (label, value): &([u8; 16], Vec<u8>)) {
    if random.percent(10) {
        sketch.element(random);
    }
    sketch.put(random, *label, value);
}

/// An element with a bit or a field changed.
fn changed(random: &mut Random, (label, value): &([u8; 16], Vec<u8>)) -> ([u8; 16], Vec<u8>) {
    let mut value = value.clone();
    let count = value.len();
    for _ in 0..random.between(1, 2) {
        if value.ends_with(&[0; 3]) && count > 3 && random.percent(60) {
            value[count - 4] ^= 0x80;
        } else if count > 256 && random.percent(80) {
            let number = if random.percent(40) { *random.one(&[0, 0x8000_0000, 0xffff_ffff]) } else { word(random) };
            let at = count - 256 + *random.one(&FIELDS);
            value[at..at + 4].copy_from_slice(&number.to_be_bytes());
        } else if count > 0 {
            let at = count - 1 - random.below(count.min(30));
            value[at] ^= *random.one(&[0x80, 0x80, 1, 0x10, 0xff]);
        }
    }
    (*label, value)
}
