//! Cases of `rip`: a random index pack at a file's end, right or with one thing wrong.

use super::bytes;
use super::forms::field;
use crate::asked::random_index::KEY;
use crate::cases::random::Random;
use crate::cases::sketch::{LABELS, encoded, known_label};
use crate::line::Case;

/// A file with partition labels and a pack whose pairs mostly name their places.
pub fn rip(random: &mut Random) -> Case {
    if random.percent(3) {
        let count = random.below(24);
        return bytes(random.bytes(count));
    }
    let (mut file, places) = partitions(random);
    let count = random.below(5);
    let pairs: Vec<u8> = (0..count).flat_map(|_| pair(random, &places, file.len() as u64)).collect();
    let label = key(random);
    let said = match random.below(16) {
        0 => random.edge(),
        1 => (pairs.len() + 4 + random.below(3)).saturating_sub(1) as u64,
        2 => (pairs.len() + random.below(30)) as u64,
        3 => (pairs.len() + 4).saturating_sub(12) as u64,
        _ => pairs.len() as u64 + 4,
    };
    let length = match random.below(16) {
        0 => vec![random.between(0x80, 0xff) as u8],
        1 => encoded(said, 9),
        _ => field(random, said),
    };
    let size = (16 + length.len() + pairs.len() + 4) as u64;
    let begun = file.len() as u64 + size;
    let size = match random.below(12) {
        0 => random.edge() as u32 as u64,
        1 => size.saturating_add(random.below(3) as u64).saturating_sub(1),
        2 => *random.one(&[0, 20, 21, 22, begun, begun + 1]),
        _ => size,
    };
    file.extend([&label[..], &length, &pairs, &(size as u32).to_be_bytes()].concat());
    match random.below(20) {
        0 => drop(file.pop()),
        1 => file.push(random.byte()),
        _ => {}
    }
    bytes(file)
}

/// The pack's key, its byte at 7 changed now and then, seldom another byte.
fn key(random: &mut Random) -> [u8; 16] {
    let mut key = KEY;
    if random.percent(20) {
        key[7] = random.byte();
    }
    if random.percent(6) {
        key[random.below(16)] ^= 1 << random.below(8);
    }
    key
}

/// Bytes with partition labels among them, some not quite, and the places of these.
fn partitions(random: &mut Random) -> (Vec<u8>, Vec<u64>) {
    let (mut file, mut places) = (Vec::new(), Vec::new());
    for _ in 0..random.below(4) {
        let count = random.below(6);
        file.extend(random.bytes(count));
        places.push(file.len() as u64);
        let mut label = if random.percent(90) { LABELS[0] } else { known_label(random) };
        label[13] = *random.one(&[2, 3, 4, 2, 3, 4, 1, 5, 0]);
        if random.percent(10) {
            label[random.below(14)] ^= 1 << random.below(8);
        }
        file.extend(&label[..random.between(13, 16)]);
    }
    (file, places)
}

/// A pair whose offset is that of a label, one near it, near the file's end, or anything.
fn pair(random: &mut Random, places: &[u64], count: u64) -> Vec<u8> {
    let near = random.below(3) as u64;
    let offset = match random.below(8) {
        0 => random.edge(),
        1 => count.saturating_add(near * 7).saturating_sub(14),
        2 if !places.is_empty() => (*random.one(places) + near).saturating_sub(1),
        3 if !places.is_empty() => *random.one(places) + (1 << random.between(32, 63)),
        _ if !places.is_empty() => *random.one(places),
        _ => near,
    };
    let stream = if random.percent(80) { random.below(3) as u32 } else { random.edge() as u32 };
    [&stream.to_be_bytes()[..], &offset.to_be_bytes()].concat()
}
