//! Cases of `header`, `primer` and `items`.

use super::random::Random;
use super::sketch::{LABELS, PIECES, encoded, form, known_label};

/// A header partition pack and what follows it, its counts near what there is.
pub fn header(random: &mut Random) -> Vec<u8> {
    if random.percent(5) {
        let piece = *random.one(&PIECES);
        let size = random.below(piece.len().min(500));
        return damaged(random, piece[..size].to_vec());
    }
    let mut label = LABELS[0];
    label[13] = if random.percent(92) { 2 } else { *random.one(&[0, 1, 3, 4]) };
    (label[14], label[15]) = (random.byte(), random.byte());
    let after = random.below(40);
    let size = if random.percent(90) { *random.one(&[40, 40, 41, 88, 104]) } else { *random.one(&[0, 7, 8, 31, 38, 39]) };
    let mut pack = random.bytes(size);
    let kag = small_count(random, after);
    let count = small_count(random, after.saturating_sub(kag as usize));
    let place = |pack: &mut Vec<u8>, at: usize, number: &[u8]| {
        let end = pack.len().min(at + number.len());
        if at < end {
            pack[at..end].copy_from_slice(&number[..end - at]);
        }
    };
    place(&mut pack, 4, &(kag as u32).to_be_bytes());
    place(&mut pack, 32, &count.to_be_bytes());
    let said = if random.percent(8) { random.edge() } else { size as u64 };
    let form = form(random, said);
    let bytes = [&label[..], &encoded(said, form), &pack, &random.bytes(after)].concat();
    if random.percent(40) { damaged(random, bytes) } else { bytes }
}

/// A count that is near a number, or anything.
fn small_count(random: &mut Random, near: usize) -> u64 {
    match random.below(4) {
        0 => 0,
        1 => random.edge(),
        2 => random.below(near + 1) as u64,
        _ => (near as u64 + random.below(3) as u64).saturating_sub(1),
    }
}

/// A primer pack with few tags, so that they come again, and with a count that is not to be trusted.
pub fn primer(random: &mut Random) -> Vec<u8> {
    if random.percent(4) {
        let (piece, place) = *random.one(&[(0, 140), (4, 531)]);
        let size = random.between(8, 400);
        return damaged(random, PIECES[piece][place..place + size].to_vec());
    }
    let entries = random.below(8);
    let count = if random.percent(60) { entries as u32 } else { random.edge() as u32 };
    let size = if random.percent(85) { 18 } else { *random.one(&[0, 17, 19, 0x1200, 0x1200_0000, 0x0100_0012]) };
    let mut bytes = [count.to_be_bytes(), u32::to_be_bytes(size)].concat();
    for _ in 0..entries {
        bytes.extend([*random.one(&[0x3c, 0x80, 0x80, 0x00, 0xff]), random.below(3) as u8]);
        bytes.extend(if random.percent(50) { known_label(random).to_vec() } else { random.bytes(16) });
    }
    if random.percent(40) {
        let more = random.between(1, 19);
        bytes.extend(random.bytes(more));
    }
    damaged(random, bytes)
}

/// A coding and a set of local items, now and then in the other coding.
pub fn items(random: &mut Random) -> (Vec<u64>, Vec<u8>) {
    let ber = random.percent(50);
    let mut bytes = if random.percent(8) {
        let size = random.between(4, 180);
        PIECES[0][1174..1174 + size].to_vec()
    } else {
        let count = random.below(6);
        local_items(random, count, ber)
    };
    if random.percent(30) {
        bytes = damaged(random, bytes);
    }
    (vec![(ber ^ random.percent(4)) as u64], bytes)
}

/// So many local items of small tags and sizes.
fn local_items(random: &mut Random, count: usize, ber: bool) -> Vec<u8> {
    let mut bytes = Vec::new();
    for _ in 0..count {
        let tag = if random.percent(50) { random.below(3) as u16 } else { random.draw() as u16 };
        let size = if random.percent(30) { 0 } else { random.below(14) };
        let said = match random.below(20) {
            0 => random.edge(),
            1 => size as u64 + 1,
            _ => size as u64,
        };
        bytes.extend(tag.to_be_bytes());
        bytes.extend(if ber { local_length(random, said) } else { (said as u16).to_be_bytes().to_vec() });
        bytes.extend(random.bytes(size));
    }
    bytes
}

/// A BER length, seldom one that is none.
fn local_length(random: &mut Random, number: u64) -> Vec<u8> {
    if random.percent(5) {
        return vec![random.between(0x80, 0xff) as u8];
    }
    let form = form(random, number);
    encoded(number, form)
}

/// Bytes that are cut, changed or left as they are.
pub fn damaged(random: &mut Random, mut bytes: Vec<u8>) -> Vec<u8> {
    if bytes.is_empty() {
        return bytes;
    }
    let place = random.below(bytes.len());
    match random.below(10) {
        0 | 1 => bytes.truncate(place),
        2 => bytes[place] ^= 1 << random.below(8),
        3 if random.percent(50) => bytes.insert(place, random.byte()),
        3 => drop(bytes.remove(place)),
        _ => {}
    }
    bytes
}
