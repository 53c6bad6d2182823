//! Cases of `strict`: files that are whole, and such with one thing wrong.

use super::forms::field;
use super::{numbered, of};
use crate::cases::random::Random;
use crate::cases::sketch::{LABELS, Sketch, known_label};
use crate::cases::walk;
use crate::line::Case;

/// An end and a file of records that follow each other, mostly with one thing changed.
pub fn strict(random: &mut Random) -> Case {
    if random.percent(15) {
        return of(walk::walk(random));
    }
    let mut file = whole(random);
    match random.below(8) {
        0..3 => {}
        3 => file.cut(random),
        4 => {
            let place = file.near_mark(random).min(file.bytes.len());
            file.bytes.splice(place..place, [*random.one(&[0, 6, 0x80])]);
        }
        5 => {
            let more = random.between(1, 18);
            let bytes = if random.percent(50) { LABELS[0].to_vec() } else { vec![0; more] };
            file.bytes.extend(&bytes[..more.min(bytes.len())]);
        }
        _ => change_a_length(random, &mut file),
    }
    let end = if random.percent(75) { file.bytes.len() as u64 } else { file.end(random) };
    numbered([end], file.bytes)
}

/// Records that follow each other, their lengths in any form but 80h.
fn whole(random: &mut Random) -> Sketch {
    let mut file = Sketch::default();
    for _ in 0..random.below(5) {
        let size = if random.percent(90) { random.below(6) } else { random.between(126, 130) };
        let length = loop {
            match field(random, size as u64) {
                eighty if eighty == [0x80] => {}
                length => break length,
            }
        };
        let label = known_label(random);
        let value = random.bytes(size);
        for part in [&label[..], &length, &value] {
            file.marks.push(file.bytes.len());
            file.bytes.extend(part);
        }
    }
    file
}

/// Changes the first byte after a label, or one near it.
fn change_a_length(random: &mut Random, file: &mut Sketch) {
    if file.marks.is_empty() {
        return;
    }
    let lengths: Vec<usize> = file.marks.iter().skip(1).step_by(3).copied().collect();
    let place = *random.one(&lengths);
    let byte = match random.below(4) {
        0 => 0x80,
        1 => random.between(0x87, 0xff) as u8,
        2 => random.between(0, 8) as u8,
        _ => random.between(0x7e, 0x8a) as u8,
    };
    file.bytes[place] = byte;
}
