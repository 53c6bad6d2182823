//! Cases of `form`, `forms`, `formrun` and `formitems`: lengths in every form that holds them, and 80h.

use super::numbered;
use crate::asked::forms::holds;
use crate::cases::random::Random;
use crate::cases::sketch::{Sketch, encoded};
use crate::cases::walk;
use crate::line::Case;

/// A number on either side of what a form holds, in any form that holds it, some bytes missing or left over.
pub fn form(random: &mut Random) -> Vec<u8> {
    if random.percent(30) {
        return walk::ber(random);
    }
    let bound = *random.one(&[0x80, 0x100, 0x1_0000, 0x100_0000, 1 << 32, 1 << 40, 1 << 48, 1 << 56, u64::MAX, 1]);
    let number = if random.percent(80) { bound.saturating_add(random.below(3) as u64) - 1 } else { random.edge() };
    let mut bytes = field(random, number);
    match random.below(6) {
        0 => drop(bytes.pop()),
        1 => bytes.push(random.byte()),
        _ => {}
    }
    bytes
}

/// A length in any form that holds a number, 80h now and then for 0.
pub fn field(random: &mut Random, number: u64) -> Vec<u8> {
    if number == 0 && random.percent(25) {
        return vec![0x80];
    }
    let forms: Vec<usize> = (1..=9).filter(|size| holds(*size, number)).collect();
    let form = if random.percent(50) { forms[0] } else { *random.one(&forms) };
    encoded(number, form)
}

/// The size of a value: on either side of what short forms hold, or small.
fn size(random: &mut Random) -> usize {
    match random.below(20) {
        0..8 => 0,
        8..17 => random.between(1, 5),
        17 => random.between(126, 129),
        _ => random.between(254, 257),
    }
}

/// An end and elements of any form.
pub fn forms(random: &mut Random) -> Case {
    let mut sketch = Sketch::any(random);
    if random.percent(60) {
        sketch = elements(random);
    }
    numbered([sketch.end(random)], sketch.bytes)
}

/// Elements whose lengths have any form, with something between them now and then.
pub fn elements(random: &mut Random) -> Sketch {
    let mut sketch = Sketch::default();
    for _ in 0..random.between(1, 4) {
        if random.percent(20) {
            sketch.between(random);
        }
        let size = size(random);
        let length = field(random, size as u64);
        sketch.put_with(random, &length, size);
    }
    if random.percent(15) {
        sketch.damage(random);
    }
    if random.percent(15) {
        sketch.cut(random);
    }
    sketch
}

/// A run whose lengths have any form.
pub fn run(random: &mut Random) -> Vec<u8> {
    if random.percent(40) { walk::klvs(random) } else { elements(random).bytes }
}

/// A size of tags, a coding and items, now and then in another.
pub fn items(random: &mut Random) -> Case {
    let tag = *random.one(&[1, 1, 2, 2, 2, 3, 16]);
    let ber = random.percent(60);
    let mut sketch = Sketch::default();
    for _ in 0..random.below(5) {
        let size = size(random);
        let length = if ber { field(random, size as u64) } else { (size as u16).to_be_bytes().to_vec() };
        sketch.bytes.extend(random.bytes(tag));
        sketch.bytes.extend(length);
        sketch.bytes.extend(random.bytes(size));
    }
    if random.percent(20) {
        sketch.damage(random);
    }
    if random.percent(20) {
        sketch.cut(random);
    }
    let tag = if random.percent(3) { random.edge().max(1) } else { tag as u64 };
    numbered([tag, (ber ^ random.percent(4)) as u64], sketch.bytes)
}
