//! Cases of the words that count passed bytes: `passed`, `passarrive`, `passfrom`, `passsony`, `passarri` and `passcanon`.

use super::forms::elements;
use super::{numbered, of};
use crate::cases::random::Random;
use crate::cases::sketch::{LABELS, Sketch, encoded, known_label};
use crate::cases::{arri, walk};
use crate::line::Case;

/// An end and bytes of a walk, often with lengths in any form.
pub fn passed(random: &mut Random) -> Case {
    if random.percent(50) {
        let mut sketch = elements(random);
        return numbered([sketch.end(random)], sketch.bytes);
    }
    of(walk::walk(random))
}

/// An end, a cursor, and a place on either side of it or anywhere.
pub fn step(random: &mut Random) -> Case {
    let (mut numbers, bytes) = walk::step(random);
    let at = numbers[1];
    numbers.push(match random.below(6) {
        0 => 0,
        1 => at,
        2 => at.saturating_add(random.below(3) as u64).saturating_sub(1),
        3 => random.below(bytes.len() + 1) as u64,
        4 => (random.draw() as u128 * (at as u128 + 1) >> 64) as u64,
        _ => random.edge(),
    });
    numbered(numbers, bytes)
}

/// An end and ARRI's frames, seldom with an over-long one that has others in it.
pub fn arri(random: &mut Random) -> Case {
    if random.below(60) > 0 {
        return of(arri::arri(random));
    }
    let mut sketch = nested(random);
    numbered([sketch.end(random)], sketch.bytes)
}

/// Elements of ARRI's near the longest one, with elements in them, between them and behind them.
pub fn nested(random: &mut Random) -> Sketch {
    let mut sketch = Sketch::default();
    small(random, &mut sketch);
    for _ in 0..random.between(1, 2) {
        let mut inside = Sketch::default();
        while inside.bytes.len() < 300 {
            small(random, &mut inside);
        }
        let size = random.between(8190, 8195);
        inside.bytes.resize(size, 0);
        if random.percent(40) {
            let frame = [&LABELS[4][..], &[0]].concat();
            let place = size - frame.len() - random.below(2) * random.below(30);
            inside.bytes[place..place + frame.len()].copy_from_slice(&frame);
        }
        sketch.bytes.extend(LABELS[*random.one(&[3, 4, 4, 10])]);
        sketch.bytes.extend(encoded(size as u64, random.between(3, 9)));
        sketch.bytes.append(&mut inside.bytes);
        sketch.marks.push(sketch.bytes.len());
        small(random, &mut sketch);
    }
    sketch
}

/// Something between elements now and then, and a small element: a frame, another, or one that claims too much.
fn small(random: &mut Random, sketch: &mut Sketch) {
    if random.percent(40) {
        sketch.between(random);
    }
    let label = if random.percent(60) { LABELS[*random.one(&[3, 4])] } else { known_label(random) };
    let size = random.below(8);
    let value = random.bytes(size);
    sketch.put(random, label, &value);
    if random.percent(10) {
        sketch.bytes.extend([&LABELS[4][..], &[0x82, 0x20, random.byte()]].concat());
    }
}
