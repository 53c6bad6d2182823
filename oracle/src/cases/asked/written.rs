//! Cases of the writers: what fits and what doesn't, into rooms that are just large enough or not.

use super::forms::{field, run};
use super::{numbered, room};
use crate::asked::written::{PACKS, shortest, written};
use crate::cases::random::Random;
use crate::cases::sketch::{encoded, known_label, label};
use crate::line::{Case, word};

/// A number on either side of what a form holds.
fn number(random: &mut Random) -> u64 {
    let bounds = [0x80, 0x100, 0x1_0000, 0x100_0000, 1 << 32, 1 << 40, 1 << 48, 1 << 56, u64::MAX];
    if random.percent(60) { random.one(&bounds).saturating_add(random.below(3) as u64) - 1 } else { random.edge() }
}

/// A case of a writer with a room near what it writes.
pub fn case(name: &'static str, random: &mut Random) -> Case {
    let mut case = match name {
        "shortest" => return numbered([number(random)], Vec::new()),
        "putlength" => length(random),
        "putklv" => klv(random),
        "putitem" => item(random),
        "putprimer" => numbered([], primer(random)),
        "putpack" => pack(random),
        _ if random.percent(50) => numbered([], run(random)),
        _ => numbered([], nearly_shortest(random)),
    };
    case.word = word(name).expect("a word").0;
    case.numbers.push(0);
    let needed = written(&case).and_then(Result::ok).map_or(0, |bytes| bytes.len());
    *case.numbers.last_mut().expect("a room") = room(random, needed);
    case
}

/// A size that holds a number, one less or any.
fn size(random: &mut Random, number: u64) -> u64 {
    let least = shortest(number);
    match random.below(8) {
        0 => least - 1,
        1 => *random.one(&[0, 10, 11, 255, 256, 257, u64::MAX]),
        2 => random.below(11) as u64,
        3 | 4 => least,
        _ => random.between(least as usize, 9) as u64,
    }
}

/// A number and a size.
fn length(random: &mut Random) -> Case {
    let number = number(random);
    numbered([number, size(random, number)], Vec::new())
}

/// A size, a label and a value on either side of what a form holds.
fn klv(random: &mut Random) -> Case {
    let value = if random.below(200) > 0 { value(random) } else { vec![0x77; random.between(0x7f00, 0x7f40)] };
    let other = if random.percent(50) { label(random).to_vec() } else { random.bytes(16) };
    Case { other, ..numbered([size(random, value.len() as u64)], value) }
}

/// A value on either side of what a form holds.
fn value(random: &mut Random) -> Vec<u8> {
    let count = match random.below(10) {
        0 => random.between(126, 130),
        1 => random.between(254, 258),
        _ => random.below(20),
    };
    random.bytes(count)
}

/// A tag, at times of more than 2 bytes, and a value.
fn item(random: &mut Random) -> Case {
    let tag = match random.below(8) {
        0 => random.edge(),
        1 => 0xffff + random.below(3) as u64,
        _ => random.draw() as u16 as u64,
    };
    numbered([tag], value(random))
}

/// Entries of a primer, some tags coming again.
fn primer(random: &mut Random) -> Vec<u8> {
    let entry = |random: &mut Random| [&[*random.one(&[0x3c, 0x80]), random.below(3) as u8][..], &known_label(random)].concat();
    (0..random.below(7)).flat_map(|_| entry(random)).collect()
}

/// A pack's number and its fields, at times one that is too large, and at times too many or too few.
fn pack(random: &mut Random) -> Case {
    let id = if random.percent(92) { random.between(1, 20) as u64 } else { *random.one(&[0, 21, 22, 255, 256, 257, 262, u64::MAX]) };
    let bits: Vec<u32> = PACKS.get(id.wrapping_sub(1) as usize).unwrap_or(&PACKS[2]).iter().map(|(_, bits)| *bits).collect();
    let mut fields: Vec<u64> = bits.iter().map(|bits| raw(random, *bits)).collect();
    match random.below(12) {
        0 => fields.push(0),
        1 => drop(fields.pop()),
        2 => {
            let at = random.below(bits.len());
            fields[at] = (1u64 << bits[at]).saturating_add(random.below(2) as u64 * random.edge());
        }
        _ => {}
    }
    let list: Vec<String> = fields.iter().map(u64::to_string).collect();
    let list = if list.is_empty() { "-".into() } else { list.join(",") };
    Case { list, ..numbered([id], Vec::new()) }
}

/// A number of so many bits, where something changes or any.
fn raw(random: &mut Random, bits: u32) -> u64 {
    let most = (1u64 << bits) - 1;
    match random.below(4) {
        0 => most - (random.below(2) as u64).min(most),
        1 => (random.below(3) as u64).min(most),
        2 => 1 << random.below(bits as usize),
        _ => random.draw() & most,
    }
}

/// A run whose lengths are mostly the shortest.
fn nearly_shortest(random: &mut Random) -> Vec<u8> {
    let mut run = Vec::new();
    for _ in 0..random.between(1, 3) {
        let value = value(random);
        run.extend(known_label(random));
        let length = value.len() as u64;
        run.extend(if random.percent(80) { encoded(length, shortest(length) as usize) } else { field(random, length) });
        run.extend(value);
    }
    run
}
