//! Cases of `fed` and `fedend`: what may arrive, in pieces.

use super::forms::elements;
use super::of;
use crate::cases::random::Random;
use crate::cases::walk;
use crate::line::Case;

/// How bytes are cut: all at once, byte by byte, or in pieces of a few sizes.
pub fn cut(random: &mut Random) -> String {
    match random.below(6) {
        0 => "0".into(),
        1 => "1".into(),
        2 => random.between(2, 9).to_string(),
        3 => random.one(&["17", "98", "010", "90", "989", "0009"]).to_string(),
        _ => (0..random.between(2, 5)).map(|_| char::from(b'0' + random.below(10) as u8)).collect(),
    }
}

/// A limit and bytes in pieces.
pub fn fed(random: &mut Random) -> Case {
    let mut case = of(walk::arrive(random));
    if random.percent(40) {
        let mut sketch = elements(random);
        let limit = (sketch.bytes.len() + random.below(300)) as u64;
        if random.percent(50) {
            sketch.cut(random);
        }
        case = super::numbered([limit], sketch.bytes);
    }
    case.list = cut(random);
    case
}

/// A known end, at the bytes' own mostly, and bytes in pieces.
pub fn fed_end(random: &mut Random) -> Case {
    let mut case = fed(random);
    let count = case.bytes.len() as u64;
    case.numbers[0] = match random.below(10) {
        0 => (count + random.below(3) as u64).saturating_sub(1),
        1 => random.below(case.bytes.len() + 1) as u64,
        2 => count + random.below(40) as u64,
        _ => count,
    };
    case
}
