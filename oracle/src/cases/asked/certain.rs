//! Cases of `sonyarrive`, `arriarrive`, `fedsony` and `fedarri`: frames that may not have arrived.

use super::fed::cut;
use super::numbered;
use super::passed::nested;
use crate::cases::random::Random;
use crate::cases::{arri, sony};
use crate::line::Case;

/// A limit and Sony's frames.
pub fn sony(random: &mut Random) -> Case {
    let (_, bytes) = sony::sony(random);
    arrived(random, bytes)
}

/// A limit and ARRI's frames, seldom with an over-long one that has others in it.
pub fn arri(random: &mut Random) -> Case {
    if random.below(60) == 0 {
        let bytes = nested(random).bytes;
        return arrived(random, bytes);
    }
    let (_, bytes) = arri::arri(random);
    arrived(random, bytes)
}

/// Bytes that may be cut, and a limit that holds what was cut off, or hardly.
fn arrived(random: &mut Random, mut bytes: Vec<u8>) -> Case {
    let count = bytes.len();
    if random.percent(50) {
        let most = if random.percent(50) { 40 } else { count };
        bytes.truncate(count - random.below(most.min(count) + 1));
    }
    let arrived = bytes.len();
    let limit = match random.below(10) {
        0..3 => arrived as u64,
        3..6 => count as u64,
        6 => (count + random.below(3)).saturating_sub(1) as u64,
        7 => (arrived + random.below(40)) as u64,
        8 => arrived.saturating_sub(random.below(3)) as u64,
        _ => u64::MAX,
    };
    numbered([limit], bytes)
}

/// The same in pieces: all at once or byte by byte where they pass the limit.
pub fn fed(random: &mut Random, mut case: Case) -> Case {
    let past = case.bytes.len() as u64 > case.numbers[0];
    case.list = if past { random.one(&["0", "1"]).to_string() } else { cut(random) };
    case
}
