//! Every buffer of `ber`, `walk`, `step`, `klvs`, `arrive` and `tally`.

use super::pieces::{Alphabet, Buffers, hex, one_of_each, sequences};
use crate::asked::forms::holds;
pub use crate::cases::sketch::START;
use crate::cases::sketch::encoded;

/// A label, a key start, two beginnings of one, lengths of every kind, and zeros with which a length of 8 bytes is whole.
const PIECES: &str = "060e2b34aaaaaaaaaaaaaaaaaaaaaaaa 060e2b34 060e2b 06 00 01 02 11 80 81 82 88 89 ff 00000000000000";

/// Those of them that tell label, length, value and end apart.
const FEW: &str = "060e2b34aaaaaaaaaaaaaaaaaaaaaaaa 060e2b34 060e2b 00 02 81 89";

/// A label of a run, parts of one, and lengths of every kind.
const RUN: &str =
    "aaaaaaaaaaaaaaaaaaaaaaaaaaaaaaaa bbbbbbbbbbbbbbbb cccccccccccccccccccccccccccccc 00 01 02 11 80 81 82 88 89 ff 00000000000000";

/// Labels that are the same and others, and lengths.
const TALLIED: &str = "060e2b34aaaaaaaaaaaaaaaaaaaaaaaa 060e2b34aaaaaabbaaaaaaaaaaaaaaaa 060e2b34aaaaaaaabbaaaaaaaaaaaaaa \
    060e2b34aaaaaaaaaaaaaaaaaaaaaabb 00 02 81 89";

/// Empty records of sets in several codings, and of labels near theirs.
const SETS: &str = "060e2b34025301010d0101010101280000 060e2b34021301010d0101010101280000 060e2b34024301020d0101010101280000 \
    060e2b34026301010d0101010101280000 060e2b34015301010d0101010101280000 060e2b34011301010d0101010101280000 \
    060e2b34020501010d0101010101280000 060e2b34025302010d0101010101280000";

/// Every buffer of at most 3 bytes; first bytes of long lengths with up to 9 bytes after them; numbers around boundaries.
pub fn lengths() -> Buffers {
    let short = sequences(bytes(0..=255), 0..=3);
    let after =
        |tails: Vec<u8>, counts| sequences(bytes(tails), counts).flat_map(|tail| (0x80..=0x8a).map(move |first| joined(&[first], &tail)));
    let long = after(vec![0x00, 0x01, 0x7f, 0x80, 0xff], 3..=7).chain(after(vec![0x00, 0x80, 0xff], 8..=9));
    let near = boundaries().flat_map(|length| [joined(&length, &[0xff]), length[..length.len() - 1].to_vec(), length]);
    Box::new(short.chain(long).chain(near))
}

/// What a walk may meet, for every end.
pub fn ended() -> Buffers {
    Box::new(sequences(hex(PIECES), 0..=5).chain(sequences(hex(FEW), 6..=7)).chain(valued()))
}

/// What a step may meet, for every end and every cursor.
pub fn stepped() -> Buffers {
    Box::new(sequences(hex(PIECES), 0..=4).chain(sequences(hex(FEW), 5..=5)))
}

/// A few of what a step may meet.
pub fn few() -> Buffers {
    Box::new(sequences(hex(FEW), 0..=4))
}

/// Runs, whole and broken off.
pub fn runs() -> Buffers {
    let records = sequences(hex("aaaaaaaaaaaaaaaaaaaaaaaaaaaaaaaa 00 02 81"), 7..=10);
    Box::new(sequences(hex(RUN), 0..=6).chain(records).chain(valued()))
}

/// What may arrive.
pub fn arriving() -> Buffers {
    Box::new(sequences(hex(PIECES), 0..=5).chain(sequences(hex(FEW), 6..=8)).chain(valued()))
}

/// Records whose labels come again.
pub fn tallied() -> Buffers {
    let records: Alphabet = one_of_each(vec![hex(TALLIED)[..4].to_vec(), hex("00 02")]).collect();
    Box::new(sequences(hex(TALLIED), 0..=7).chain(sequences(records, 4..=7)).chain(sequences(hex(SETS), 1..=5)))
}

/// A label, a length around a boundary and a value that is one byte short, whole or one byte long, and perhaps a record.
fn valued() -> impl Iterator<Item = Vec<u8>> + Send {
    const LABEL: [u8; 16] = [0x06, 0x0e, 0x2b, 0x34, 1, 1, 1, 1, 1, 1, 1, 1, 1, 1, 1, 1];
    let values = |length: Vec<u8>| {
        let number = length.iter().skip((length.len() > 1) as usize).fold(0, |number, byte| number << 8 | *byte as u64);
        let there = if number < 300 { number } else { 20 };
        [there.saturating_sub(1), there, there + 1].map(move |count| [&LABEL[..], &length, &vec![0x11; count as usize]].concat())
    };
    boundaries().flat_map(values).flat_map(|record| [joined(&record, &joined(&LABEL, &[0])), record])
}

/// Every power of two and the numbers on both sides of it, and the largest, as a length of every size that holds them.
fn boundaries() -> impl Iterator<Item = Vec<u8>> + Send {
    let sizes = |number| (1..=9).filter(move |size| holds(*size, number)).map(move |size| encoded(number, size));
    boundary_numbers().into_iter().flat_map(sizes)
}

/// Every power of two and the numbers on both sides of it, and the largest.
pub fn boundary_numbers() -> Vec<u64> {
    let powers = (0..64).map(|power| 1u64 << power);
    let mut numbers: Vec<u64> = powers.flat_map(|power| [power - 1, power, power + 1]).chain([u64::MAX - 1, u64::MAX]).collect();
    numbers.sort_unstable();
    numbers.dedup();
    numbers
}

/// The alphabet of single bytes.
fn bytes(all: impl IntoIterator<Item = u8>) -> Alphabet {
    all.into_iter().map(|byte| vec![byte]).collect()
}

/// Bytes and more after them.
fn joined(some: &[u8], more: &[u8]) -> Vec<u8> {
    [some, more].concat()
}

#[cfg(test)]
mod tests {
    use super::*;
    use crate::plain::{Length, length};
    use std::collections::HashSet;

    #[test]
    fn every_boundary_is_a_length_of_every_size_that_holds_it() {
        let all: Vec<_> = boundaries().collect();
        assert_eq!(all.iter().collect::<HashSet<_>>().len(), all.len());
        let sizes = |number: u64| all.iter().filter(|bytes| length(bytes) == Length::Is(number, bytes.len())).count();
        let boundaries =
            [(0x7f, 9), (0x80, 8), (0xff, 8), (0x100, 7), (0xffff, 7), (0x1_0000, 6), (1 << 32, 4), (1 << 63, 1), (u64::MAX, 1)];
        for (number, count) in boundaries {
            assert_eq!(sizes(number), count, "{number:x}");
        }
    }

    #[test]
    fn a_value_is_short_whole_or_long() {
        let whole = |bytes: &Vec<u8>| match length(&bytes[16..]) {
            Length::Is(number, size) => number.checked_add(16 + size as u64).map(|end| end.cmp(&(bytes.len() as u64))),
            _ => None,
        };
        let all: HashSet<_> = valued().map(|bytes| whole(&bytes)).collect();
        assert_eq!(all.len(), 4);
    }

    #[test]
    fn hardly_two_sequences_are_the_same_buffer() {
        for alphabet in [PIECES, FEW, RUN, TALLIED] {
            let all: Vec<_> = sequences(hex(alphabet), 0..=3).collect();
            let count = hex(alphabet).len();
            assert_eq!(all.len(), 1 + count + count * count + count * count * count);
            let shown = all.iter().collect::<HashSet<_>>().len();
            assert!(shown * 100 >= all.len() * 99, "{shown} of {}", all.len());
        }
    }
}
