//! Buffers put together from pieces, each once.

use std::ops::RangeInclusive;

/// The pieces that may stand in a place.
pub type Alphabet = Vec<Vec<u8>>;

/// Buffers in turn.
pub type Buffers = Box<dyn Iterator<Item = Vec<u8>> + Send>;

/// The alphabet of some pieces written in hex, with one space between them.
pub fn hex(text: &str) -> Alphabet {
    text.split(' ').map(piece).collect()
}

/// The bytes of a piece in hex.
fn piece(text: &str) -> Vec<u8> {
    let digits: Vec<u8> = text.chars().map(|digit| digit.to_digit(16).expect("a hex digit") as u8).collect();
    digits.chunks_exact(2).map(|pair| pair[0] << 4 | pair[1]).collect()
}

/// Every buffer that takes one piece of each alphabet, in their order.
pub fn one_of_each(alphabets: Vec<Alphabet>) -> impl Iterator<Item = Vec<u8>> + Send {
    let count: usize = alphabets.iter().map(Vec::len).product();
    (0..count).map(move |index| {
        let mut rest = index;
        let mut bytes = Vec::new();
        for alphabet in &alphabets {
            bytes.extend(&alphabet[rest % alphabet.len()]);
            rest /= alphabet.len();
        }
        bytes
    })
}

/// Every sequence of so many pieces of an alphabet.
pub fn sequences(alphabet: Alphabet, counts: RangeInclusive<usize>) -> impl Iterator<Item = Vec<u8>> + Send {
    counts.flat_map(move |count| one_of_each(vec![alphabet.clone(); count]))
}

/// Every beginning of every buffer.
pub fn cut(buffers: impl Iterator<Item = Vec<u8>> + Send) -> impl Iterator<Item = Vec<u8>> + Send {
    buffers.flat_map(|bytes| (0..=bytes.len()).map(move |count| bytes[..count].to_vec()))
}

#[cfg(test)]
mod tests {
    use super::*;
    use std::collections::HashSet;

    #[test]
    fn every_sequence_is_there_once() {
        let all: Vec<_> = sequences(hex("00 01 0203"), 0..=3).collect();
        assert_eq!(all.len(), 1 + 3 + 9 + 27);
        assert_eq!(all.iter().collect::<HashSet<_>>().len(), all.len());
        assert!(all.contains(&vec![2, 3, 0, 1]));
    }

    #[test]
    fn one_of_each_keeps_the_order() {
        let all: Vec<_> = one_of_each(vec![hex("00 01"), hex("02"), hex("03 04 05")]).collect();
        assert_eq!(all.len(), 6);
        assert!(all.iter().all(|bytes| bytes.len() == 3 && bytes[1] == 2 && bytes[0] < 2));
    }

    #[test]
    fn a_buffer_is_cut_at_every_place() {
        let all: Vec<_> = cut([vec![7, 8]].into_iter()).collect();
        assert_eq!(all, [vec![], vec![7], vec![7, 8]]);
    }
}
