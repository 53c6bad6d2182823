//! Whole files: a strict gate, and the random index pack at a file's end.
//!
//! ```
//! use brinethimble::{Records, Refusal, strict};
//!
//! let label = *b"\x06\x0e\x2b\x34\x01\x01\x01\x0d\x0e\x15\x00\x01\x00\x01\x00\x00";
//! let file = [&label[..], &[1, 7], &[0], &label, &[0]].concat();
//! assert_eq!(Records::of(&file).count(), 2); // the walk passes the byte between its records
//! assert_eq!(strict(&file, file.len()), Err(Refusal::NoKey { place: 18 }));
//! ```

use core::iter::FusedIterator;

use crate::boundary;
use crate::record::Refusal;

/// Accepts a file up to an end exactly where records follow each other from 0 to the end, no byte is passed and no length starts
/// with 80h. The refusals 10 to 14 have the place where this breaks.
///
/// ```
/// use brinethimble::{Refusal, strict};
///
/// let label = *b"\x06\x0e\x2b\x34\x01\x01\x01\x0d\x0e\x15\x00\x01\x00\x01\x00\x00";
/// assert_eq!(strict(&[], 0), Ok(()));
/// assert_eq!(strict(&[&label[..], &[0x81, 0]].concat(), 18), Ok(()));
/// assert_eq!(strict(&[&label[..], &[0x80]].concat(), 17), Err(Refusal::Indefinite { place: 0 }));
/// assert_eq!(strict(&[&label[..], &[0x81, 0]].concat(), 17), Err(Refusal::PastEnd { place: 0 }));
/// assert_eq!(strict(&label, 17), Err(Refusal::EndPastBuffer));
/// ```
pub fn strict(s: &[u8], end: usize) -> Result<(), Refusal> {
    boundary::strict(s, end)
}

/// A pair of a random index pack.
#[derive(Clone, Copy, PartialEq, Eq, Debug)]
pub struct Pair {
    /// The number of a body stream.
    pub stream: u32,
    /// Where a partition of it starts in the file, as the pack has it.
    pub offset: u64,
    /// Whether a partition pack's label stands there.
    pub partition: bool,
}

/// The pairs of a file's random index pack.
#[derive(Clone, Debug)]
pub struct RandomIndex<'a> {
    s: &'a [u8],
    at: usize,
    left: usize,
}

impl<'a> RandomIndex<'a> {
    /// The pairs of the random index pack at the end of all of a file, found from its last four bytes.
    ///
    /// ```
    /// use brinethimble::{Pair, RandomIndex, Refusal};
    ///
    /// let header = b"\x06\x0e\x2b\x34\x02\x05\x01\x01\x0d\x01\x02\x01\x01\x02\x04\x00\x00";
    /// let key = b"\x06\x0e\x2b\x34\x02\x05\x01\x01\x0d\x01\x02\x01\x01\x11\x01\x00";
    /// let file = [&header[..], key, &[16], &[0, 0, 0, 1], &[0; 8], &[0, 0, 0, 33]].concat();
    /// let pairs: Vec<_> = RandomIndex::of(&file)?.collect();
    /// assert_eq!(pairs, [Pair { stream: 1, offset: 0, partition: true }]);
    /// assert_eq!(RandomIndex::of(header).unwrap_err(), Refusal::PackSize);
    /// # Ok::<(), Refusal>(())
    /// ```
    pub fn of(s: &'a [u8]) -> Result<Self, Refusal> {
        let [at, left] = boundary::random_index(s)?;
        Ok(RandomIndex { s, at: at as usize, left: left as usize })
    }
}

impl Iterator for RandomIndex<'_> {
    type Item = Pair;

    fn next(&mut self) -> Option<Pair> {
        let [found, stream, offset, partition, at, left] = boundary::pair(self.s, self.at, self.left);
        (self.at, self.left) = (at as usize, left as usize);
        (found == 1).then_some(Pair { stream: stream as u32, offset, partition: partition == 1 })
    }
}

impl FusedIterator for RandomIndex<'_> {}

#[cfg(test)]
mod tests {
    use super::*;

    const PACK: &[u8] = b"\x06\x0e\x2b\x34\x02\x05\x01\x01\x0d\x01\x02\x01\x01\x11\x01\x00";

    #[test]
    fn a_pack_without_pairs_is_accepted() {
        let file = [PACK, &[4, 0, 0, 0, 21]].concat();
        assert_eq!(RandomIndex::of(&file).unwrap().count(), 0);
    }

    #[test]
    fn an_offset_past_every_file_is_no_partition() {
        let file = [PACK, &[16], &[0; 4], &[0xff; 8], &[0, 0, 0, 33]].concat();
        let pairs: Vec<_> = RandomIndex::of(&file).unwrap().collect();
        assert_eq!(pairs, [Pair { stream: 0, offset: u64::MAX, partition: false }]);
    }

    #[test]
    fn packs_are_refused_by_size_then_label_then_length() {
        let refused = |file: &[u8]| RandomIndex::of(file).map(|_| ()).unwrap_err();
        assert_eq!(refused(&[]), Refusal::PackSize);
        assert_eq!(refused(&[0; 21]), Refusal::PackSize);
        assert_eq!(refused(&[&[0; 17][..], &[0, 0, 0, 21]].concat()), Refusal::PackLabel);
        assert_eq!(refused(&[PACK, &[5, 0, 0, 0, 21]].concat()), Refusal::PackLength);
        assert_eq!(refused(&[PACK, &[0x88, 0, 0, 0, 21]].concat()), Refusal::PackLength);
    }

    /// A key with what stands behind it.
    fn key(behind: &[u8]) -> Vec<u8> {
        [b"\x06\x0e\x2b\x34\x01\x01\x01\x0d\x0e\x15\x00\x01\x00\x01\x00\x00", behind].concat()
    }

    /// The gate over a whole file.
    fn whole(file: &[u8]) -> Result<(), Refusal> {
        strict(file, file.len())
    }

    #[test]
    fn each_refusal_and_its_place() {
        assert_eq!(whole(&key(&[])), Err(Refusal::TooShort { place: 0 }));
        assert_eq!(whole(&[key(&[0]), vec![0; 5]].concat()), Err(Refusal::TooShort { place: 17 }));
        assert_eq!(whole(&[0; 17]), Err(Refusal::NoKey { place: 0 }));
        assert_eq!(whole(&key(&[0x89])), Err(Refusal::NoLength { place: 0 }));
        assert_eq!(whole(&[key(&[0]), key(&[0x80])].concat()), Err(Refusal::Indefinite { place: 17 }));
        assert_eq!(whole(&key(&[1])), Err(Refusal::PastEnd { place: 0 }));
        assert_eq!(whole(&key(b"\x88\xff\xff\xff\xff\xff\xff\xff\xff")), Err(Refusal::PastEnd { place: 0 }));
    }

    #[test]
    fn an_end_past_the_buffer_is_refused_without_a_place() {
        assert_eq!(strict(&[], 1), Err(Refusal::EndPastBuffer));
        assert_eq!(strict(&key(&[0]), usize::MAX).map_err(Refusal::place), Err(None));
    }

    #[test]
    fn what_stands_behind_the_end_is_not_looked_at() {
        assert_eq!(strict(&[key(&[0]), vec![7]].concat(), 17), Ok(()));
        assert_eq!(strict(&[7; 40], 0), Ok(()));
    }
}
