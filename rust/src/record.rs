//! Labels, lengths and records: what all walks, runs and sets are made of.
//!
//! A record is a label of 16 bytes, a BER length and a value. Two labels are the same when they agree in all but the byte at 7.
//!
//! ```
//! use brinethimble::{Length, next_key, read_ber, same_label};
//!
//! assert_eq!(read_ber(&[0x82, 1, 0], 0), Length::Is { number: 256, bytes: 3, shortest: true });
//!
//! let label = *b"\x06\x0e\x2b\x34\x01\x01\x01\x0d\x0e\x15\x00\x01\x00\x01\x00\x00";
//! let mut other = label;
//! other[7] = 0x0e;
//! assert!(same_label(&label, &other));
//!
//! assert_eq!(next_key(&[0, 0x06, 0x0e, 0x2b, 0x34], 5, 0), 1);
//! ```

use core::fmt;

use crate::boundary;
use crate::walk::Cursor;

/// Why a call refuses: it has answered nothing else and written nothing.
#[derive(Clone, Copy, PartialEq, Eq, Debug)]
pub enum Refusal {
    /// 1: the end is larger than the buffer, or more records are stated than an index holds.
    EndPastBuffer,
    /// 2: more bytes have arrived than the limit, or a piece would pass the limit or the known end.
    PastLimit,
    /// 3: the payload, the text, the turned index or what is to be written is longer than the lent room.
    NoRoom {
        /// Its length.
        needed: usize,
    },
    /// 4: an item of a descriptor runs past its set.
    ItemPastSet,
    /// 5: a fed walk is closed already, or it is closed before its known end has come.
    Closed,
    /// 6: the depth of an outline is not 1 to 8.
    Depth,
    /// 7: the file or its random index pack's size is below 21 bytes, or the size is above the file's.
    PackSize,
    /// 8: no random index pack's label stands where the size says.
    PackLabel,
    /// 9: the random index pack's length is cut or none, not 4 more than a multiple of 12, or does not end at the file's end.
    PackLength,
    /// 10: the strict gate: fewer than 17 bytes are left.
    TooShort {
        /// Where records break off.
        place: usize,
    },
    /// 11: the strict gate: no key starts there.
    NoKey {
        /// Where records break off.
        place: usize,
    },
    /// 12: the strict gate: the length of the record there starts with 89h or above.
    NoLength {
        /// Where records break off.
        place: usize,
    },
    /// 13: the strict gate: the length of the record there starts with 80h.
    Indefinite {
        /// Where records break off.
        place: usize,
    },
    /// 14: the strict gate: the length or the value of the record there is not wholly before the end.
    PastEnd {
        /// Where records break off.
        place: usize,
    },
    /// 15: a field does not fit: of what is written its bits, the length its size, the size 1 to 9, the pack 1 to 20; of an entry of an
    /// index its size 1 to 9, its group below 64 or 4095.
    NoFit,
    /// 16: a record for an index starts at 2^48 or behind it.
    Start,
    /// 17: a record for an index begins before the last one's end.
    Order,
    /// 18: all room of an index is in use; of a shared one, no entry is free beyond what the other file has or its share reserves.
    Full,
    /// 19: a shared index has no such file, it is not open, or it is opened twice.
    File,
    /// 20: the shares of two files are above the whole index.
    Shares,
}

impl Refusal {
    /// The refusal's number.
    ///
    /// ```
    /// assert_eq!(brinethimble::Refusal::NoRoom { needed: 9 }.number(), 3);
    /// ```
    pub fn number(self) -> u32 {
        match self {
            Refusal::EndPastBuffer => 1,
            Refusal::PastLimit => 2,
            Refusal::NoRoom { .. } => 3,
            Refusal::ItemPastSet => 4,
            Refusal::Closed => 5,
            Refusal::Depth => 6,
            Refusal::PackSize => 7,
            Refusal::PackLabel => 8,
            Refusal::PackLength => 9,
            Refusal::TooShort { .. } => 10,
            Refusal::NoKey { .. } => 11,
            Refusal::NoLength { .. } => 12,
            Refusal::Indefinite { .. } => 13,
            Refusal::PastEnd { .. } => 14,
            Refusal::NoFit => 15,
            Refusal::Start => 16,
            Refusal::Order => 17,
            Refusal::Full => 18,
            Refusal::File => 19,
            Refusal::Shares => 20,
        }
    }

    /// Where a file's records break off: of the strict gate's refusals, 10 to 14.
    ///
    /// ```
    /// use brinethimble::Refusal;
    ///
    /// assert_eq!(Refusal::NoKey { place: 17 }.place(), Some(17));
    /// assert_eq!(Refusal::EndPastBuffer.place(), None);
    /// ```
    pub fn place(self) -> Option<usize> {
        match self {
            Refusal::TooShort { place }
            | Refusal::NoKey { place }
            | Refusal::NoLength { place }
            | Refusal::Indefinite { place }
            | Refusal::PastEnd { place } => Some(place),
            _ => None,
        }
    }
}

impl fmt::Display for Refusal {
    fn fmt(&self, f: &mut fmt::Formatter) -> fmt::Result {
        match self {
            Refusal::EndPastBuffer => write!(f, "more is stated than the buffer holds"),
            Refusal::PastLimit => write!(f, "more bytes have arrived than the limit"),
            Refusal::NoRoom { needed } => write!(f, "{needed} bytes of room are needed"),
            Refusal::ItemPastSet => write!(f, "an item runs past its set"),
            Refusal::Closed => write!(f, "the walk is closed, or its known end has not come"),
            Refusal::Depth => write!(f, "the depth is not 1 to 8"),
            Refusal::PackSize => write!(f, "no size of a random index pack ends the file"),
            Refusal::PackLabel => write!(f, "no random index pack's label stands where the size says"),
            Refusal::PackLength => write!(f, "the random index pack's length does not fit"),
            Refusal::TooShort { place } => write!(f, "fewer than 17 bytes are left at {place}"),
            Refusal::NoKey { place } => write!(f, "no key starts at {place}"),
            Refusal::NoLength { place } => write!(f, "the record at {place} has no length"),
            Refusal::Indefinite { place } => write!(f, "the length of the record at {place} is 80h"),
            Refusal::PastEnd { place } => write!(f, "the record at {place} is not wholly before the end"),
            Refusal::NoFit => write!(f, "a field does not fit"),
            Refusal::Start => write!(f, "the record starts at 2^48 or behind it"),
            Refusal::Order => write!(f, "the record begins before the last one's end"),
            Refusal::Full => write!(f, "all room is in use"),
            Refusal::File => write!(f, "there is no such file, or it is not open, or opened twice"),
            Refusal::Shares => write!(f, "the shares are above the whole"),
        }
    }
}

impl core::error::Error for Refusal {}

/// What stands where a length is read.
#[derive(Clone, Copy, PartialEq, Eq, Debug)]
pub enum Length {
    /// A length.
    Is {
        /// The length.
        number: u64,
        /// How many bytes it took, 1 to 9.
        bytes: usize,
        /// Whether no shorter form would have held it. `80` is not the shortest form of 0: `00` is.
        shortest: bool,
    },
    /// Bytes of the length are missing.
    Cut,
    /// These bytes are no length.
    None,
}

/// A record of a walk or a run.
#[derive(Clone, Copy, PartialEq, Eq, Debug)]
pub struct Record<'a> {
    /// Where it begins in the buffer.
    pub place: usize,
    /// Its label.
    pub label: &'a [u8; 16],
    /// Where its value begins in the buffer.
    pub value_place: usize,
    /// Its value.
    pub value: &'a [u8],
    /// How many bytes its length field has, 1 to 9.
    pub length_bytes: usize,
    /// Whether that is the shortest form of its length, as in [`Length::Is`].
    pub shortest: bool,
    /// How many bytes a walk passed before it: those from the place where walking last went on to its own. 0 where it comes from
    /// no walk, but from a run or a set.
    pub passed: usize,
}

impl<'a> Record<'a> {
    /// The record at a place, with its value's place and length, the bytes of its length field, shortest or not, and the bytes
    /// passed before it.
    fn new(s: &'a [u8], [place, value, length, bytes, shortest, passed]: [u64; 6]) -> Self {
        let label = part(s, place, 16).try_into().expect("16 bytes of label");
        Record {
            place: place as usize,
            label,
            value_place: value as usize,
            value: part(s, value, length),
            length_bytes: bytes as usize,
            shortest: shortest == 1,
            passed: passed as usize,
        }
    }

    /// The record at a place, with its value's place and length and the bytes passed before it, from a call that says no more: its
    /// length field is read again.
    pub(crate) fn at(s: &'a [u8], [place, value, length]: [u64; 3], passed: u64) -> Self {
        let [_, _, bytes, shortest] = boundary::length(s, place as usize + 16);
        Record::new(s, [place, value, length, bytes, shortest, passed])
    }

    /// The record that a walk's step found, if it did, and the next cursor.
    pub(crate) fn stepped(s: &'a [u8], stepped: boundary::Stepped) -> (Option<Self>, Cursor) {
        let [found, place, value, length, next, bytes, shortest, passed, since] = stepped;
        let record = (found == 1).then(|| Record::new(s, [place, value, length, bytes, shortest, passed]));
        (record, Cursor { at: next as usize, since: since as usize })
    }

    /// The record that a run's step found, if it did, and the next place.
    pub(crate) fn of_run(s: &'a [u8], stepped: boundary::Inside) -> (Option<Self>, usize) {
        let [found, place, value, length, next, bytes, shortest] = stepped;
        ((found == 1).then(|| Record::new(s, [place, value, length, bytes, shortest, 0])), next as usize)
    }
}

/// The part of a buffer that the library found, as much of it as is there: an empty one may be placed past the end.
pub(crate) fn part(s: &[u8], place: u64, length: u64) -> &[u8] {
    let rest = s.get(place as usize..).unwrap_or_default();
    &rest[..rest.len().min(length as usize)]
}

/// The version of the library that is linked, as one number: the major version times 1,000,000, the minor one times 1,000, and the
/// patch. It is this crate's.
///
/// ```
/// assert_eq!(brinethimble::version() / 1_000_000, 0, "the major version is in the millions");
/// ```
pub fn version() -> u32 {
    boundary::version()
}

/// The BER length at a place.
///
/// ```
/// use brinethimble::{Length, read_ber};
///
/// assert_eq!(read_ber(&[0x7f], 0), Length::Is { number: 127, bytes: 1, shortest: true });
/// assert_eq!(read_ber(&[0x80], 0), Length::Is { number: 0, bytes: 1, shortest: false });
/// assert_eq!(read_ber(&[0x81, 0], 0), Length::Is { number: 0, bytes: 2, shortest: false });
/// let most = Length::Is { number: u64::MAX, bytes: 9, shortest: true };
/// assert_eq!(read_ber(b"\x88\xff\xff\xff\xff\xff\xff\xff\xff", 0), most);
/// assert_eq!(read_ber(&[0x89], 0), Length::None);
/// assert_eq!(read_ber(&[0x81], 0), Length::Cut);
/// ```
pub fn read_ber(s: &[u8], at: usize) -> Length {
    match boundary::length(s, at) {
        [1, number, bytes, shortest] => Length::Is { number, bytes: bytes as usize, shortest: shortest == 1 },
        [2, ..] => Length::Cut,
        _ => Length::None,
    }
}

/// Whether two labels are the same: both have 16 bytes and agree in all but the byte at 7.
///
/// ```
/// let label = *b"\x06\x0e\x2b\x34\x01\x01\x01\x0d\x0e\x15\x00\x01\x00\x01\x00\x00";
/// assert!(brinethimble::same_label(&label, &label));
/// assert!(!brinethimble::same_label(&label, &label[..15]));
/// ```
pub fn same_label(a: &[u8], b: &[u8]) -> bool {
    boundary::same_label(a, b)
}

/// The first place from `from` on where 06 0e 2b 34 stand wholly before `end`, else `end`; `from` itself where that is at or
/// past the end. An end past the buffer is the buffer's.
///
/// ```
/// use brinethimble::next_key;
///
/// let s = b"\x00\x06\x0e\x2b\x34\x06\x0e\x2b\x34";
/// assert_eq!(next_key(s, 9, 0), 1);
/// assert_eq!(next_key(s, 9, 2), 5);
/// assert_eq!(next_key(s, 8, 2), 8);
/// ```
pub fn next_key(s: &[u8], end: usize, from: usize) -> usize {
    boundary::next_key(s, end, from)
}

#[cfg(test)]
mod tests {
    use super::*;

    #[test]
    fn the_library_has_the_crates_version() {
        let [major, minor, patch] = env!("CARGO_PKG_VERSION").split('.').map(|part| part.parse::<u32>().unwrap()).collect::<Vec<_>>()[..]
        else {
            panic!("three numbers are a version");
        };
        assert_eq!(version(), major * 1_000_000 + minor * 1_000 + patch);
    }

    #[test]
    fn a_length_past_the_bytes_is_cut() {
        assert_eq!(read_ber(&[], 0), Length::Cut);
        assert_eq!(read_ber(&[0x7f], 1), Length::Cut);
        assert_eq!(read_ber(&[0x7f], usize::MAX), Length::Cut);
        assert_eq!(read_ber(&[0x88, 1, 2, 3, 4, 5, 6, 7], 0), Length::Cut);
    }

    #[test]
    fn a_length_is_shortest_where_no_shorter_form_holds_it() {
        let forms: [(&[u8], usize, bool); 10] = [
            (&[0], 1, true),
            (&[0x7f], 1, true),
            (&[0x80], 1, false),
            (&[0x81, 0x7f], 2, false),
            (&[0x81, 0x80], 2, true),
            (&[0x82, 0, 0xff], 3, false),
            (&[0x82, 1, 0], 3, true),
            (b"\x87\xff\xff\xff\xff\xff\xff\xff", 8, true),
            (b"\x88\x00\xff\xff\xff\xff\xff\xff\xff", 9, false),
            (b"\x88\x01\x00\x00\x00\x00\x00\x00\x00", 9, true),
        ];
        for (bytes, size, least) in forms {
            let is = matches!(read_ber(bytes, 0), Length::Is { bytes, shortest, .. } if (bytes, shortest) == (size, least));
            assert!(is, "{bytes:x?}");
        }
    }

    #[test]
    fn labels_of_other_lengths_are_not_the_same() {
        assert!(!same_label(&[], &[]));
        assert!(!same_label(&[0; 17], &[0; 17]));
        assert!(same_label(&[0; 16], &[0; 16]));
    }

    #[test]
    fn each_byte_but_the_one_at_7_tells_labels_apart() {
        for i in 0..16 {
            let mut other = [0; 16];
            other[i] = 1;
            assert_eq!(same_label(&[0; 16], &other), i == 7, "byte {i}");
        }
    }

    #[test]
    fn a_search_past_the_end_stays() {
        assert_eq!(next_key(&[], 0, 0), 0);
        assert_eq!(next_key(&[], 0, 7), 7);
        assert_eq!(next_key(&[6; 40], 40, usize::MAX), usize::MAX);
        assert_eq!(next_key(&[6; 40], usize::MAX, 3), 40);
    }

    #[test]
    fn refusals_have_their_numbers() {
        let all = [
            Refusal::EndPastBuffer,
            Refusal::PastLimit,
            Refusal::NoRoom { needed: 7 },
            Refusal::ItemPastSet,
            Refusal::Closed,
            Refusal::Depth,
            Refusal::PackSize,
            Refusal::PackLabel,
            Refusal::PackLength,
            Refusal::TooShort { place: 1 },
            Refusal::NoKey { place: 2 },
            Refusal::NoLength { place: 3 },
            Refusal::Indefinite { place: 4 },
            Refusal::PastEnd { place: 5 },
            Refusal::NoFit,
            Refusal::Start,
            Refusal::Order,
            Refusal::Full,
            Refusal::File,
            Refusal::Shares,
        ];
        assert_eq!(all.map(Refusal::number), [1, 2, 3, 4, 5, 6, 7, 8, 9, 10, 11, 12, 13, 14, 15, 16, 17, 18, 19, 20]);
        assert_eq!(all[9..14].iter().map(|refusal| refusal.place()).collect::<Vec<_>>(), [1, 2, 3, 4, 5].map(Some));
        assert_eq!(all[2].to_string(), "7 bytes of room are needed");
    }
}
