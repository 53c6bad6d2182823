//! What values hold: runs of records, and the items of sets.
//!
//! A run is records of any 16 bytes, one after the other. A set's items are a tag, a length and a value each. Both end at the
//! first that is not whole.
//!
//! ```
//! use brinethimble::{Coding, klvs, local_items};
//!
//! let set = [0x3c, 0x0a, 0, 2, 0xaa, 0xbb, 0x44, 0x01, 0, 9];
//! let items: Vec<_> = local_items(&set, Coding::TWO).collect();
//! assert_eq!((items[0].tag, items[0].value_place), (&[0x3c, 0x0a][..], 4));
//! assert_eq!(items[0].value, [0xaa, 0xbb]);
//! assert_eq!(items.len(), 1, "the second is not whole");
//!
//! let run = [&[7; 16][..], &[1, 0xcc], &[8; 16], &[0]].concat();
//! assert_eq!(klvs(&run).map(|record| record.label[0]).collect::<Vec<_>>(), [7, 8]);
//! ```

use core::iter::FusedIterator;

use crate::boundary;
use crate::record::{Record, part};

/// The records of a run.
#[derive(Clone, Debug)]
pub struct Klvs<'a> {
    data: &'a [u8],
    at: usize,
}

/// The records of a run: 16 bytes of any kind, a length and a value each, up to the first that is not whole.
///
/// ```
/// let run = [&[7; 16][..], &[1, 0xcc], &[8; 16], &[1]].concat();
/// let records: Vec<_> = brinethimble::klvs(&run).collect();
/// assert_eq!(records.len(), 1);
/// assert_eq!((records[0].label, records[0].value), (&[7; 16], &[0xcc][..]));
/// ```
pub fn klvs(data: &[u8]) -> Klvs<'_> {
    Klvs { data, at: 0 }
}

impl<'a> Iterator for Klvs<'a> {
    type Item = Record<'a>;

    fn next(&mut self) -> Option<Record<'a>> {
        let (record, next) = Record::of_run(self.data, boundary::run(self.data, self.at));
        self.at = next;
        record
    }
}

impl FusedIterator for Klvs<'_> {}

/// How a set's items are coded.
#[derive(Clone, Copy, PartialEq, Eq, Debug)]
pub struct Coding {
    /// How many bytes a tag has.
    pub tag: usize,
    /// Whether lengths are BER, or two bytes.
    pub ber: bool,
}

impl Coding {
    /// Tags and lengths of two bytes: a set whose label has 53h at 5.
    pub const TWO: Coding = Coding { tag: 2, ber: false };
    /// Tags of two bytes and BER lengths: a set whose label has 13h at 5.
    pub const BER: Coding = Coding { tag: 2, ber: true };
    /// Tags of one byte and lengths of two: a set whose label has 43h at 5.
    pub const ONE: Coding = Coding { tag: 1, ber: false };
}

/// An item of a set.
#[derive(Clone, Copy, PartialEq, Eq, Debug)]
pub struct Item<'a> {
    /// Where it begins in the set.
    pub place: usize,
    /// Its tag.
    pub tag: &'a [u8],
    /// Where its value begins in the set.
    pub value_place: usize,
    /// Its value.
    pub value: &'a [u8],
    /// How many bytes its length has: 1 to 9 where it is BER, else 2.
    pub length_bytes: usize,
    /// Whether that is the shortest form of its length, as in [`crate::Length::Is`]. A length of two bytes has no other.
    pub shortest: bool,
}

/// The items of a set.
#[derive(Clone, Debug)]
pub struct Items<'a> {
    set: &'a [u8],
    coding: Coding,
    at: usize,
}

/// The items of a set, up to the first that is not whole.
///
/// ```
/// use brinethimble::{Coding, local_items};
///
/// let values = |set: &'static [u8], coding| local_items(set, coding).map(|item| item.value).collect::<Vec<_>>();
/// assert_eq!(values(b"\x15\x01\x81\x02ab", Coding::BER), [b"ab"]);
/// assert_eq!(values(b"\x88\x00\x02ab\x89\x00\x00", Coding::ONE), [&b"ab"[..], b""]);
/// ```
pub fn local_items(set: &[u8], coding: Coding) -> Items<'_> {
    Items { set, coding, at: 0 }
}

impl<'a> Iterator for Items<'a> {
    type Item = Item<'a>;

    fn next(&mut self) -> Option<Item<'a>> {
        let stepped = boundary::item(self.set, self.coding.tag, self.coding.ber, self.at);
        let [found, place, value, length, next, bytes, shortest] = stepped;
        self.at = next as usize;
        (found == 1).then(|| Item {
            place: place as usize,
            tag: part(self.set, place, self.coding.tag as u64),
            value_place: value as usize,
            value: part(self.set, value, length),
            length_bytes: bytes as usize,
            shortest: shortest == 1,
        })
    }
}

impl FusedIterator for Items<'_> {}

#[cfg(test)]
mod tests {
    use super::*;

    #[test]
    fn nothing_is_found_in_nothing() {
        assert_eq!(klvs(&[]).count(), 0);
        for coding in [Coding::TWO, Coding::BER, Coding::ONE, Coding { tag: 0, ber: false }] {
            assert_eq!(local_items(&[], coding).count(), 0);
        }
    }

    #[test]
    fn items_and_records_of_runs_tell_of_their_length_fields() {
        let forms = |set: &[u8], coding| local_items(set, coding).map(|item| (item.length_bytes, item.shortest)).collect::<Vec<_>>();
        assert_eq!(forms(b"\x15\x01\x81\x02ab\x15\x02\x01c\x15\x03\x80", Coding::BER), [(2, false), (1, true), (1, false)]);
        assert_eq!(forms(b"\x88\x00\x02ab\x89\x00\x00", Coding::ONE), [(2, true), (2, true)]);
        let run = [&[7; 16][..], &[0x80], &[8; 16], &[0]].concat();
        assert_eq!(klvs(&run).map(|record| (record.length_bytes, record.shortest)).collect::<Vec<_>>(), [(1, false), (1, true)]);
    }

    #[test]
    fn a_run_asks_for_no_key_start() {
        assert_eq!(klvs(&[0; 34]).count(), 2);
    }

    #[test]
    fn hostile_lengths_end_the_step() {
        let huge = b"\x88\xff\xff\xff\xff\xff\xff\xff\xff";
        assert_eq!(klvs(&[&[7; 16][..], huge].concat()).count(), 0);
        assert_eq!(local_items(&[&[1, 2][..], huge].concat(), Coding::BER).count(), 0);
        assert_eq!(local_items(&[1, 2, 0xff, 0xff], Coding::TWO).count(), 0);
        assert_eq!(local_items(&[0; 64], Coding { tag: usize::MAX, ber: true }).count(), 0);
    }

    #[test]
    fn no_length_ends_the_step_at_once() {
        assert_eq!(klvs(&[&[7; 16][..], &[0x89], &[0; 99]].concat()).count(), 0);
        assert_eq!(local_items(&[1, 2, 0x89, 0, 0, 0, 0, 0], Coding::BER).count(), 0);
    }
}
