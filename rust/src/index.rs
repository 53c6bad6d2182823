//! An index beside a file: which record covers a byte position, without a walk.
//!
//! It lives in lent bytes, 16 for each record, and can be stored with the file. A walk's records are added in order; then the
//! first that covers a position, by its label, its length or its value, is found by reading a few starts.
//!
//! ```
//! use brinethimble::{Entry, Index, Layout, Records, Refusal, tally};
//!
//! let label = *b"\x06\x0e\x2b\x34\x01\x01\x01\x0d\x0e\x15\x00\x01\x00\x01\x00\x00";
//! let file = [&[0][..], &label, &[2, 0xaa, 0xbb], &label, &[0x81, 0]].concat();
//! let tally = tally(&file);
//! let mut index = Index::new([0; 32], Layout::Rows);
//! for record in Records::of(&file) {
//!     index.add(Entry::of(&record, tally.group(&file, record.place)))?;
//! }
//!
//! assert_eq!(index.find(0)?, None);
//! assert_eq!(index.find(19)?, Some((0, Entry { start: 1, length_bytes: 1, group: 0, length: 2 })));
//! assert_eq!(index.find(37)?, Some((1, Entry { start: 20, length_bytes: 2, group: 0, length: 0 })));
//! assert_eq!(index.add(Entry { start: 38, length_bytes: 1, group: 0, length: 0 }), Err(Refusal::Full));
//! # Ok::<(), Refusal>(())
//! ```

use crate::boundary;
use crate::record::{Record, Refusal};

/// How an index lies in its bytes.
#[derive(Clone, Copy, PartialEq, Eq, Debug)]
pub enum Layout {
    /// 16 bytes a record: 48 bits start, 4 bits size of the length field, 12 bits group, 64 bits length.
    Rows,
    /// A column of all starts, 6 bytes for each record of room, and behind it one of the rest, 10 bytes each.
    Columns,
}

/// A record as an index has it.
#[derive(Clone, Copy, PartialEq, Eq, Debug)]
pub struct Entry {
    /// Where it starts in the file: below 2^48.
    pub start: u64,
    /// How many bytes its length field took: 1 to 9.
    pub length_bytes: u64,
    /// Its group in the tally: below 64, or [`Entry::OTHER`].
    pub group: u64,
    /// How long its value is.
    pub length: u64,
}

impl Entry {
    /// The group of records that are in none.
    pub const OTHER: u64 = 4095;

    /// A record that a walk gave, with its group.
    ///
    /// ```
    /// use brinethimble::{Entry, Records};
    ///
    /// let label = *b"\x06\x0e\x2b\x34\x01\x01\x01\x0d\x0e\x15\x00\x01\x00\x01\x00\x00";
    /// let file = [&label[..], &[0x81, 1, 0xaa]].concat();
    /// let record = Records::of(&file).next().unwrap();
    /// assert_eq!(Entry::of(&record, 7), Entry { start: 0, length_bytes: 2, group: 7, length: 1 });
    /// ```
    pub fn of(record: &Record, group: u64) -> Self {
        Entry { start: record.place as u64, length_bytes: record.length_bytes as u64, group, length: record.value.len() as u64 }
    }

    /// The four places of a record.
    fn places(&self) -> [u64; 4] {
        [self.start, self.length_bytes, self.group, self.length]
    }

    /// The number and the record of what was found, if it was.
    fn found([found, number, start, length_bytes, group, length]: [u64; 6]) -> Option<(usize, Self)> {
        (found == 1).then_some((number as usize, Entry { start, length_bytes, group, length }))
    }
}

/// An index in lent bytes: a slice, an array or a `Vec`. What is left over of a multiple of 16 bytes is not touched.
#[derive(Clone, Debug)]
pub struct Index<B> {
    bytes: B,
    layout: Layout,
    used: usize,
}

impl<B: AsRef<[u8]>> Index<B> {
    /// An empty index.
    ///
    /// ```
    /// use brinethimble::{Index, Layout};
    ///
    /// let index = Index::new(vec![0; 160], Layout::Columns);
    /// assert_eq!((index.len(), index.find(0)), (0, Ok(None)));
    /// ```
    pub fn new(bytes: B, layout: Layout) -> Self {
        Self::stored(bytes, layout, 0)
    }

    /// An index that was made before, of so many records.
    ///
    /// ```
    /// use brinethimble::{Entry, Index, Layout, Refusal};
    ///
    /// let bytes = *b"\0\0\0\0\0\x01\x10\0\0\0\0\0\0\0\0\x02";
    /// let found = Some((0, Entry { start: 1, length_bytes: 1, group: 0, length: 2 }));
    /// assert_eq!(Index::stored(bytes, Layout::Rows, 1).find(19)?, found);
    /// assert_eq!(Index::stored(bytes, Layout::Rows, 2).find(19), Err(Refusal::EndPastBuffer));
    /// # Ok::<(), Refusal>(())
    /// ```
    pub fn stored(bytes: B, layout: Layout, used: usize) -> Self {
        Index { bytes, layout, used }
    }

    /// How many records it has.
    pub fn len(&self) -> usize {
        self.used
    }

    /// Whether it has none.
    pub fn is_empty(&self) -> bool {
        self.used == 0
    }

    /// Its bytes.
    pub fn bytes(&self) -> &[u8] {
        self.bytes.as_ref()
    }

    /// The same index in another layout, in the first bytes of other room; turning back gives the same bytes.
    ///
    /// ```
    /// use brinethimble::{Entry, Index, Layout, Refusal};
    ///
    /// let mut rows = Index::new([0; 33], Layout::Rows);
    /// rows.add(Entry { start: 1, length_bytes: 1, group: 0, length: 2 })?;
    /// let columns = rows.turned([0; 33], Layout::Columns)?;
    /// assert_eq!(columns.bytes()[..22], *b"\0\0\0\0\0\x01\0\0\0\0\0\0\x10\0\0\0\0\0\0\0\0\x02");
    /// assert_eq!(columns.find(19), rows.find(19));
    /// assert_eq!(columns.turned([0; 33], Layout::Rows)?.bytes(), rows.bytes());
    /// assert_eq!(columns.turned([0; 32], Layout::Rows).unwrap_err(), Refusal::NoRoom { needed: 33 });
    /// # Ok::<(), Refusal>(())
    /// ```
    pub fn turned<C: AsRef<[u8]> + AsMut<[u8]>>(&self, mut room: C, layout: Layout) -> Result<Index<C>, Refusal> {
        let (bytes, out) = (self.bytes(), room.as_mut());
        let needed = bytes.len();
        match (self.layout, layout) {
            (Layout::Rows, Layout::Columns) => boundary::index_columns(bytes, out)?,
            (Layout::Columns, Layout::Rows) => boundary::index_rows(bytes, out)?,
            _ => out.get_mut(..needed).ok_or(Refusal::NoRoom { needed })?.copy_from_slice(bytes),
        }
        Ok(Index::stored(room, layout, self.used))
    }

    /// The first of its records that covers a byte position of the file, with its number from 0; none where no record does. In
    /// bytes that adding did not make, where starts may not ascend, it is one of the records, or none.
    pub fn find(&self, position: u64) -> Result<Option<(usize, Entry)>, Refusal> {
        boundary::index_find(self.bytes(), self.layout == Layout::Columns, self.used, position).map(Entry::found)
    }
}

impl<B: AsRef<[u8]> + AsMut<[u8]>> Index<B> {
    /// Adds a record behind the last one. A refusal leaves the index as it was.
    ///
    /// ```
    /// use brinethimble::{Entry, Index, Layout, Refusal};
    ///
    /// let mut index = Index::new([0; 48], Layout::Rows);
    /// let entry = |start| Entry { start, length_bytes: 1, group: Entry::OTHER, length: 2 };
    /// assert_eq!(index.add(entry(1)), Ok(()));
    /// assert_eq!(index.add(entry(19)), Err(Refusal::Order));
    /// assert_eq!(index.add(entry(20)), Ok(()));
    /// assert_eq!(index.add(entry(1 << 48)), Err(Refusal::Start));
    /// assert_eq!(index.add(Entry { group: 64, ..entry(40) }), Err(Refusal::NoFit));
    /// assert_eq!(index.len(), 2);
    /// ```
    pub fn add(&mut self, entry: Entry) -> Result<(), Refusal> {
        let columns = self.layout == Layout::Columns;
        self.used = boundary::index_add(self.bytes.as_mut(), columns, self.used, &entry.places())?;
        Ok(())
    }
}

/// An index that two files in transit share, each with a reserved share of its entries, closed or not. File 0 stands from the first
/// entry up, file 1 from the last one down.
///
/// ```
/// use brinethimble::{Entry, Layout, Refusal, SharedIndex};
///
/// let entry = |start| Entry { start, length_bytes: 1, group: 0, length: 0 };
/// let mut room = SharedIndex::new([0; 64], Layout::Rows, [1, 2])?;
/// room.open(0)?;
/// assert_eq!((room.add(0, entry(0)), room.add(0, entry(17))), (Ok(()), Ok(())));
/// assert_eq!(room.add(0, entry(34)), Err(Refusal::Full), "two entries are free, and both are the other's share");
/// room.open(1)?;
/// assert_eq!(room.add(1, entry(5)), Ok(()));
/// assert_eq!((room.find(0, 20)?, room.find(1, 20)?), (Some((1, entry(17))), Some((0, entry(5)))));
/// room.close(0)?;
/// assert_eq!(room.find(0, 20), Err(Refusal::File));
/// # Ok::<(), Refusal>(())
/// ```
#[derive(Clone, Debug)]
pub struct SharedIndex<B> {
    bytes: B,
    layout: Layout,
    room: boundary::Room,
}

impl<B: AsRef<[u8]>> SharedIndex<B> {
    /// A room with two shares, and no file open. All of the bytes are its.
    ///
    /// ```
    /// use brinethimble::{Layout, Refusal, SharedIndex};
    ///
    /// assert!(SharedIndex::new([0; 64], Layout::Columns, [1, 3]).is_ok());
    /// assert_eq!(SharedIndex::new([0; 64], Layout::Columns, [3, 2]).unwrap_err(), Refusal::Shares);
    /// ```
    pub fn new(bytes: B, layout: Layout, shares: [usize; 2]) -> Result<Self, Refusal> {
        let room = boundary::shared_set_up(bytes.as_ref(), shares[0], shares[1])?;
        Ok(SharedIndex { bytes, layout, room })
    }

    /// Opens a file, 0 or 1, which has no record then.
    pub fn open(&mut self, file: u64) -> Result<(), Refusal> {
        boundary::shared_open(&mut self.room, file)
    }

    /// Closes a file: its entries are free again, its share stays.
    pub fn close(&mut self, file: u64) -> Result<(), Refusal> {
        boundary::shared_close(&mut self.room, file)
    }

    /// The first of a file's records that covers a byte position, with its number from 0; none where no record does.
    pub fn find(&self, file: u64, position: u64) -> Result<Option<(usize, Entry)>, Refusal> {
        boundary::shared_find(self.bytes.as_ref(), self.layout == Layout::Columns, &self.room, file, position).map(Entry::found)
    }
}

impl<B: AsRef<[u8]> + AsMut<[u8]>> SharedIndex<B> {
    /// Adds a record behind the last one of a file. A refusal leaves the room as it was.
    pub fn add(&mut self, file: u64, entry: Entry) -> Result<(), Refusal> {
        let columns = self.layout == Layout::Columns;
        boundary::shared_add(self.bytes.as_mut(), columns, &mut self.room, file, &entry.places())
    }
}

#[cfg(test)]
mod tests {
    use super::*;

    /// The two records of the rules' example.
    const ONE: Entry = Entry { start: 1, length_bytes: 1, group: 0, length: 2 };
    const TWO: Entry = Entry { start: 20, length_bytes: 2, group: 0, length: 0 };

    const LAYOUTS: [Layout; 2] = [Layout::Rows, Layout::Columns];

    #[test]
    fn two_records_that_touch() {
        for layout in LAYOUTS {
            let mut index = Index::new([0; 33], layout);
            assert_eq!((index.add(ONE), index.add(TWO)), (Ok(()), Ok(())));
            let found = |position| index.find(position).unwrap().map(|(number, _)| number);
            assert_eq!([0, 1, 17, 19, 20, 37, 38].map(found), [None, Some(0), Some(0), Some(0), Some(1), Some(1), None]);
            assert_eq!(index.find(37), Ok(Some((1, TWO))));
            assert_eq!(index.find(u64::MAX), Ok(None));
        }
    }

    #[test]
    fn bits_of_every_field() {
        let all = Entry { start: (1 << 48) - 1, length_bytes: 9, group: 4095, length: u64::MAX };
        for layout in LAYOUTS {
            let mut index = Index::new([0; 16], layout);
            assert_eq!(index.add(all), Ok(()));
            assert_eq!(index.bytes(), *b"\xff\xff\xff\xff\xff\xff\x9f\xff\xff\xff\xff\xff\xff\xff\xff\xff");
            assert_eq!(index.find(u64::MAX), Ok(Some((0, all))), "the end lies past 2^64 and does not wrap");
        }
    }

    #[test]
    fn the_lowest_refusal_leaves_the_bytes() {
        let entry = |start, length_bytes, group| Entry { start, length_bytes, group, length: 0 };
        for layout in LAYOUTS {
            let mut index = Index::new([0; 32], layout);
            index.add(ONE).unwrap();
            index.add(TWO).unwrap();
            let bytes = index.bytes().to_vec();
            for (entry, refusal) in [
                (entry(1 << 48, 0, 0), Refusal::NoFit),
                (entry(38, 10, 0), Refusal::NoFit),
                (entry(38, 1, 64), Refusal::NoFit),
                (entry(38, 1, 4094), Refusal::NoFit),
                (entry(38, 1, 4096), Refusal::NoFit),
                (entry(1 << 48, 1, 0), Refusal::Start),
                (entry(19, 1, 0), Refusal::Order),
                (entry(37, 1, 4095), Refusal::Order),
                (entry(38, 1, 4095), Refusal::Full),
            ] {
                assert_eq!(index.add(entry), Err(refusal));
            }
            assert_eq!((index.bytes(), index.len()), (&bytes[..], 2));
            let mut more = Index::stored(bytes.clone(), layout, 3);
            assert_eq!(more.add(entry(0, 0, 0)), Err(Refusal::EndPastBuffer));
            assert_eq!(more.find(1), Err(Refusal::EndPastBuffer));
            assert_eq!(more.bytes(), bytes);
        }
    }

    #[test]
    fn many_records_are_each_found() {
        for layout in LAYOUTS {
            let mut index = Index::new(vec![0; 16 * 1000], layout);
            for start in (0..).step_by(20).take(1000) {
                index.add(Entry { start, length_bytes: 1, group: start % 64, length: start % 4 }).unwrap();
            }
            for position in 0..20_010 {
                let (number, into) = (position / 20, position % 20);
                let covered = number < 1000 && into < 17 + number * 20 % 4;
                assert_eq!(index.find(position).unwrap().map(|(number, _)| number as u64), covered.then_some(number));
            }
        }
    }

    #[test]
    fn turning_back_gives_the_same_bytes() {
        for count in 0..100u8 {
            let bytes: Vec<u8> = (0..count).collect();
            for (there, back) in [(Layout::Columns, Layout::Rows), (Layout::Rows, Layout::Columns)] {
                let index = Index::stored(bytes.clone(), back, 0);
                let turned = index.turned(vec![0; count.into()], there).unwrap();
                assert_eq!(turned.turned(vec![0; count.into()], back).unwrap().bytes(), bytes);
                assert_eq!(index.turned(vec![7; 100], back).unwrap().bytes()[..count.into()], bytes);
                if let Some(less) = usize::from(count).checked_sub(1) {
                    let refusal = Refusal::NoRoom { needed: count.into() };
                    assert_eq!(index.turned(vec![0; less], there).unwrap_err(), refusal);
                    assert_eq!(index.turned(vec![0; less], back).unwrap_err(), refusal);
                }
            }
        }
    }

    #[test]
    fn two_files_share_a_room() {
        let entry = |start| Entry { start, length_bytes: 1, group: 0, length: 0 };
        for layout in LAYOUTS {
            let mut room = SharedIndex::new([0; 64], layout, [1, 2]).unwrap();
            assert_eq!(room.open(2), Err(Refusal::File));
            assert_eq!((room.open(0), room.open(0)), (Ok(()), Err(Refusal::File)));
            let bad = Entry { length_bytes: 0, ..entry(0) };
            assert_eq!((room.add(1, bad), room.add(0, bad)), (Err(Refusal::File), Err(Refusal::NoFit)));
            assert_eq!([0, 17, 34].map(|start| room.add(0, entry(start))), [Ok(()), Ok(()), Err(Refusal::Full)]);
            assert_eq!(room.add(0, entry(33)), Err(Refusal::Order));
            room.open(1).unwrap();
            assert_eq!([0, 17, 34].map(|start| room.add(1, entry(start))), [Ok(()), Ok(()), Err(Refusal::Full)]);
            assert_eq!(room.find(0, 17), Ok(Some((1, entry(17)))));
            assert_eq!((room.close(0), room.close(0)), (Ok(()), Err(Refusal::File)));
            assert_eq!([34, 51].map(|start| room.add(1, entry(start))), [Ok(()), Err(Refusal::Full)]);
            room.open(0).unwrap();
            assert_eq!((room.find(0, 17), room.add(0, entry(100))), (Ok(None), Ok(())));
            let found = |position| room.find(1, position).unwrap().map(|(number, _)| number);
            assert_eq!([0, 17, 50, 51].map(found), [Some(0), Some(1), Some(2), None]);
        }
    }

    #[test]
    fn bytes_that_adding_did_not_make_are_answered() {
        for used in 0..4 {
            for position in [0, 1, 1 << 47, u64::MAX] {
                let index = Index::stored([0xff; 48], Layout::Columns, used);
                let found = index.find(position).unwrap();
                assert!(found.is_none_or(|(number, _)| number < used));
            }
        }
    }
}
