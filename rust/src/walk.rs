//! The walk over a file's records, finished or arriving.
//!
//! The finished walk ([`Records`]) lists a buffer up to an end as the published Rust does. The arriving walk ([`Arriving`])
//! lists an upload that is under way: a record that it gives is in the finished list of every file that starts with these
//! bytes, so more bytes never unsay one. It waits where a record may still come whole within the operator's limit.
//!
//! A walk stands at a [`Cursor`], which also has the place where walking last went on. From there to a record's start are the
//! bytes that were passed before it ([`Record::passed`]): what was lost in between.
//!
//! ```
//! use brinethimble::{Arriving, Records};
//!
//! let label = *b"\x06\x0e\x2b\x34\x01\x01\x01\x0d\x0e\x15\x00\x01\x00\x01\x00\x00";
//! let file = [&[0; 5][..], &label, &[2, 0xaa, 0xbb], &[0x99; 3], &label, &[0]].concat();
//! assert_eq!(Records::of(&file).map(|record| (record.place, record.passed)).collect::<Vec<_>>(), [(5, 5), (27, 3)]);
//!
//! let mut upload = Arriving::new(1000);
//! assert_eq!(upload.certain(&file[..22])?.count(), 0);
//! assert_eq!((upload.cursor().at, upload.cursor().since), (5, 0));
//! let arrived: Vec<_> = upload.certain(&file)?.map(|record| (record.place, record.passed)).collect();
//! assert_eq!(arrived, [(5, 5), (27, 3)]);
//! # Ok::<(), brinethimble::Refusal>(())
//! ```

use core::iter::{FusedIterator, from_fn};

use crate::boundary;
use crate::record::{Record, Refusal};

/// Where a walk stands, and where walking last went on. The first cursor is the default one, 0 and 0; behind a record both are its
/// value's end.
///
/// ```
/// use brinethimble::{Cursor, next_klv};
///
/// let label = *b"\x06\x0e\x2b\x34\x01\x01\x01\x0d\x0e\x15\x00\x01\x00\x01\x00\x00";
/// let file = [&[0][..], &label, &[0]].concat();
/// let passed = |since| next_klv(&file, 18, Cursor { at: 1, since }).map(|(record, _)| record.unwrap().passed);
/// assert_eq!((passed(0)?, passed(1)?), (1, 0));
/// assert_eq!(passed(9)?, 0, "a place past the cursor counts as the cursor");
/// # Ok::<(), brinethimble::Refusal>(())
/// ```
#[derive(Clone, Copy, PartialEq, Eq, Default, Debug)]
pub struct Cursor {
    /// Where the walk stands.
    pub at: usize,
    /// Where walking last went on: the end of the last record's value, at first 0.
    pub since: usize,
}

/// A step of the finished walk from a cursor: the next record, or none where the walk is over, and the next cursor.
///
/// ```
/// let label = *b"\x06\x0e\x2b\x34\x01\x01\x01\x0d\x0e\x15\x00\x01\x00\x01\x00\x00";
/// let file = [&label[..], &[0]].concat();
/// let first = brinethimble::Cursor::default();
/// let (record, next) = brinethimble::next_klv(&file, 17, first)?;
/// assert_eq!((record.unwrap().value_place, next.at, next.since), (17, 17, 17));
/// assert_eq!(brinethimble::next_klv(&file, 16, first)?, (None, first));
/// # Ok::<(), brinethimble::Refusal>(())
/// ```
pub fn next_klv(s: &[u8], end: usize, cursor: Cursor) -> Result<(Option<Record<'_>>, Cursor), Refusal> {
    boundary::step(s, end, cursor).map(|stepped| Record::stepped(s, stepped))
}

/// The records of the finished walk.
#[derive(Clone, Debug)]
pub struct Records<'a> {
    s: &'a [u8],
    end: usize,
    cursor: Cursor,
}

impl<'a> Records<'a> {
    /// The records of all of a buffer.
    ///
    /// ```
    /// let label = *b"\x06\x0e\x2b\x34\x01\x01\x01\x0d\x0e\x15\x00\x01\x00\x01\x00\x00";
    /// assert_eq!(brinethimble::Records::of(&label).count(), 0);
    /// assert_eq!(brinethimble::Records::of(&[&label[..], &[0]].concat()).count(), 1);
    /// ```
    pub fn of(s: &'a [u8]) -> Self {
        Records { s, end: s.len(), cursor: Cursor::default() }
    }

    /// The records of a buffer up to an end.
    ///
    /// ```
    /// use brinethimble::{Records, Refusal};
    ///
    /// assert_eq!(Records::before(&[0; 20], 20)?.count(), 0);
    /// assert_eq!(Records::before(&[0; 20], 21).unwrap_err(), Refusal::EndPastBuffer);
    /// # Ok::<(), Refusal>(())
    /// ```
    pub fn before(s: &'a [u8], end: usize) -> Result<Self, Refusal> {
        // A step at the end finds nothing, and is refused where every other would be.
        boundary::step(s, end, Cursor { at: end, since: end })?;
        Ok(Records { s, end, cursor: Cursor::default() })
    }

    /// Where the walk is.
    ///
    /// ```
    /// let mut records = brinethimble::Records::of(&[0; 20]);
    /// assert_eq!((records.cursor().at, records.next(), records.cursor().at), (0, None, 20));
    /// ```
    pub fn cursor(&self) -> Cursor {
        self.cursor
    }
}

impl<'a> Iterator for Records<'a> {
    type Item = Record<'a>;

    fn next(&mut self) -> Option<Record<'a>> {
        let (record, next) = next_klv(self.s, self.end, self.cursor).ok()?;
        self.cursor = next;
        record
    }
}

impl FusedIterator for Records<'_> {}

/// The arriving walk of an upload whose bytes the caller keeps, in a buffer that grows: its limit and its cursor. Each call is lent
/// all that has arrived, from the first byte on. A walk that is handed only the bytes that are new is [`crate::Feeding`].
#[derive(Clone, Debug)]
pub struct Arriving {
    limit: usize,
    cursor: Cursor,
}

impl Arriving {
    /// The walk of an upload of at most so many bytes.
    ///
    /// ```
    /// use brinethimble::{Arriving, Refusal};
    ///
    /// let mut upload = Arriving::new(40);
    /// assert_eq!(upload.next_klv(&[0; 41]), Err(Refusal::PastLimit));
    /// assert_eq!(upload.cursor().at, 0);
    /// ```
    pub fn new(limit: usize) -> Self {
        Arriving::from_cursor(limit, Cursor::default())
    }

    /// The walk of an upload of at most so many bytes, from a cursor.
    ///
    /// ```
    /// use brinethimble::{Arriving, Cursor};
    ///
    /// let label = *b"\x06\x0e\x2b\x34\x01\x01\x01\x0d\x0e\x15\x00\x01\x00\x01\x00\x00";
    /// let file = [&label[..], &[1, 7], &label, &[0]].concat();
    /// let mut upload = Arriving::from_cursor(1000, Cursor { at: 18, since: 18 });
    /// assert_eq!(upload.next_klv(&file)?.map(|record| record.place), Some(18));
    /// # Ok::<(), brinethimble::Refusal>(())
    /// ```
    pub fn from_cursor(limit: usize, cursor: Cursor) -> Self {
        Arriving { limit, cursor }
    }

    /// Where the walk is: where it waits, once a step has given no record.
    ///
    /// ```
    /// let mut upload = brinethimble::Arriving::new(100);
    /// assert_eq!(upload.next_klv(b"none of these starts a key\x06\x0e")?, None);
    /// assert_eq!((upload.cursor().at, upload.cursor().since), (26, 0));
    /// # Ok::<(), brinethimble::Refusal>(())
    /// ```
    pub fn cursor(&self) -> Cursor {
        self.cursor
    }

    /// The next certain record in `a`, all that has arrived so far, or none where the walk waits.
    ///
    /// ```
    /// let label = *b"\x06\x0e\x2b\x34\x01\x01\x01\x0d\x0e\x15\x00\x01\x00\x01\x00\x00";
    /// let torn = [&label[..], &[1]].concat();
    /// let mut upload = brinethimble::Arriving::new(18);
    /// assert_eq!((upload.next_klv(&torn)?, upload.cursor().at), (None, 0)); // the value may still come
    /// let mut upload = brinethimble::Arriving::new(17);
    /// assert_eq!((upload.next_klv(&torn)?, upload.cursor().at), (None, 17)); // it cannot
    /// # Ok::<(), brinethimble::Refusal>(())
    /// ```
    pub fn next_klv<'a>(&mut self, a: &'a [u8]) -> Result<Option<Record<'a>>, Refusal> {
        let (record, next) = Record::stepped(a, boundary::arrive(a, self.limit, self.cursor)?);
        self.cursor = next;
        Ok(record)
    }

    /// The records that have become certain with `a`, all that has arrived so far.
    ///
    /// ```
    /// let label = *b"\x06\x0e\x2b\x34\x01\x01\x01\x0d\x0e\x15\x00\x01\x00\x01\x00\x00";
    /// let file = [&label[..], &[1, 7], &label, &[0]].concat();
    /// let mut upload = brinethimble::Arriving::new(1000);
    /// assert_eq!(upload.certain(&file[..30])?.map(|record| record.value).collect::<Vec<_>>(), [[7]]);
    /// assert_eq!(upload.certain(&file)?.map(|record| record.place).collect::<Vec<_>>(), [18]);
    /// # Ok::<(), brinethimble::Refusal>(())
    /// ```
    pub fn certain<'a>(&mut self, a: &'a [u8]) -> Result<impl FusedIterator<Item = Record<'a>>, Refusal> {
        // As in `Records::before`: this step only refuses.
        boundary::arrive(a, self.limit, Cursor { at: a.len(), since: a.len() })?;
        Ok(from_fn(move || self.next_klv(a).ok()?).fuse())
    }

    /// Fills lent room with the next certain records and moves on behind them. The walk waits if there was room for more.
    ///
    /// ```
    /// let label = *b"\x06\x0e\x2b\x34\x01\x01\x01\x0d\x0e\x15\x00\x01\x00\x01\x00\x00";
    /// let file = [&label[..], &[1, 7], &label, &[0]].concat();
    /// let mut upload = brinethimble::Arriving::new(1000);
    /// let mut room = [[0; 6]; 8];
    /// assert_eq!(upload.certain_into(&file, &mut room)?, 2);
    /// assert_eq!(room[..2], [[0, 17, 1, 1, 1, 0], [18, 35, 0, 1, 1, 0]]);
    /// # Ok::<(), brinethimble::Refusal>(())
    /// ```
    pub fn certain_into(&mut self, a: &[u8], room: &mut [Listed]) -> Result<usize, Refusal> {
        let filled = Filled::new(boundary::arrivals(a, self.limit, self.cursor, room.as_flattened_mut())?);
        self.cursor = filled.next;
        Ok(filled.records)
    }
}

/// A record in lent room: its place, its value's place, its value's length, the bytes of its length field, 1 where that is the
/// shortest form, else 0, and the bytes passed before it.
pub type Listed = [u64; 6];

/// What [`records_into`] has put.
#[derive(Clone, Copy, PartialEq, Eq, Debug)]
pub struct Filled {
    /// How many records.
    pub records: usize,
    /// The next cursor.
    pub next: Cursor,
}

impl Filled {
    /// What a call says that it has put.
    fn new([records, next, since]: [u64; 3]) -> Self {
        Filled { records: records as usize, next: Cursor { at: next as usize, since: since as usize } }
    }
}

/// Fills lent room with records of the finished walk from a cursor. The walk is over if there was room for more.
///
/// ```
/// use brinethimble::{Cursor, records_into};
///
/// let label = *b"\x06\x0e\x2b\x34\x01\x01\x01\x0d\x0e\x15\x00\x01\x00\x01\x00\x00";
/// let file = [&label[..], &[1, 7], &[9; 3], &label, &[0]].concat();
/// let mut room = [[0; 6]];
/// let first = records_into(&file, 38, Cursor::default(), &mut room)?;
/// assert_eq!((first.records, first.next, room), (1, Cursor { at: 18, since: 18 }, [[0, 17, 1, 1, 1, 0]]));
/// let second = records_into(&file, 38, first.next, &mut room)?;
/// assert_eq!((second.records, second.next.at, room), (1, 38, [[21, 38, 0, 1, 1, 3]]));
/// assert_eq!(records_into(&file, 38, second.next, &mut room)?.records, 0);
/// # Ok::<(), brinethimble::Refusal>(())
/// ```
pub fn records_into(s: &[u8], end: usize, cursor: Cursor, room: &mut [Listed]) -> Result<Filled, Refusal> {
    boundary::records(s, end, cursor, room.as_flattened_mut()).map(Filled::new)
}

/// A file's records in groups by their labels.
#[derive(Clone, Debug)]
pub struct Tally {
    firsts: [usize; 64],
    counts: [usize; 64],
    groups: usize,
    /// How many records are in none of the groups.
    pub other: u64,
}

impl Tally {
    /// Each group in order of first appearance: its first record's place and how many it has. There are at most 64.
    ///
    /// ```
    /// let label = *b"\x06\x0e\x2b\x34\x01\x01\x01\x0d\x0e\x15\x00\x01\x00\x01\x00\x00";
    /// let tally = brinethimble::tally(&[&label[..], &[0]].concat());
    /// assert_eq!(tally.groups().collect::<Vec<_>>(), [(0, 1)]);
    /// ```
    pub fn groups(&self) -> impl Iterator<Item = (usize, usize)> {
        self.firsts.into_iter().zip(self.counts).take(self.groups)
    }

    /// The number of the group that the record at a place belongs to, as an index has it: below 64, or 4095 for other. `s` is the
    /// file that was tallied.
    ///
    /// ```
    /// let label = *b"\x06\x0e\x2b\x34\x01\x01\x01\x0d\x0e\x15\x00\x01\x00\x01\x00\x00";
    /// let file = [&label[..], &[0]].concat();
    /// let tally = brinethimble::tally(&file);
    /// assert_eq!((tally.group(&file, 0), tally.group(&file, 1)), (0, brinethimble::Entry::OTHER));
    /// ```
    pub fn group(&self, s: &[u8], place: usize) -> u64 {
        boundary::group(s, &self.firsts, self.groups, place)
    }
}

/// The records of the finished walk of all of `s`, in groups: by same label, and two sets whose labels differ in how their items
/// are coded (byte 5 is 13h, 43h or 53h behind a byte 4 of 02h) are in one group, too.
///
/// ```
/// let set = *b"\x06\x0e\x2b\x34\x02\x53\x01\x01\x0d\x01\x01\x01\x01\x01\x2f\x00";
/// let mut coded = set;
/// coded[5] = 0x13;
/// let tally = brinethimble::tally(&[&set[..], &[0], &coded, &[0]].concat());
/// assert_eq!(tally.groups().collect::<Vec<_>>(), [(0, 2)]);
/// assert!(!brinethimble::same_label(&set, &coded));
///
/// let label = *b"\x06\x0e\x2b\x34\x01\x01\x01\x0d\x0e\x15\x00\x01\x00\x01\x00\x00";
/// let other = *b"\x06\x0e\x2b\x34\x01\x01\x01\x0e\x0e\x15\x00\x01\x00\x01\x00\x00";
/// let file = [&[0][..], &label, &[2, 0xaa, 0xbb], &other, &[0x81, 0]].concat();
/// let tally = brinethimble::tally(&file);
/// assert_eq!(tally.groups().collect::<Vec<_>>(), [(1, 2)]);
/// assert_eq!(tally.other, 0);
/// ```
pub fn tally(s: &[u8]) -> Tally {
    let (mut firsts, mut counts) = ([0; 64], [0; 64]);
    let [groups, other] = boundary::tally(s, &mut firsts, &mut counts);
    Tally { firsts, counts, groups: groups as usize, other }
}

#[cfg(test)]
mod tests {
    use super::*;

    /// The cursor at a place where walking went on.
    fn at(place: usize) -> Cursor {
        Cursor { at: place, since: place }
    }

    /// A key with a length field and a value.
    fn record(kind: u8, length: &[u8], value: &[u8]) -> Vec<u8> {
        [b"\x06\x0e\x2b\x34", &[kind; 12][..], length, value].concat()
    }

    #[test]
    fn nothing_is_found_in_nothing() {
        assert_eq!(next_klv(&[], 0, at(0)), Ok((None, at(0))));
        assert_eq!(next_klv(&[], 0, at(usize::MAX)), Ok((None, at(usize::MAX))));
        assert_eq!(Records::of(&[]).count(), 0);
        assert_eq!(Arriving::new(0).next_klv(&[]), Ok(None));
        assert_eq!(records_into(&[], 0, at(0), &mut []), Ok(Filled { records: 0, next: at(0) }));
        assert_eq!(tally(&[]).groups().count(), 0);
    }

    #[test]
    fn a_length_of_2_to_the_64_minus_1_is_no_record() {
        let file = record(1, b"\x88\xff\xff\xff\xff\xff\xff\xff\xff", &[]);
        assert_eq!(Records::of(&file).count(), 0);
        let mut upload = Arriving::new(usize::MAX);
        assert_eq!(upload.next_klv(&file), Ok(None));
        assert_eq!(upload.cursor(), Cursor { at: 25, since: 0 }, "a value that ends past every limit is searched");
    }

    #[test]
    fn refusals_leave_the_cursor() {
        let file = record(1, &[0], &[]);
        assert_eq!(next_klv(&file, 18, at(0)), Err(Refusal::EndPastBuffer));
        assert_eq!(Records::before(&file, usize::MAX).unwrap_err(), Refusal::EndPastBuffer);
        assert_eq!(records_into(&file, 18, at(0), &mut [[7; 6]]), Err(Refusal::EndPastBuffer));
        let mut upload = Arriving::new(16);
        assert_eq!(upload.next_klv(&file), Err(Refusal::PastLimit));
        assert!(upload.certain(&file).is_err_and(|refusal| refusal == Refusal::PastLimit));
        assert_eq!(upload.certain_into(&file, &mut [[7; 6]]), Err(Refusal::PastLimit));
        assert_eq!(upload.cursor(), at(0));
    }

    #[test]
    fn an_iterator_that_is_dropped_loses_no_record() {
        let file = [record(1, &[0], &[]), record(2, &[0], &[])].concat();
        let mut upload = Arriving::new(100);
        assert_eq!(upload.certain(&file).unwrap().next().map(|record| record.place), Some(0));
        assert_eq!(upload.certain(&file).unwrap().next().map(|record| record.place), Some(17));
    }

    #[test]
    fn bytes_one_at_a_time_give_the_same_list() {
        let file = [record(1, &[0x82, 0, 3], b"abc"), b"between".to_vec(), record(2, &[1], b"x")].concat();
        let mut upload = Arriving::new(file.len());
        let mut places = Vec::new();
        for arrived in 0..=file.len() {
            places.extend(upload.certain(&file[..arrived]).unwrap().map(|record| (record.place, record.passed)));
        }
        assert_eq!(places, Records::of(&file).map(|record| (record.place, record.passed)).collect::<Vec<_>>());
        assert_eq!(places, [(0, 0), (29, 7)]);
    }

    #[test]
    fn waiting_keeps_the_place_where_walking_last_went_on() {
        let file = [&[0; 3][..], &record(1, &[0], &[])].concat();
        let mut upload = Arriving::new(99);
        assert_eq!((upload.next_klv(&file[..19]), upload.cursor()), (Ok(None), Cursor { at: 3, since: 0 }));
        assert_eq!(upload.next_klv(&file).unwrap().map(|record| (record.place, record.passed)), Some((3, 3)));
        assert_eq!(upload.cursor(), at(20));
    }

    #[test]
    fn a_place_past_the_cursor_counts_as_the_cursor() {
        let file = [&[0][..], &record(1, &[0], &[])].concat();
        assert_eq!(next_klv(&file, 18, Cursor { at: 0, since: 10 }).unwrap().0.map(|record| record.passed), Some(1));
        assert_eq!(next_klv(&file, 18, Cursor { at: 5, since: 10 }), Ok((None, Cursor { at: 5, since: 5 })));
    }

    #[test]
    fn room_past_the_last_record_keeps_its_contents() {
        let mut room = [[7; 6]; 2];
        assert_eq!(records_into(&record(1, &[0], &[]), 17, at(0), &mut room), Ok(Filled { records: 1, next: at(17) }));
        assert_eq!(room, [[0, 17, 0, 1, 1, 0], [7; 6]]);
    }

    #[test]
    fn a_65th_label_is_other() {
        let file: Vec<u8> = (0..65).flat_map(|kind| record(kind, &[0], &[])).collect();
        let tally = tally(&file);
        assert_eq!((tally.groups().count(), tally.other), (64, 1));
    }
}
