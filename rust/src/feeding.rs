//! The walk over a file that comes in pieces, and is never there as a whole.
//!
//! A [`Feeding`] is some eighty bytes of state. It is fed a file's bytes in order, in pieces of any length; however they are cut, the
//! records that come are those of the arriving walk ([`crate::Arriving`]). Their places are places in the file, whose bytes are the
//! caller's to keep or to let go. [`Feeding::close`] tells at the end whether they are all.
//!
//! ```
//! use brinethimble::{Ending, Feeding};
//!
//! let label = *b"\x06\x0e\x2b\x34\x01\x01\x01\x0d\x0e\x15\x00\x01\x00\x01\x00\x00";
//! let file = [&[0; 5][..], &label, &[2, 0xaa, 0xbb], &[0x99; 3], &label, &[0]].concat();
//!
//! let mut upload = Feeding::limit(1000);
//! let mut places = Vec::new();
//! for piece in file.chunks(10) {
//!     places.extend(upload.piece(piece)?.map(|record| (record.place, record.passed)));
//! }
//! assert_eq!(places, [(5, 5), (27, 3)]);
//! assert_eq!(upload.close()?, Ending::Clean);
//! # Ok::<(), brinethimble::Refusal>(())
//! ```

use core::iter::FusedIterator;

use crate::boundary;
use crate::record::Refusal;
use crate::walk::Listed;

/// A record of a fed walk.
#[derive(Clone, Copy, PartialEq, Eq, Debug)]
pub struct FedRecord {
    /// Its place in the file: its label starts there.
    pub place: usize,
    /// Its label.
    pub label: [u8; 16],
    /// Its value's place in the file.
    pub value_place: usize,
    /// Its value's length.
    pub value_length: usize,
    /// How many bytes its length field has.
    pub length_bytes: usize,
    /// Whether that is the shortest form of its length.
    pub shortest: bool,
    /// How many bytes were passed before it.
    pub passed: usize,
}

/// What feeding a piece came to.
#[derive(Clone, Copy, PartialEq, Eq, Debug)]
pub struct Fed {
    /// How many of its bytes were taken: up to the one that completes a record, else all.
    pub taken: usize,
    /// The record.
    pub record: Option<FedRecord>,
}

/// What closing says.
#[derive(Clone, Copy, PartialEq, Eq, Debug)]
pub enum Ending {
    /// The records that came are the finished list of all that was fed.
    Clean,
    /// The last key's value is not complete. A new walk with this known end, fed from this place of the file on, completes the list.
    Again {
        /// Where the value starts.
        from: usize,
        /// How many bytes came from there on.
        rest: usize,
    },
}

/// A walk that is fed.
#[derive(Clone, PartialEq, Eq, Debug)]
pub struct Feeding {
    state: boundary::State,
}

impl Feeding {
    /// A walk of at most so many bytes.
    ///
    /// ```
    /// use brinethimble::{Feeding, Refusal};
    ///
    /// let mut upload = Feeding::limit(10);
    /// assert_eq!(upload.feed(&[0; 11]), Err(Refusal::PastLimit));
    /// assert_eq!(upload.feed(&[0; 10])?.taken, 10);
    /// # Ok::<(), Refusal>(())
    /// ```
    pub fn limit(limit: usize) -> Self {
        Feeding { state: boundary::fed_limit(limit) }
    }

    /// A walk of exactly so many bytes.
    ///
    /// ```
    /// use brinethimble::{Ending, Feeding, Refusal};
    ///
    /// let mut file = Feeding::end(3);
    /// assert_eq!(file.close(), Err(Refusal::Closed));
    /// file.feed(&[0; 3])?;
    /// assert_eq!(file.close()?, Ending::Clean);
    /// # Ok::<(), Refusal>(())
    /// ```
    pub fn end(end: usize) -> Self {
        Feeding { state: boundary::fed_end(end) }
    }

    /// Feeds a piece up to the byte that completes a record, else all of it. What was not taken is to be fed next.
    ///
    /// ```
    /// let label = *b"\x06\x0e\x2b\x34\x01\x01\x01\x0d\x0e\x15\x00\x01\x00\x01\x00\x00";
    /// let file = [&label[..], &[2, 0xaa, 0xbb], &[0; 5]].concat();
    /// let mut upload = brinethimble::Feeding::limit(100);
    /// let first = upload.feed(&file[..18])?;
    /// assert_eq!((first.taken, first.record), (18, None));
    /// let second = upload.feed(&file[18..])?;
    /// assert_eq!((second.taken, second.record.map(|record| (record.place, record.label))), (1, Some((0, label))));
    /// # Ok::<(), brinethimble::Refusal>(())
    /// ```
    pub fn feed(&mut self, piece: &[u8]) -> Result<Fed, Refusal> {
        let ([found, taken, place, value, length, length_bytes, shortest, passed], label) = boundary::feed(&mut self.state, piece)?;
        let record = FedRecord {
            place: place as usize,
            label,
            value_place: value as usize,
            value_length: length as usize,
            length_bytes: length_bytes as usize,
            shortest: shortest == 1,
            passed: passed as usize,
        };
        Ok(Fed { taken: taken as usize, record: (found == 1).then_some(record) })
    }

    /// The records of a piece, which is fed as the iterator goes on, all of it once that has ended.
    ///
    /// ```
    /// let label = *b"\x06\x0e\x2b\x34\x01\x01\x01\x0d\x0e\x15\x00\x01\x00\x01\x00\x00";
    /// let file = [&label[..], &[1, 7], &label, &[0]].concat();
    /// let mut upload = brinethimble::Feeding::limit(1000);
    /// let mut piece = upload.piece(&file)?;
    /// assert_eq!(piece.next().map(|record| record.place), Some(0));
    /// assert_eq!(piece.rest().len(), 17, "an iterator that is dropped here has not fed these");
    /// assert_eq!(piece.map(|record| record.place).collect::<Vec<_>>(), [18]);
    /// # Ok::<(), brinethimble::Refusal>(())
    /// ```
    pub fn piece<'a>(&'a mut self, piece: &'a [u8]) -> Result<Piece<'a>, Refusal> {
        // A walk that would refuse the piece refuses it now: a copy is fed.
        self.clone().feed(piece)?;
        Ok(Piece { walk: self, rest: piece })
    }

    /// Feeds a piece until all of it is taken or the lent room is full, of which there is as much as both have: how many records were
    /// put there, and how many bytes were taken.
    ///
    /// ```
    /// let label = *b"\x06\x0e\x2b\x34\x01\x01\x01\x0d\x0e\x15\x00\x01\x00\x01\x00\x00";
    /// let file = [&label[..], &[1, 7], &label, &[0], &label].concat();
    /// let mut upload = brinethimble::Feeding::limit(1000);
    /// let (mut room, mut labels) = ([[0; 6]; 8], [[0; 16]; 8]);
    /// assert_eq!(upload.feed_into(&file, &mut room, &mut labels)?, (2, 51));
    /// assert_eq!(room[..2], [[0, 17, 1, 1, 1, 0], [18, 35, 0, 1, 1, 0]]);
    /// assert_eq!(labels[..2], [label, label]);
    /// # Ok::<(), brinethimble::Refusal>(())
    /// ```
    pub fn feed_into(&mut self, piece: &[u8], room: &mut [Listed], labels: &mut [[u8; 16]]) -> Result<(usize, usize), Refusal> {
        let [put, taken] = boundary::feed_records(&mut self.state, piece, room.as_flattened_mut(), labels.as_flattened_mut())?;
        Ok((put as usize, taken as usize))
    }

    /// Closes the walk.
    ///
    /// ```
    /// use brinethimble::{Ending, Feeding, Refusal};
    ///
    /// let label = *b"\x06\x0e\x2b\x34\x01\x01\x01\x0d\x0e\x15\x00\x01\x00\x01\x00\x00";
    /// let torn = [&label[..], &[0x82, 0, 0x20], &[0; 3], &label, &[0]].concat();
    /// let mut upload = Feeding::limit(100);
    /// assert_eq!(upload.piece(&torn)?.count(), 0);
    /// assert_eq!(upload.close()?, Ending::Again { from: 19, rest: 20 });
    /// assert_eq!(upload.close(), Err(Refusal::Closed));
    ///
    /// let mut again = Feeding::end(20);
    /// assert_eq!(again.piece(&torn[19..])?.map(|record| record.place).collect::<Vec<_>>(), [3]);
    /// assert_eq!(again.close()?, Ending::Clean);
    /// # Ok::<(), Refusal>(())
    /// ```
    pub fn close(&mut self) -> Result<Ending, Refusal> {
        let [says, from, rest] = boundary::close(&mut self.state)?;
        Ok(if says == 1 { Ending::Clean } else { Ending::Again { from: from as usize, rest: rest as usize } })
    }
}

/// The records of a piece: [`Feeding::piece`].
#[derive(Debug)]
pub struct Piece<'a> {
    walk: &'a mut Feeding,
    rest: &'a [u8],
}

impl<'a> Piece<'a> {
    /// What has not been fed yet.
    ///
    /// ```
    /// let mut upload = brinethimble::Feeding::limit(1000);
    /// let mut piece = upload.piece(&[0; 9])?;
    /// assert_eq!((piece.rest().len(), piece.next(), piece.rest().len()), (9, None, 0));
    /// # Ok::<(), brinethimble::Refusal>(())
    /// ```
    pub fn rest(&self) -> &'a [u8] {
        self.rest
    }
}

impl Iterator for Piece<'_> {
    type Item = FedRecord;

    fn next(&mut self) -> Option<FedRecord> {
        let fed = self.walk.feed(self.rest).ok()?;
        self.rest = &self.rest[fed.taken..];
        fed.record
    }
}

impl FusedIterator for Piece<'_> {}

#[cfg(test)]
mod tests {
    use super::*;
    use crate::walk::Arriving;

    /// A key with a length field and a value.
    fn record(kind: u8, length: &[u8], value: &[u8]) -> Vec<u8> {
        [b"\x06\x0e\x2b\x34", &[kind; 12][..], length, value].concat()
    }

    /// What the arriving walk lists, as a fed one does.
    fn arriving(file: &[u8], limit: usize) -> Vec<FedRecord> {
        let of = |r: crate::Record| FedRecord {
            place: r.place,
            label: *r.label,
            value_place: r.value_place,
            value_length: r.value.len(),
            length_bytes: r.length_bytes,
            shortest: r.shortest,
            passed: r.passed,
        };
        Arriving::new(limit).certain(file).unwrap().map(of).collect()
    }

    /// A file with junk, a length in every form, a value with a key inside, an empty one, and one that is torn.
    fn file() -> Vec<u8> {
        let inner = record(2, &[0], &[]);
        [
            &[6, 0x0e, 0x2b, 6, 0x0e][..],
            &record(1, &[0x82, 0, 17], &inner),
            &record(3, &[0x80], &[]),
            &[0x2b, 0x34],
            &record(4, &[0x88, 0, 0, 0, 0, 0, 0, 0, 1], &[9]),
            &record(5, &[0x89], &[]),
            &record(6, &[40], &inner),
        ]
        .concat()
    }

    #[test]
    fn every_cutting_in_two_or_three_lists_what_the_arriving_walk_lists() {
        let file = file();
        for limit in [file.len(), 1000] {
            let whole = arriving(&file, limit);
            assert_eq!(whole.len(), if limit == 1000 { 3 } else { 4 });
            for i in 0..=file.len() {
                for j in i..=file.len() {
                    let mut upload = Feeding::limit(limit);
                    let mut list = Vec::new();
                    for piece in [&file[..i], &file[i..j], &file[j..]] {
                        list.extend(upload.piece(piece).unwrap());
                    }
                    assert_eq!(list, whole, "cut at {i} and {j}");
                }
            }
        }
    }

    #[test]
    fn many_records_a_call_are_the_same_ones() {
        let file = file();
        let whole = arriving(&file, 1000);
        for room in 0..5 {
            for cut in 1..=file.len() {
                let mut upload = Feeding::limit(1000);
                let mut list = Vec::new();
                for piece in file.chunks(cut) {
                    let mut rest = piece;
                    loop {
                        let (mut records, mut labels) = (vec![[7; 6]; room], vec![[7; 16]; room + 1]);
                        let (put, taken) = upload.feed_into(rest, &mut records, &mut labels).unwrap();
                        let at = |i: usize| (records[i].map(|place| place as usize), labels[i]);
                        list.extend((0..put).map(at));
                        assert!(records[put..].iter().all(|&places| places == [7; 6]) && labels[put..].iter().all(|&l| l == [7; 16]));
                        rest = &rest[taken..];
                        if put < room || room == 0 {
                            assert!(rest.is_empty() || room == 0);
                            break;
                        }
                    }
                }
                let all: Vec<_> = whole
                    .iter()
                    .map(|r| ([r.place, r.value_place, r.value_length, r.length_bytes, r.shortest.into(), r.passed], r.label))
                    .collect();
                assert_eq!(list, if room == 0 { vec![] } else { all }, "room for {room}, pieces of {cut}");
            }
        }
    }

    #[test]
    fn refusals_leave_the_walk() {
        let mut upload = Feeding::limit(10);
        let opened = upload.clone();
        assert_eq!(upload.feed(&[0; 11]), Err(Refusal::PastLimit));
        assert!(upload.piece(&[0; 11]).is_err_and(|refusal| refusal == Refusal::PastLimit));
        assert_eq!(upload.feed_into(&[0; 11], &mut [[7; 6]], &mut [[7; 16]]), Err(Refusal::PastLimit));
        assert_eq!(upload, opened);
        assert_eq!(upload.close(), Ok(Ending::Clean));
        let closed = upload.clone();
        for piece in [&[][..], &[0; 11]] {
            assert_eq!(upload.feed(piece), Err(Refusal::Closed), "5 comes before 2");
            assert_eq!(upload.feed_into(piece, &mut [], &mut []), Err(Refusal::Closed));
        }
        assert_eq!(upload.close(), Err(Refusal::Closed));
        assert_eq!(upload, closed);
    }

    #[test]
    fn a_made_up_state_is_answered() {
        let places = [0, 1, 4, 17, u64::MAX - 1, u64::MAX];
        let file = file();
        for a in places {
            for b in places {
                for c in places {
                    let mut walk = Feeding { state: [u64::MAX, c, 1, a, b, c, a, b, c, a] };
                    if let Ok(fed) = walk.feed(&file) {
                        assert!(fed.taken <= file.len());
                    }
                    let mut walk = Feeding { state: [c, 0, 1, a, b, c, !0, b, 0x88 << 56, a] };
                    let _ = walk.feed_into(&file, &mut [[0; 6]; 4], &mut [[0; 16]; 4]);
                    let _ = walk.close();
                }
            }
        }
    }
}
