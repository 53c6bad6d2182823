//! The frames of Sony's, ARRI's and Canon's files: one walk with three labels and longest elements.
//!
//! Each element with a camera's label takes a frame number. A longer element than the camera writes is a frame marked
//! over-long, without values, and the walk goes on inside it. Sony's and ARRI's frames of bytes that have arrived are listed as far as
//! no later byte can unsay them.
//!
//! ```
//! use brinethimble::Sony;
//!
//! let ancillary = *b"\x06\x0e\x2b\x34\x01\x02\x01\x01\x0d\x01\x03\x01\x17\x01\x02\x01";
//! let file = [&ancillary[..], &[2, 0, 0], &[9; 30], &ancillary, &[0]].concat();
//! let frames: Vec<_> = Sony::new(&file, file.len())?.map(|frame| (frame.number, frame.element.place)).collect();
//! assert_eq!(frames, [(0, 0), (1, 49)]);
//! # Ok::<(), brinethimble::Refusal>(())
//! ```

use core::iter::FusedIterator;

use crate::boundary::{self, Framed};
use crate::record::{Record, Refusal};

/// A frame of a walk.
#[derive(Clone, Copy, PartialEq, Eq, Debug)]
pub struct Frame<'a> {
    /// Its number, from 0.
    pub number: u64,
    /// The element that has its values.
    pub element: Record<'a>,
    /// Whether the element is longer than the camera's longest. Such a frame has no values.
    pub overlong: bool,
}

/// What Canon's walk gives.
#[derive(Clone, Copy, PartialEq, Eq, Debug)]
pub enum CanonItem<'a> {
    /// A frame.
    Frame(Frame<'a>),
    /// A package metadata set or a sequence info, which is no frame.
    Given(Record<'a>),
}

/// Where a frame walk stands, where walking last went on, and the next frame's number. The first cursor is the default one, 0, 0
/// and 0. Behind an over-long element walking goes on at its value's place, behind any other record at its value's end.
///
/// ```
/// use brinethimble::{FrameCursor, Sony};
///
/// let ancillary = *b"\x06\x0e\x2b\x34\x01\x02\x01\x01\x0d\x01\x03\x01\x17\x01\x02\x01";
/// let file = [&ancillary[..], &[0], &ancillary, &[0]].concat();
/// let mut walk = Sony::from_cursor(&file, 34, FrameCursor { at: 17, since: 9, number: 5 })?;
/// assert_eq!(walk.next().map(|frame| (frame.number, frame.element.passed)), Some((5, 8)));
/// assert_eq!(walk.cursor(), FrameCursor { at: 34, since: 34, number: 6 });
/// # Ok::<(), brinethimble::Refusal>(())
/// ```
#[derive(Clone, Copy, PartialEq, Eq, Default, Debug)]
pub struct FrameCursor {
    /// Where the walk stands.
    pub at: usize,
    /// Where walking last went on.
    pub since: usize,
    /// The next frame's number.
    pub number: u64,
}

/// A camera's step over a buffer with an end, or over bytes that have arrived with a limit, from a cursor.
type Step = fn(&[u8], usize, FrameCursor) -> Result<Framed, Refusal>;

/// A camera's walk.
#[derive(Clone, Debug)]
struct Walk<'a> {
    s: &'a [u8],
    bound: usize,
    step: Step,
    cursor: FrameCursor,
}

impl<'a> Walk<'a> {
    /// The walk from a cursor, refused where every step would be: one behind the last byte finds nothing.
    fn new(s: &'a [u8], bound: usize, step: Step, cursor: FrameCursor) -> Result<Self, Refusal> {
        step(s, bound, FrameCursor { at: s.len(), since: s.len(), number: 0 })?;
        Ok(Walk { s, bound, step, cursor })
    }

    /// What the next step gives.
    fn next(&mut self) -> Option<CanonItem<'a>> {
        let [found, number, place, value, length, overlong, at, next, passed, since] = (self.step)(self.s, self.bound, self.cursor).ok()?;
        self.cursor = FrameCursor { at: at as usize, since: since as usize, number: next };
        let element = || Record::at(self.s, [place, value, length], passed);
        match found {
            0 => None,
            1 => Some(CanonItem::Frame(Frame { number, element: element(), overlong: overlong == 1 })),
            _ => Some(CanonItem::Given(element())),
        }
    }

    /// The next frame of a walk that gives frames alone.
    fn next_frame(&mut self) -> Option<Frame<'a>> {
        match self.next()? {
            CanonItem::Frame(frame) => Some(frame),
            CanonItem::Given(_) => unreachable!("only Canon's walk gives values besides frames"),
        }
    }
}

/// Sony's frames: ST 436 elements of at most 23,723,672 bytes.
#[derive(Clone, Debug)]
pub struct Sony<'a>(Walk<'a>);

impl<'a> Sony<'a> {
    /// The frames of a buffer up to an end.
    ///
    /// ```
    /// use brinethimble::{Refusal, Sony};
    ///
    /// let ancillary = *b"\x06\x0e\x2b\x34\x01\x02\x01\x01\x0d\x01\x03\x01\x17\x01\x02\x01";
    /// let mut file = [&ancillary[..], &[0]].concat();
    /// assert_eq!(Sony::new(&file, 17)?.count(), 1);
    /// assert_eq!(Sony::new(&file, 18).unwrap_err(), Refusal::EndPastBuffer);
    /// file[7] = 2; // all 16 bytes are compared
    /// assert_eq!(Sony::new(&file, 17)?.count(), 0);
    /// # Ok::<(), Refusal>(())
    /// ```
    pub fn new(s: &'a [u8], end: usize) -> Result<Self, Refusal> {
        Sony::from_cursor(s, end, FrameCursor::default())
    }

    /// The same from a cursor.
    ///
    /// ```
    /// use brinethimble::{FrameCursor, Sony};
    ///
    /// let ancillary = *b"\x06\x0e\x2b\x34\x01\x02\x01\x01\x0d\x01\x03\x01\x17\x01\x02\x01";
    /// let file = [&ancillary[..], &[0], &ancillary, &[0]].concat();
    /// let mut walk = Sony::from_cursor(&file, 34, FrameCursor { at: 17, since: 17, number: 5 })?;
    /// assert_eq!(walk.next().map(|frame| frame.number), Some(5));
    /// assert_eq!(walk.cursor(), FrameCursor { at: 34, since: 34, number: 6 });
    /// # Ok::<(), brinethimble::Refusal>(())
    /// ```
    pub fn from_cursor(s: &'a [u8], end: usize, cursor: FrameCursor) -> Result<Self, Refusal> {
        Walk::new(s, end, boundary::sony_step, cursor).map(Sony)
    }

    /// The frames of bytes that have arrived, within a limit, that no later byte can unsay. After the last one the walk waits at its
    /// cursor: with more bytes it goes on from there.
    ///
    /// ```
    /// use brinethimble::{FrameCursor, Refusal, Sony};
    ///
    /// let label = *b"\x06\x0e\x2b\x34\x01\x02\x01\x01\x0d\x01\x03\x01\x17\x01\x02\x01";
    /// let file = [&label[..], &[0], &label, &[2, 9, 9]].concat();
    /// let mut walk = Sony::arriving(&file[..35], 99, FrameCursor::default())?;
    /// assert_eq!(walk.by_ref().count(), 1);
    /// assert_eq!(walk.cursor(), FrameCursor { at: 17, since: 17, number: 1 });
    /// let mut walk = Sony::arriving(&file, 99, walk.cursor())?;
    /// assert_eq!(walk.next().map(|frame| (frame.number, frame.element.place)), Some((1, 17)));
    /// assert_eq!(Sony::arriving(&file, 35, walk.cursor()).unwrap_err(), Refusal::PastLimit);
    /// # Ok::<(), Refusal>(())
    /// ```
    pub fn arriving(a: &'a [u8], limit: usize, cursor: FrameCursor) -> Result<Self, Refusal> {
        Walk::new(a, limit, boundary::sony_arrive, cursor).map(Sony)
    }

    /// Where the walk is.
    ///
    /// ```
    /// assert_eq!(brinethimble::Sony::new(&[], 0)?.cursor(), brinethimble::FrameCursor::default());
    /// # Ok::<(), brinethimble::Refusal>(())
    /// ```
    pub fn cursor(&self) -> FrameCursor {
        self.0.cursor
    }
}

impl<'a> Iterator for Sony<'a> {
    type Item = Frame<'a>;

    fn next(&mut self) -> Option<Frame<'a>> {
        self.0.next_frame()
    }
}

impl FusedIterator for Sony<'_> {}

/// ARRI's frames: picture metadata (ALEXA Mini) or frame data (ALEXA 35) of at most 8,192 bytes.
#[derive(Clone, Debug)]
pub struct Arri<'a>(Walk<'a>);

impl<'a> Arri<'a> {
    /// The frames of a buffer up to an end.
    ///
    /// ```
    /// let picture = *b"\x06\x0e\x2b\x34\x02\x43\x01\x01\x0d\x01\x03\x01\x04\x01\x03\x01";
    /// let file = [&picture[..], &[0x82, 0x20, 0x01], &[0; 8193]].concat();
    /// let frame = brinethimble::Arri::new(&file, file.len())?.next().unwrap();
    /// assert_eq!((frame.element.value.len(), frame.overlong), (8193, true));
    /// # Ok::<(), brinethimble::Refusal>(())
    /// ```
    pub fn new(s: &'a [u8], end: usize) -> Result<Self, Refusal> {
        Arri::from_cursor(s, end, FrameCursor::default())
    }

    /// The same from a cursor.
    ///
    /// ```
    /// use brinethimble::{Arri, FrameCursor};
    ///
    /// let picture = *b"\x06\x0e\x2b\x34\x02\x43\x01\x01\x0d\x01\x03\x01\x04\x01\x03\x01";
    /// let file = [&picture[..], &[0], &picture, &[0]].concat();
    /// let mut walk = Arri::from_cursor(&file, 34, FrameCursor { at: 17, since: 17, number: 5 })?;
    /// assert_eq!(walk.next().map(|frame| frame.number), Some(5));
    /// assert_eq!(walk.cursor(), FrameCursor { at: 34, since: 34, number: 6 });
    /// # Ok::<(), brinethimble::Refusal>(())
    /// ```
    pub fn from_cursor(s: &'a [u8], end: usize, cursor: FrameCursor) -> Result<Self, Refusal> {
        Walk::new(s, end, boundary::arri_step, cursor).map(Arri)
    }

    /// The frames of bytes that have arrived, within a limit, that no later byte can unsay. After the last one the walk waits at its
    /// cursor: with more bytes it goes on from there.
    ///
    /// ```
    /// use brinethimble::{FrameCursor, Refusal, Arri};
    ///
    /// let label = *b"\x06\x0e\x2b\x34\x02\x43\x01\x01\x0d\x01\x03\x01\x04\x01\x03\x01";
    /// let file = [&label[..], &[0], &label, &[2, 9, 9]].concat();
    /// let mut walk = Arri::arriving(&file[..35], 99, FrameCursor::default())?;
    /// assert_eq!(walk.by_ref().count(), 1);
    /// assert_eq!(walk.cursor(), FrameCursor { at: 17, since: 17, number: 1 });
    /// let mut walk = Arri::arriving(&file, 99, walk.cursor())?;
    /// assert_eq!(walk.next().map(|frame| (frame.number, frame.element.place)), Some((1, 17)));
    /// assert_eq!(Arri::arriving(&file, 35, walk.cursor()).unwrap_err(), Refusal::PastLimit);
    /// # Ok::<(), Refusal>(())
    /// ```
    pub fn arriving(a: &'a [u8], limit: usize, cursor: FrameCursor) -> Result<Self, Refusal> {
        Walk::new(a, limit, boundary::arri_arrive, cursor).map(Arri)
    }

    /// Where the walk is.
    ///
    /// ```
    /// assert_eq!(brinethimble::Arri::new(&[], 0)?.cursor(), brinethimble::FrameCursor::default());
    /// # Ok::<(), brinethimble::Refusal>(())
    /// ```
    pub fn cursor(&self) -> FrameCursor {
        self.0.cursor
    }
}

impl<'a> Iterator for Arri<'a> {
    type Item = Frame<'a>;

    fn next(&mut self) -> Option<Frame<'a>> {
        self.0.next_frame()
    }
}

impl FusedIterator for Arri<'_> {}

/// Canon's frames, which are Sony's, and among them the values of Canon's two labels of at most 1,048,576 bytes.
#[derive(Clone, Debug)]
pub struct Canon<'a>(Walk<'a>);

impl<'a> Canon<'a> {
    /// A system item's package metadata set.
    pub const PACKAGE_METADATA: [u8; 16] = *b"\x06\x0e\x2b\x34\x02\x43\x01\x01\x0d\x01\x03\x01\x04\x01\x02\x03";
    /// The stream file's sequence info.
    pub const STREAM_FILE_SEQUENCE_INFO: [u8; 16] = *b"\x06\x0e\x2b\x34\x01\x01\x01\x0d\x0e\x15\x00\x00\x00\x01\x00\x00";

    /// The frames and given values of a buffer up to an end.
    ///
    /// ```
    /// use brinethimble::{Canon, CanonItem};
    ///
    /// let ancillary = *b"\x06\x0e\x2b\x34\x01\x02\x01\x01\x0d\x01\x03\x01\x17\x01\x02\x01";
    /// let file = [&Canon::PACKAGE_METADATA[..], &[1, 7], &ancillary, &[0]].concat();
    /// let items: Vec<_> = Canon::new(&file, file.len())?.collect();
    /// assert!(matches!(items[0], CanonItem::Given(record) if record.value == [7]));
    /// assert!(matches!(items[1], CanonItem::Frame(frame) if frame.number == 0 && frame.element.place == 18));
    /// assert_eq!(items.len(), 2);
    /// # Ok::<(), brinethimble::Refusal>(())
    /// ```
    pub fn new(s: &'a [u8], end: usize) -> Result<Self, Refusal> {
        Canon::from_cursor(s, end, FrameCursor::default())
    }

    /// The same from a cursor.
    ///
    /// ```
    /// use brinethimble::{Canon, CanonItem, FrameCursor};
    ///
    /// let ancillary = *b"\x06\x0e\x2b\x34\x01\x02\x01\x01\x0d\x01\x03\x01\x17\x01\x02\x01";
    /// let file = [&ancillary[..], &[0], &ancillary, &[0]].concat();
    /// let mut walk = Canon::from_cursor(&file, 34, FrameCursor { at: 17, since: 17, number: 5 })?;
    /// assert!(matches!(walk.next(), Some(CanonItem::Frame(frame)) if frame.number == 5));
    /// assert_eq!(walk.cursor(), FrameCursor { at: 34, since: 34, number: 6 });
    /// # Ok::<(), brinethimble::Refusal>(())
    /// ```
    pub fn from_cursor(s: &'a [u8], end: usize, cursor: FrameCursor) -> Result<Self, Refusal> {
        Walk::new(s, end, boundary::canon_step, cursor).map(Canon)
    }

    /// Where the walk is.
    ///
    /// ```
    /// assert_eq!(brinethimble::Canon::new(&[], 0)?.cursor(), brinethimble::FrameCursor::default());
    /// # Ok::<(), brinethimble::Refusal>(())
    /// ```
    pub fn cursor(&self) -> FrameCursor {
        self.0.cursor
    }
}

impl<'a> Iterator for Canon<'a> {
    type Item = CanonItem<'a>;

    fn next(&mut self) -> Option<CanonItem<'a>> {
        self.0.next()
    }
}

impl FusedIterator for Canon<'_> {}

#[cfg(test)]
mod tests {
    use super::*;

    const ANCILLARY: [u8; 16] = *b"\x06\x0e\x2b\x34\x01\x02\x01\x01\x0d\x01\x03\x01\x17\x01\x02\x01";
    const PICTURE: [u8; 16] = *b"\x06\x0e\x2b\x34\x02\x43\x01\x01\x0d\x01\x03\x01\x04\x01\x03\x01";

    /// An element of so many zeros with a length of 5 bytes.
    fn element(label: [u8; 16], length: u32) -> Vec<u8> {
        let mut bytes = [&label[..], &[0x84], &length.to_be_bytes()].concat();
        bytes.resize(21 + length as usize, 0);
        bytes
    }

    #[test]
    fn nothing_is_found_in_nothing() {
        assert_eq!(Sony::new(&[], 0).unwrap().count(), 0);
        assert_eq!(Arri::new(&[], 0).unwrap().count(), 0);
        assert_eq!(Canon::new(&[], 0).unwrap().count(), 0);
    }

    #[test]
    fn an_end_past_the_buffer_is_refused() {
        assert_eq!(Sony::new(&[], 1).unwrap_err(), Refusal::EndPastBuffer);
        assert_eq!(Arri::new(&[0; 40], usize::MAX).unwrap_err(), Refusal::EndPastBuffer);
        assert_eq!(Canon::new(&[0; 40], 41).unwrap_err(), Refusal::EndPastBuffer);
    }

    #[test]
    fn the_longest_element_has_values_and_one_byte_more_is_over_long() {
        let marks = |bytes: &[u8]| Sony::new(bytes, bytes.len()).unwrap().map(|frame| frame.overlong).collect::<Vec<_>>();
        assert_eq!(marks(&element(ANCILLARY, 23_723_672)), [false]);
        assert_eq!(marks(&element(ANCILLARY, 23_723_673)), [true]);
        let marks = |bytes: &[u8]| Arri::new(bytes, bytes.len()).unwrap().map(|frame| frame.overlong).collect::<Vec<_>>();
        assert_eq!(marks(&element(PICTURE, 8_192)), [false]);
        assert_eq!(marks(&element(PICTURE, 8_193)), [true]);
    }

    #[test]
    fn the_longest_given_value_is_given_and_one_byte_more_is_stepped_over() {
        let given = |bytes: &[u8]| Canon::new(bytes, bytes.len()).unwrap().count();
        assert_eq!(given(&element(Canon::PACKAGE_METADATA, 1_048_576)), 1);
        assert_eq!(given(&element(Canon::PACKAGE_METADATA, 1_048_577)), 0);
    }

    #[test]
    fn an_over_long_element_hides_no_frame() {
        let mut bytes = element(PICTURE, 9_000);
        bytes[1000..1017].copy_from_slice(&[&PICTURE[..], &[0]].concat());
        let frames: Vec<_> = Arri::new(&bytes, bytes.len()).unwrap().map(|frame| (frame.number, frame.element.place)).collect();
        assert_eq!(frames, [(0, 0), (1, 1000)]);
    }

    #[test]
    fn behind_an_over_long_element_bytes_count_from_its_value() {
        let frame = [&PICTURE[..], &[0]].concat();
        let mut bytes = [&PICTURE[..], &[0x82, 0x20, 0x01], &[0; 8193], &frame].concat();
        bytes[100..117].copy_from_slice(&frame);
        let frames: Vec<_> = Arri::new(&bytes, bytes.len()).unwrap().map(|frame| (frame.element.place, frame.element.passed)).collect();
        assert_eq!(frames, [(0, 0), (100, 81), (8212, 8095)]);
    }

    #[test]
    fn bytes_before_another_record_are_not_a_frames() {
        let other = b"\x06\x0e\x2b\x34\x01\x01\x01\x0d\x0e\x15\x00\x01\x00\x01\x00\x00\x02ab";
        let file = [&[0; 5][..], other, &[9; 3], &ANCILLARY, &[0]].concat();
        assert_eq!(Sony::new(&file, file.len()).unwrap().map(|frame| frame.element.passed).collect::<Vec<_>>(), [3]);
    }
}
