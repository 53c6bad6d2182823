//! Sony's and ARRI's frames of a file that comes in pieces, and is never there as a whole.
//!
//! A [`FeedingFrames`] is some hundred bytes of state. It is fed a file's bytes in order, in pieces of any length; however they are cut,
//! the frames that come are those of the arriving walks ([`crate::Sony::arriving`], [`crate::Arri::arriving`]). At a frame whose
//! element is over-long the walk goes on inside it, and the bytes from its value's place on are fed again.
//!
//! ```
//! use brinethimble::{FeedingFrames, FramesEnding, Refusal};
//!
//! let label = *b"\x06\x0e\x2b\x34\x01\x02\x01\x01\x0d\x01\x03\x01\x17\x01\x0f\x00";
//! let file = [&label[..], &[0x82, 0x20, 0x01], &[0; 81], &label, &[0], &[0; 8095], &label, &[0]].concat();
//!
//! let mut upload = FeedingFrames::arri_limit(9000, 0);
//! let fed = upload.feed(&file)?;
//! let frame = fed.frame.unwrap();
//! assert_eq!((frame.number, frame.overlong, fed.taken, frame.from), (0, true, 8212, 19));
//! assert_eq!(upload.close(), Err(Refusal::Closed), "before the bytes have come again");
//!
//! let fed = upload.feed(&file[frame.from..])?;
//! let frame = fed.frame.unwrap();
//! assert_eq!((frame.number, frame.place, frame.passed, fed.taken), (1, 100, 81, 98));
//! let frame = upload.feed(&file[frame.from..])?.frame.unwrap();
//! assert_eq!((frame.number, frame.place, frame.passed), (2, 8212, 8095));
//! assert_eq!(upload.close()?, FramesEnding::Clean);
//! # Ok::<(), Refusal>(())
//! ```

use crate::boundary;
use crate::record::Refusal;

/// A frame of a walk that is fed.
#[derive(Clone, Copy, PartialEq, Eq, Debug)]
pub struct FedFrame {
    /// Its number.
    pub number: u64,
    /// Its element's place in the file.
    pub place: usize,
    /// Its element's label.
    pub label: [u8; 16],
    /// Its value's place in the file.
    pub value_place: usize,
    /// Its value's length.
    pub value_length: usize,
    /// Whether the element is longer than the camera's longest. Such a frame has no values.
    pub overlong: bool,
    /// How many bytes were passed before it.
    pub passed: usize,
    /// The place in the file to feed on from: behind the element, or its value's place where it is over-long.
    pub from: usize,
}

/// What feeding a piece came to.
#[derive(Clone, Copy, PartialEq, Eq, Debug)]
pub struct FedFrames {
    /// How many of its bytes were taken: up to the one that completes a frame, else all.
    pub taken: usize,
    /// The frame.
    pub frame: Option<FedFrame>,
}

/// What closing says.
#[derive(Clone, Copy, PartialEq, Eq, Debug)]
pub enum FramesEnding {
    /// The frames that came are the finished list of all that was fed.
    Clean,
    /// The last key's value is not complete. A new walk with this known end and first number, fed from this place of the file on,
    /// completes the list.
    Again {
        /// Where the value starts.
        from: usize,
        /// How many bytes came from there on.
        rest: usize,
        /// The next frame's number.
        first: u64,
    },
}

/// A frame walk that is fed.
#[derive(Clone, PartialEq, Eq, Debug)]
pub struct FeedingFrames {
    state: boundary::FrameState,
}

impl FeedingFrames {
    /// Sony's walk of at most so many bytes, whose first frame has this number.
    ///
    /// ```
    /// let ancillary = *b"\x06\x0e\x2b\x34\x01\x02\x01\x01\x0d\x01\x03\x01\x17\x01\x02\x01";
    /// let mut upload = brinethimble::FeedingFrames::sony_limit(100, 7);
    /// assert_eq!(upload.feed(&ancillary)?.frame, None);
    /// assert_eq!(upload.feed(&[0, 0])?.frame.map(|frame| (frame.number, frame.from)), Some((7, 17)));
    /// # Ok::<(), brinethimble::Refusal>(())
    /// ```
    pub fn sony_limit(limit: usize, first: u64) -> Self {
        FeedingFrames { state: boundary::fed_sony_limit(limit, first) }
    }

    /// Sony's walk of exactly so many bytes.
    ///
    /// ```
    /// use brinethimble::{FeedingFrames, FramesEnding, Refusal};
    ///
    /// let mut file = FeedingFrames::sony_end(3, 0);
    /// assert_eq!(file.close(), Err(Refusal::Closed));
    /// file.feed(&[0; 3])?;
    /// assert_eq!(file.close()?, FramesEnding::Clean);
    /// # Ok::<(), Refusal>(())
    /// ```
    pub fn sony_end(end: usize, first: u64) -> Self {
        FeedingFrames { state: boundary::fed_sony_end(end, first) }
    }

    /// ARRI's walk of at most so many bytes, whose first frame has this number.
    ///
    /// ```
    /// let picture = *b"\x06\x0e\x2b\x34\x02\x43\x01\x01\x0d\x01\x03\x01\x04\x01\x03\x01";
    /// let mut upload = brinethimble::FeedingFrames::arri_limit(100, 0);
    /// assert_eq!(upload.feed(&picture)?.frame, None);
    /// assert_eq!(upload.feed(&[0])?.frame.map(|frame| frame.label), Some(picture));
    /// # Ok::<(), brinethimble::Refusal>(())
    /// ```
    pub fn arri_limit(limit: usize, first: u64) -> Self {
        FeedingFrames { state: boundary::fed_arri_limit(limit, first) }
    }

    /// ARRI's walk of exactly so many bytes.
    ///
    /// ```
    /// use brinethimble::{FeedingFrames, Refusal};
    ///
    /// assert_eq!(FeedingFrames::arri_end(3, 0).feed(&[0; 4]), Err(Refusal::PastLimit));
    /// ```
    pub fn arri_end(end: usize, first: u64) -> Self {
        FeedingFrames { state: boundary::fed_arri_end(end, first) }
    }

    /// Feeds a piece up to the byte that completes a frame, else all of it. The next byte to feed is the one at the frame's
    /// [`FedFrame::from`], or the one behind those that were taken.
    ///
    /// ```
    /// let ancillary = *b"\x06\x0e\x2b\x34\x01\x02\x01\x01\x0d\x01\x03\x01\x17\x01\x02\x01";
    /// let other = *b"\x06\x0e\x2b\x34\x01\x01\x01\x0d\x0e\x15\x00\x01\x00\x01\x00\x00";
    /// let file = [&other[..], &[1, 9], &ancillary, &[0], &[0; 5]].concat();
    /// let fed = brinethimble::FeedingFrames::sony_limit(100, 0).feed(&file)?;
    /// assert_eq!((fed.taken, fed.frame.map(|frame| (frame.place, frame.passed))), (35, Some((18, 0))));
    /// # Ok::<(), brinethimble::Refusal>(())
    /// ```
    pub fn feed(&mut self, piece: &[u8]) -> Result<FedFrames, Refusal> {
        let ([found, taken, number, place, value, length, overlong, passed, from], label) = boundary::feed_frame(&mut self.state, piece)?;
        let frame = FedFrame {
            number,
            place: place as usize,
            label,
            value_place: value as usize,
            value_length: length as usize,
            overlong: overlong == 1,
            passed: passed as usize,
            from: from as usize,
        };
        Ok(FedFrames { taken: taken as usize, frame: (found == 1).then_some(frame) })
    }

    /// Closes the walk. It is refused before bytes that are to come again have.
    ///
    /// ```
    /// use brinethimble::{FeedingFrames, FramesEnding, Refusal};
    ///
    /// let ancillary = *b"\x06\x0e\x2b\x34\x01\x02\x01\x01\x0d\x01\x03\x01\x17\x01\x02\x01";
    /// let torn = [&ancillary[..], &[0], &ancillary, &[40], &ancillary, &[0]].concat();
    /// let mut upload = FeedingFrames::sony_limit(100, 0);
    /// let from = upload.feed(&torn)?.frame.unwrap().from;
    /// assert_eq!(upload.feed(&torn[from..])?.frame, None);
    /// assert_eq!(upload.close()?, FramesEnding::Again { from: 34, rest: 17, first: 1 });
    /// assert_eq!(upload.close(), Err(Refusal::Closed));
    ///
    /// let frame = FeedingFrames::sony_end(17, 1).feed(&torn[34..])?.frame.unwrap();
    /// assert_eq!((frame.number, frame.place), (1, 0));
    /// # Ok::<(), Refusal>(())
    /// ```
    pub fn close(&mut self) -> Result<FramesEnding, Refusal> {
        let [says, from, rest, first] = boundary::close_frames(&mut self.state)?;
        Ok(if says == 1 { FramesEnding::Clean } else { FramesEnding::Again { from: from as usize, rest: rest as usize, first } })
    }
}

#[cfg(test)]
mod tests {
    use super::*;
    use crate::frames::{Arri, FrameCursor};

    /// ARRI's label of frame data.
    const FRAME: [u8; 16] = *b"\x06\x0e\x2b\x34\x01\x02\x01\x01\x0d\x01\x03\x01\x17\x01\x0f\x00";

    /// An element with its length in four bytes.
    fn element(value: &[u8]) -> Vec<u8> {
        [&FRAME[..], &[0x83], &(value.len() as u32).to_be_bytes()[1..], value].concat()
    }

    /// What a walk tells of a frame.
    type Told = (u64, usize, usize, usize, bool, usize);

    /// The frames of bytes in pieces, fed again wherever a frame names a place, and the walk then.
    fn fed(file: &[u8], limit: usize, cut: usize) -> (Vec<Told>, FeedingFrames) {
        let (mut walk, mut list, mut come, mut at) = (FeedingFrames::arri_limit(limit, 0), Vec::new(), 0, 0);
        while at < file.len() {
            let fed = walk.feed(&file[at..file.len().min(at + cut)]).unwrap();
            come = come.max(at + fed.taken);
            at += fed.taken;
            if let Some(f) = fed.frame {
                list.push((f.number, f.place, f.value_place, f.value_length, f.overlong, f.passed));
                at = f.from;
            }
            assert!(at == come || walk.clone().close() == Err(Refusal::Closed), "at {at} of {come}");
        }
        (list, walk)
    }

    #[test]
    fn elements_that_are_over_long_inside_over_long_ones_are_listed_as_by_the_arriving_walk() {
        let inner = element(&[&[1, 2, 3][..], &element(&[0; 8]), &[7; 8200]].concat());
        let file = [&[6, 0x0e][..], &element(&[&[5; 30][..], &inner, &element(&[4; 10])].concat()), &element(&[]), &FRAME, &[3]].concat();
        for limit in [file.len(), 20_000, 60_000] {
            let mut walk = Arri::arriving(&file, limit, FrameCursor::default()).unwrap();
            let whole: Vec<Told> = walk
                .by_ref()
                .map(|f| (f.number, f.element.place, f.element.value_place, f.element.value.len(), f.overlong, f.element.passed))
                .collect();
            assert_eq!(whole.iter().map(|told| told.4).collect::<Vec<_>>(), [true, true, false, false, false]);
            for cut in [1, 7, 16, 17, 1000, 8192, 8300, 100_000] {
                let (list, mut walk) = fed(&file, limit, cut);
                assert_eq!(list, whole, "pieces of {cut}");
                let again = FramesEnding::Again { from: file.len(), rest: 0, first: 5 };
                assert_eq!(walk.close().unwrap(), if limit < file.len() + 3 { FramesEnding::Clean } else { again });
            }
        }
    }

    #[test]
    fn refusals_leave_the_walk() {
        let mut upload = FeedingFrames::sony_limit(10, 3);
        let opened = upload.clone();
        assert_eq!(upload.feed(&[0; 11]), Err(Refusal::PastLimit));
        assert_eq!(upload, opened);
        assert_eq!(upload.close(), Ok(FramesEnding::Clean));
        let closed = upload.clone();
        for piece in [&[][..], &[0; 11]] {
            assert_eq!(upload.feed(piece), Err(Refusal::Closed), "5 comes before 2");
        }
        assert_eq!(upload.close(), Err(Refusal::Closed));
        assert_eq!(upload, closed);
    }

    #[test]
    fn a_made_up_state_is_answered() {
        let places = [0, 1, 4, 17, u64::MAX - 1, u64::MAX];
        let file = [element(&[0; 8200]), element(&[])].concat();
        for a in places {
            for b in places {
                for c in places {
                    let mut walk = FeedingFrames { state: [u64::MAX, c, 1, a, b, c, a, b, c, a, b, c, a] };
                    if let Ok(fed) = walk.feed(&file) {
                        assert!(fed.taken <= file.len());
                    }
                    let _ = walk.close();
                }
            }
        }
    }
}
