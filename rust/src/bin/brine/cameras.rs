//! The cameras, and which of them a file is of.

use brinethimble::{Canon, FedFrame, FeedingFrames, FramesEnding, same_label};

use crate::Trouble;
use crate::list::records;
use crate::source::Source;

#[derive(Clone, Copy, PartialEq, Eq)]
pub enum Camera {
    Sony,
    Arri,
    Canon,
}

/// The most bytes of a label and a length.
const HEAD: usize = 25;
/// What a stream keeps, so that the element of a frame is there when it has come whole: the longest that has values.
pub const KEPT: usize = 23_723_672 + HEAD;

impl Camera {
    pub fn named(name: &str) -> Option<Self> {
        [Camera::Sony, Camera::Arri, Camera::Canon].into_iter().find(|camera| camera.name() == name)
    }

    pub fn name(self) -> &'static str {
        match self {
            Camera::Sony => "sony",
            Camera::Arri => "arri",
            Camera::Canon => "canon",
        }
    }

    /// A walk with a known end. Canon's frames are Sony's.
    fn ends(self, end: usize) -> FeedingFrames {
        if self == Camera::Arri { FeedingFrames::arri_end(end, 0) } else { FeedingFrames::sony_end(end, 0) }
    }

    /// A walk with a limit.
    fn limited(self, limit: usize) -> FeedingFrames {
        if self == Camera::Arri { FeedingFrames::arri_limit(limit, 0) } else { FeedingFrames::sony_limit(limit, 0) }
    }

    /// Whether an element alone is a frame of this camera.
    fn has(self, label: &[u8; 16]) -> bool {
        let empty = [&label[..], &[0]].concat();
        self.ends(empty.len()).feed(&empty).is_ok_and(|fed| fed.frame.is_some())
    }
}

/// A camera's frames out of a source, which is fed again wherever an over-long element wants it.
pub struct Walk {
    walk: FeedingFrames,
    /// The next byte to feed.
    pub at: usize,
}

impl Walk {
    /// The walk of a file, whose end is known, or of a stream.
    pub fn over(camera: Camera, source: &Source) -> Self {
        Walk { walk: source.length().map_or_else(|| camera.limited(usize::MAX), |end| camera.ends(end)), at: 0 }
    }

    pub fn limited(camera: Camera, limit: usize) -> Self {
        Walk { walk: camera.limited(limit), at: 0 }
    }

    /// Feeds bytes from the next place on, up to one that completes a frame.
    pub fn feed(&mut self, piece: &[u8]) -> Result<Option<FedFrame>, Trouble> {
        let fed = self.walk.feed(piece)?;
        self.at = fed.frame.map_or(self.at + fed.taken, |frame| frame.from);
        Ok(fed.frame)
    }

    pub fn close(&mut self) -> Result<FramesEnding, Trouble> {
        Ok(self.walk.close()?)
    }
}

/// The camera of the first record that is a frame, or one of Canon's values, which come before its frames.
pub fn first(source: &mut Source) -> Result<Option<Camera>, Trouble> {
    if source.length().is_none() {
        return Err(Trouble::Said("a stream can't be read twice to find its camera: name it by --camera".into()));
    }
    let mut found = None;
    records(source, |_, record| {
        let label = &record.label;
        let canon = [Canon::PACKAGE_METADATA, Canon::STREAM_FILE_SEQUENCE_INFO].iter().any(|given| same_label(label, given));
        found = if canon { Some(Camera::Canon) } else { [Camera::Arri, Camera::Sony].into_iter().find(|camera| camera.has(label)) };
        Ok(found.is_none())
    })?;
    Ok(found)
}
