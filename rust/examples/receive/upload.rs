//! An upload under way: the file that it is stored in, a fed walk over its records, and one over each camera's frames. Where a frame
//! walk wants bytes again, and for a frame's values, the file is read. No more is kept of an upload, whatever its sender claims.
//!
//! What is said of an upload, a line each, as soon as it is certain; each walk's lines come in the file's order:
//!
//! ```text
//! ID record PLACE LABEL VALUE LENGTH PASSED
//! ID frame sony NUMBER PLACE VALUE LENGTH PASSED, then the payload's length, or over-long
//! ID frame arri NUMBER PLACE VALUE LENGTH PASSED, then the frame's values, or over-long
//! ID waits ARRIVED
//! ID refused WHY
//! ```
//!
//! and once the sender has closed:
//!
//! ```text
//! ID again VALUE REST, ID again sony VALUE REST, ID again arri VALUE REST
//! ID frame canon NUMBER PLACE VALUE LENGTH PASSED, then the payload's length, or over-long
//! ID given canon PLACE VALUE LENGTH PASSED, then what the package metadata or the sequence info has
//! ID records N sony N arri N, and canon N given N
//! ```
//!
//! those of Canon, whose walk has no arriving form, where they are wanted. PASSED is how many bytes were lost before a record. Where
//! the sender closed within a value, a walk goes on inside it, says so with `again`, and counts PASSED anew from VALUE.
//!
//! WHY is a number of the library, or
//!
//! ```text
//! taken     the spool has an upload of this name
//! busy      there is no descriptor left for its file
//! storage   its file cannot be made, written or read
//! ```
//!
//! or what `connection` has: idle, late, ending.

use std::fmt;
use std::io::{self, ErrorKind};
use std::rc::Rc;

use brinethimble::{Ending, FedFrame, FedRecord, Feeding, FeedingFrames, FramesEnding, Refusal};

use crate::canon;
use crate::options::Options;
use crate::stored::{Folder, Stored};
use crate::system::no_descriptor;
use crate::tell;

const WINDOW: usize = 1 << 20;
const MANY: u64 = 16;

/// A camera: its name, how its walk is opened, and what is told of an element with its value at a place in it.
struct Camera {
    name: &'static str,
    limit: fn(usize, u64) -> FeedingFrames,
    end: fn(usize, u64) -> FeedingFrames,
    tell: fn(&[u8], usize) -> String,
}

static CAMERAS: [Camera; 2] = [
    Camera { name: "sony", limit: FeedingFrames::sony_limit, end: FeedingFrames::sony_end, tell: tell::payload },
    Camera { name: "arri", limit: FeedingFrames::arri_limit, end: FeedingFrames::arri_end, tell: tell::values },
];

/// Why an upload is given up.
pub enum Why {
    /// By the library.
    Refused(Refusal),
    /// By the host.
    Word(&'static str),
}

impl From<Refusal> for Why {
    fn from(refusal: Refusal) -> Self {
        Why::Refused(refusal)
    }
}

impl From<io::Error> for Why {
    fn from(error: io::Error) -> Self {
        match error.kind() {
            ErrorKind::AlreadyExists => Why::Word("taken"),
            _ if no_descriptor(&error) => Why::Word("busy"),
            _ => Why::Word("storage"),
        }
    }
}

impl fmt::Display for Why {
    fn fmt(&self, f: &mut fmt::Formatter) -> fmt::Result {
        match self {
            Why::Refused(refusal) => refusal.number().fmt(f),
            Why::Word(word) => word.fmt(f),
        }
    }
}

/// Where to map the file up to from a place: a window's length further. A walk that was fed many times what has arrived gets all the
/// rest as one piece: it goes by an element's length then, and looks at no byte twice, however many elements lie in each other.
fn mapped_to(stored: &Stored, from: usize, fed: u64) -> usize {
    let all = stored.len();
    if fed / MANY < all as u64 { all.min(from.saturating_add(WINDOW)) } else { all }
}

/// A walk over records.
struct Records {
    id: Rc<str>,
    walk: Feeding,
    /// The place in the file of the walk's place 0.
    start: usize,
    count: u64,
}

impl Records {
    /// Feeds bytes, and says the records that are complete with them.
    fn feed(&mut self, mut bytes: &[u8]) -> Result<(), Why> {
        while !bytes.is_empty() {
            let fed = self.walk.feed(bytes)?;
            bytes = &bytes[fed.taken..];
            fed.record.iter().for_each(|record| self.say(record));
        }
        Ok(())
    }

    /// Says a record that has just come.
    fn say(&mut self, record: &FedRecord) {
        let FedRecord { label, value_length, passed, .. } = record;
        let (place, value) = (self.start + record.place, self.start + record.value_place);
        say!("{} record {place} {:032x} {value} {value_length} {passed}", self.id, u128::from_be_bytes(*label));
        self.count += 1;
    }

    /// Closes the walk; where a value is not whole a new one goes through what there is of it.
    fn finish(&mut self, stored: &Stored) -> Result<(), Why> {
        let Ending::Again { from, rest } = self.walk.close()? else { return Ok(()) };
        say!("{} again {from} {rest}", self.id);
        (self.walk, self.start) = (Feeding::end(rest), from);
        let mut at = from;
        while at < stored.len() {
            let to = mapped_to(stored, at, 0);
            self.feed(&stored.map(at, to)?)?;
            at = to;
        }
        Ok(())
    }
}

/// A walk over a camera's frames.
struct Frames {
    id: Rc<str>,
    camera: &'static Camera,
    walk: FeedingFrames,
    /// The place in the file of the walk's place 0.
    start: usize,
    /// The place in the file of the next byte to feed.
    at: usize,
    /// How many bytes it was fed.
    fed: u64,
    count: u64,
}

impl Frames {
    /// A walk of at most so many bytes.
    fn new(id: Rc<str>, camera: &'static Camera, limit: usize) -> Self {
        Frames { id, camera, walk: (camera.limit)(limit, 0), start: 0, at: 0, fed: 0, count: 0 }
    }

    /// Feeds bytes of the file, from a place on, and again those of them that the walk wants again; where it wants bytes before them it
    /// stops.
    fn feed(&mut self, stored: &Stored, bytes: &[u8], from: usize) -> Result<(), Why> {
        while from <= self.at && self.at < from + bytes.len() {
            let fed = self.walk.feed(&bytes[self.at - from..])?;
            self.at += fed.taken;
            self.fed += fed.taken as u64;
            if let Some(frame) = fed.frame {
                self.at = self.start + frame.from;
                self.take(stored, &frame, bytes, from)?;
            }
        }
        Ok(())
    }

    /// Feeds what the walk has not had, or wants again, of the stored bytes.
    fn catch_up(&mut self, stored: &Stored) -> Result<(), Why> {
        while self.at < stored.len() {
            let from = self.at;
            self.feed(stored, &stored.map(from, mapped_to(stored, from, self.fed))?, from)?;
        }
        Ok(())
    }

    /// Says a frame that has just come, of which bytes from a place on are lent; one that begins before them is read from the file.
    fn take(&mut self, stored: &Stored, frame: &FedFrame, bytes: &[u8], from: usize) -> Result<(), Why> {
        let (place, value) = (self.start + frame.place, self.start + frame.value_place);
        let (end, tell) = (value + frame.value_length, self.camera.tell);
        let told = match frame.overlong {
            true => " over-long".into(),
            false if from <= place => tell(&bytes[place - from..end - from], value - place),
            false => tell(&stored.map(place, end)?, value - place),
        };
        self.count += 1;
        let FedFrame { number, value_length, passed, .. } = frame;
        say!("{} frame {} {number} {place} {value} {value_length} {passed}{told}", self.id, self.camera.name);
        Ok(())
    }

    /// Closes the walk; where a value is not whole a new one goes through what there is of it, and counts on.
    fn finish(&mut self, stored: &Stored) -> Result<(), Why> {
        let FramesEnding::Again { from, rest, first } = self.walk.close()? else { return Ok(()) };
        say!("{} again {} {from} {rest}", self.id, self.camera.name);
        self.walk = (self.camera.end)(rest, first);
        (self.start, self.at) = (from, from);
        self.catch_up(stored)
    }
}

/// An upload.
pub struct Upload {
    id: Rc<str>,
    stored: Stored,
    limit: usize,
    canon: bool,
    records: Records,
    cameras: [Frames; CAMERAS.len()],
}

impl Upload {
    /// An upload that is stored in a folder.
    pub fn new(id: &str, options: &Options, folder: &Folder) -> Result<Self, Why> {
        let stored = folder.open(id)?;
        let id: Rc<str> = id.into();
        let limit = options.limit;
        let records = Records { id: id.clone(), walk: Feeding::limit(limit), start: 0, count: 0 };
        let cameras = CAMERAS.each_ref().map(|camera| Frames::new(id.clone(), camera, limit));
        Ok(Upload { id, stored, limit, canon: options.canon, records, cameras })
    }

    /// How many bytes may be read next into room for so many: never more than one past the limit.
    pub fn room(&self, room: usize) -> usize {
        room.min((self.limit - self.stored.len()).saturating_add(1))
    }

    /// Takes bytes that have come, says what has become certain with them, and stores them; those past the limit are not.
    pub fn take(&mut self, piece: &[u8]) -> Result<(), Why> {
        let from = self.stored.len();
        self.records.feed(piece)?;
        self.stored.add(piece)?;
        for frames in &mut self.cameras {
            frames.feed(&self.stored, piece, from)?;
            frames.catch_up(&self.stored)?;
        }
        Ok(())
    }

    /// Says that no bytes come.
    pub fn say_waits(&self) {
        say!("{} waits {}", self.id, self.stored.len());
    }

    /// Closes the walks, for the sender has closed, says the rest of the finished lists, and keeps the file; says how many bytes it has.
    pub fn finish(&mut self) -> Result<usize, Why> {
        self.records.finish(&self.stored)?;
        for frames in &mut self.cameras {
            frames.finish(&self.stored)?;
        }
        let canon = if self.canon { Some(canon::list(&self.id, &self.stored)?) } else { None };
        self.stored.keep()?;
        let mut counts: String = self.cameras.iter().map(|frames| format!(" {} {}", frames.camera.name, frames.count)).collect();
        if let Some((frames, given)) = canon {
            counts += &format!(" canon {frames} given {given}");
        }
        say!("{} records {}{counts}", self.id, self.records.count);
        Ok(self.stored.len())
    }
}
