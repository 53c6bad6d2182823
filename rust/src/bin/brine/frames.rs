//! `frames`: each frame with its values. Sony's and ARRI's are fed, in constant memory; Canon's walk has the whole file in memory.

use brinethimble::{
    Arri, Canon, CanonItem, FedFrame, FramesEnding, Record, camera_metadata, package_metadata, payload_into, same_label,
    stream_file_sequence_info, values_of,
};

use crate::cameras::{Camera, KEPT, Walk, first};
use crate::list::again;
use crate::say::{Line, Out, hex};
use crate::source::Source;
use crate::words::Asked;
use crate::{Done, Found, Trouble, values};

/// A frame or a value as it is said: where it stands.
struct Told {
    number: u64,
    place: usize,
    value: usize,
    length: usize,
    passed: usize,
}

impl Told {
    fn of(record: &Record, number: u64) -> Self {
        Told { number, place: record.place, value: record.value_place, length: record.value.len(), passed: record.passed }
    }

    fn put(&self, line: Line) -> Line {
        line.word("number", self.number)
            .word("place", self.place)
            .word("value", self.value)
            .word("length", self.length)
            .word("passed", self.passed)
    }
}

/// The line of a fed frame, with its values where its bytes can still be had.
pub fn line(asked: &Asked, out: &Out, source: &mut Source, camera: Camera, frame: &FedFrame) -> Result<Line, Trouble> {
    let &FedFrame { number, place, value_place: value, value_length: length, passed, overlong, .. } = frame;
    let line = Told { number, place, value, length, passed }.put(out.line("frame").text("frame", camera.name()));
    if overlong {
        return Ok(over_long(line));
    }
    let element = source.bytes(place, value + length - place)?;
    if camera == Camera::Arri {
        let had = Arri::new(&element, element.len())?.next().and_then(|frame| values_of(&element, &frame));
        return Ok(match had {
            Some(had) => values::arri(&had).put(line),
            None => line,
        });
    }
    payload(asked, line, &element[value - place..])
}

fn over_long(line: Line) -> Line {
    line.only_text("over-long").only_json("over_long", true)
}

/// What there is to say of a Sony frame's payload.
fn payload(asked: &Asked, line: Line, element: &[u8]) -> Result<Line, Trouble> {
    let mut room = vec![0; element.len()];
    let length = payload_into(element, &mut room)?;
    let line = line.named("payload_bytes", length);
    Ok(if asked.payload { line.named_text("payload", &hex(&room[..length])) } else { line })
}

pub fn run(asked: &Asked, out: &mut Out) -> Done {
    let mut source = Source::open(asked.file(0), KEPT)?;
    let camera = asked.camera.map_or_else(|| first(&mut source), |camera| Ok(Some(camera)))?;
    let (count, ending) = match camera {
        None => (0, FramesEnding::Clean),
        Some(Camera::Canon) => (canon(asked, out, &source.whole()?)?, FramesEnding::Clean),
        Some(camera) => fed(asked, out, &mut source, camera)?,
    };
    out.say(out.line("frames").word("frames", count))?;
    match ending {
        FramesEnding::Again { from, rest, .. } => again(out, from, rest),
        FramesEnding::Clean => Ok(Found::Right),
    }
}

/// Says the frames of a fed walk: how many there are, and what closing says.
fn fed(asked: &Asked, out: &mut Out, source: &mut Source, camera: Camera) -> Result<(u64, FramesEnding), Trouble> {
    let (mut walk, mut count) = (Walk::over(camera, source), 0);
    while !out.gone() {
        let piece = source.piece(walk.at)?;
        if piece.is_empty() {
            return Ok((count, walk.close()?));
        }
        if let Some(frame) = walk.feed(piece)? {
            count += 1;
            out.say(line(asked, out, source, camera, &frame)?)?;
        }
    }
    Ok((count, FramesEnding::Clean))
}

/// Says Canon's frames and the values between them: each values line has the number of the frame that comes next.
fn canon(asked: &Asked, out: &mut Out, file: &[u8]) -> Result<u64, Trouble> {
    let mut walk = Canon::new(file, file.len())?;
    while let Some(item) = walk.next().filter(|_| !out.gone()) {
        let next = walk.cursor().number;
        match item {
            CanonItem::Frame(frame) => {
                let line = Told::of(&frame.element, frame.number).put(out.line("frame").text("frame", "canon"));
                out.say(if frame.overlong { over_long(line) } else { payload(asked, line, frame.element.value)? })?;
            }
            CanonItem::Given(record) if same_label(record.label, &Canon::STREAM_FILE_SEQUENCE_INFO) => {
                let line = Told::of(&record, next).put(out.line("sequence").text("sequence", "canon"));
                out.say(values::sequence(&stream_file_sequence_info(record.value)).put(line))?;
            }
            CanonItem::Given(record) => {
                for private in package_metadata(record.value) {
                    let line = Told::of(&record, next).put(out.line("values").text("values", "canon"));
                    out.say(values::canon(&camera_metadata(private.value)).put(line))?;
                }
            }
        }
    }
    Ok(walk.cursor().number)
}
