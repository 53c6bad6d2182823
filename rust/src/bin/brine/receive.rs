//! `receive`: an upload as it comes: each record and each frame as soon as no later byte can unsay it.

use brinethimble::{Ending, Feeding, Refusal};

use crate::cameras::{Camera, KEPT, Walk};
use crate::list::{again, told};
use crate::say::{Line, Out};
use crate::source::Source;
use crate::words::Asked;
use crate::{Done, Found, Trouble, frames};

/// Lines of one piece, each with the place of the byte that made it certain.
type Lines = Vec<(usize, Line)>;

/// The walks over an upload, and how many of each were said. A frame walk that wants bytes again which are gone is over.
struct Upload {
    limit: usize,
    records: Feeding,
    frames: [(Camera, Option<Walk>); 2],
    come: usize,
    counts: [u64; 2],
}

impl Upload {
    fn new(limit: usize) -> Self {
        let frames = [Camera::Sony, Camera::Arri].map(|camera| (camera, Some(Walk::limited(camera, limit))));
        Upload { limit, records: Feeding::limit(limit), frames, come: 0, counts: [0, 0] }
    }

    /// Feeds the next piece of a source, as much of it as the limit allows: what it makes certain, and whether there may be more.
    fn piece(&mut self, asked: &Asked, out: &Out, source: &mut Source) -> Result<(Lines, bool), Trouble> {
        let (mut lines, start) = (Lines::new(), self.come);
        let piece = source.piece(start)?;
        let allowed = &piece[..piece.len().min(self.limit - start)];
        self.come += allowed.len();
        for record in self.records.piece(allowed)? {
            self.counts[0] += 1;
            lines.push((record.value_place + record.value_length, told(out.line("record"), &record)));
        }
        for number in 0..self.frames.len() {
            self.frames_of(number, asked, out, source, &mut lines)?;
        }
        Ok((lines, self.come > start))
    }

    /// Feeds what has come to the walk of a camera.
    fn frames_of(&mut self, number: usize, asked: &Asked, out: &Out, source: &mut Source, lines: &mut Lines) -> Result<(), Trouble> {
        let (camera, slot) = &mut self.frames[number];
        while let Some(walk) = slot.as_mut().filter(|walk| walk.at < self.come) {
            if !source.keeps(walk.at) {
                lines.push((self.come, out.line("lost").text("lost", camera.name()).word("place", walk.at)));
                *slot = None;
                break;
            }
            let piece = source.piece(walk.at)?;
            let end = piece.len().min(self.come - walk.at);
            if let Some(frame) = walk.feed(&piece[..end])? {
                self.counts[1] += 1;
                lines.push((frame.value_place + frame.value_length, frames::line(asked, out, source, *camera, &frame)?));
            }
        }
        Ok(())
    }
}

pub fn run(asked: &Asked, out: &mut Out) -> Done {
    let mut source = Source::open(asked.file(0), KEPT)?;
    let mut upload = Upload::new(asked.limit.unwrap_or(usize::MAX));
    loop {
        let (mut lines, more) = upload.piece(asked, out, &mut source)?;
        lines.sort_by_key(|(place, _)| *place);
        for (_, line) in lines {
            out.say(line)?;
        }
        out.flush()?;
        if !more || out.gone() {
            break;
        }
    }
    let past = !source.piece(upload.come)?.is_empty() && !out.gone();
    let [records, frames] = upload.counts;
    out.say(out.line("records").word("records", records).only_text("frames").word("frames", frames))?;
    if past {
        out.say(out.line("refused").word("refused", Refusal::PastLimit.number()))?;
        return Ok(Found::Wanting);
    }
    match upload.records.close()? {
        Ending::Again { from, rest } => again(out, from, rest),
        Ending::Clean if upload.frames.iter().any(|(_, walk)| walk.is_none()) => Ok(Found::Wanting),
        Ending::Clean => Ok(Found::Right),
    }
}
