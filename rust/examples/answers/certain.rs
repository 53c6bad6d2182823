//! `sonyarrive`, `arriarrive`, `fedsony` and `fedarri`: the frames that no later byte can unsay (docs/RULES.md, "L13. Certain frames").

use brinethimble::{Arri, FedFrame, FeedingFrames, Frame, FrameCursor, FramesEnding, Refusal, Sony};

use crate::fed::pieces;
use crate::passed::put_frame;
use crate::text::Text;

/// A camera's certain frames from a cursor, and where it waits.
type Arriving<'a> = fn(&'a [u8], usize, FrameCursor) -> Result<(Vec<Frame<'a>>, FrameCursor), Refusal>;

/// Puts the frames of all bytes. The frames of half of them, and then of all from where the walk waited, must be the same.
fn put_frames<'a>(out: &mut Text, a: &'a [u8], limit: usize, arriving: Arriving<'a>) -> Result<(), Refusal> {
    let (frames, waits) = arriving(a, limit, FrameCursor::default())?;
    let (mut twice, halfway) = arriving(&a[..a.len() / 2], limit, FrameCursor::default())?;
    let (others, end) = arriving(a, limit, halfway)?;
    twice.extend(others);
    let places = |list: &[Frame]| list.iter().map(|f| (f.number, f.element.place, f.overlong, f.element.passed)).collect::<Vec<_>>();
    assert_eq!((places(&frames), waits), (places(&twice), end));
    frames.iter().for_each(|frame| put_frame(out, frame));
    Ok(())
}

/// `sonyarrive`: Sony's frames.
pub fn sony(out: &mut Text, a: &[u8], limit: usize) -> Result<(), Refusal> {
    put_frames(out, a, limit, |a, limit, cursor| {
        let mut walk = Sony::arriving(a, limit, cursor)?;
        Ok((walk.by_ref().collect(), walk.cursor()))
    })
}

/// `arriarrive`: ARRI's frames.
pub fn arri(out: &mut Text, a: &[u8], limit: usize) -> Result<(), Refusal> {
    put_frames(out, a, limit, |a, limit, cursor| {
        let mut walk = Arri::arriving(a, limit, cursor)?;
        Ok((walk.by_ref().collect(), walk.cursor()))
    })
}

/// Puts a fed frame as it is put elsewhere.
fn put_fed(out: &mut Text, frame: &FedFrame) {
    for number in [frame.number, frame.place as u64, frame.value_place as u64, frame.value_length as u64] {
        out.number(number).put(",");
    }
    out.put(if frame.overlong { "o," } else { "," }).number(frame.passed as u64).put(";");
}

/// `fedsony`, `fedarri`: the frames, and what closing says; a refused piece ends it. Wherever a frame names a place before the bytes that
/// have come, these are fed again, all at once, and closing before their end must be refused.
pub fn fed(out: &mut Text, mut walk: FeedingFrames, cut: &[u64], bytes: &[u8]) {
    let (mut come, mut at) = (0, 0);
    for piece in pieces(cut, bytes) {
        come += piece.len();
        loop {
            let fed = match walk.feed(&bytes[at..come]) {
                Ok(fed) => fed,
                Err(refusal) => {
                    out.put("|refused ").number(refusal.number().into());
                    return;
                }
            };
            let high = come.min(at + fed.taken);
            at = fed.frame.map_or(at + fed.taken, |frame| frame.from);
            if let Some(frame) = fed.frame {
                put_fed(out, &frame);
            }
            assert!(at >= high || walk.clone().close() == Err(Refusal::Closed));
            if fed.frame.is_none() {
                break;
            }
        }
    }
    match walk.close() {
        Ok(FramesEnding::Clean) => out.put("|clean"),
        Ok(FramesEnding::Again { from, rest, .. }) => out.put("|again ").number(from as u64).put(" ").number(rest as u64),
        Err(refusal) => out.put("|refused ").number(refusal.number().into()),
    };
}
