//! `list`: the records, their count, and how many there are of each label.

use brinethimble::{Ending, Entry, FedRecord, Feeding, Tally, tally};

use crate::say::{Line, Out, hex};
use crate::source::Source;
use crate::words::Asked;
use crate::{Done, Found, Trouble};

/// How many records a call gives at most.
const BATCH: usize = 1024;

/// Hands each record of a source to `tell`, until that says to stop; else what closing says. A file's end is known, so its list is the
/// finished one.
pub fn records(
    source: &mut Source,
    mut tell: impl FnMut(&mut Source, &FedRecord) -> Result<bool, Trouble>,
) -> Result<Option<Ending>, Trouble> {
    let mut walk = source.length().map_or_else(|| Feeding::limit(usize::MAX), Feeding::end);
    let (mut room, mut labels) = (vec![[0; 6]; BATCH], vec![[0; 16]; BATCH]);
    let mut at = 0;
    loop {
        let piece = source.piece(at)?;
        if piece.is_empty() {
            return Ok(Some(walk.close()?));
        }
        let (put, taken) = walk.feed_into(piece, &mut room, &mut labels)?;
        at += taken;
        for (&[place, value, length, bytes, shortest, passed], &label) in room.iter().zip(&labels).take(put) {
            let record = FedRecord {
                place: place as usize,
                label,
                value_place: value as usize,
                value_length: length as usize,
                length_bytes: bytes as usize,
                shortest: shortest == 1,
                passed: passed as usize,
            };
            if !tell(source, &record)? {
                return Ok(None);
            }
        }
    }
}

/// A record's fields.
pub fn told(line: Line, record: &FedRecord) -> Line {
    line.word("place", record.place)
        .text("label", &hex(&record.label))
        .word("value", record.value_place)
        .word("length", record.value_length)
        .word("passed", record.passed)
        .only_json("length_bytes", record.length_bytes)
        .only_json("shortest", record.shortest)
}

/// Says that a stream has ended within a value.
pub fn again(out: &mut Out, from: usize, rest: usize) -> Done {
    out.say(out.line("again").word("again", from).word("rest", rest))?;
    Ok(Found::Wanting)
}

/// Records in groups, as the tally of the whole file has them, by the labels alone.
struct Groups {
    /// The first record of each group, without its value: a file of its own.
    firsts: Vec<u8>,
    tally: Tally,
    counts: Vec<u64>,
    other: u64,
}

impl Groups {
    fn new() -> Self {
        Groups { firsts: Vec::new(), tally: tally(&[]), counts: Vec::new(), other: 0 }
    }

    fn count(&mut self, label: &[u8; 16]) {
        let place = self.firsts.len();
        self.firsts.extend(label);
        self.firsts.push(0);
        let group = self.tally.group(&self.firsts, place);
        if group == Entry::OTHER && self.counts.len() < 64 {
            self.tally = tally(&self.firsts);
            self.counts.push(1);
            return;
        }
        self.firsts.truncate(place);
        match self.counts.get_mut(group as usize) {
            Some(count) => *count += 1,
            None => self.other += 1,
        }
    }

    fn labels(&self) -> impl Iterator<Item = (String, u64)> {
        self.firsts.chunks(17).map(|first| hex(&first[..16])).zip(self.counts.iter().copied())
    }
}

pub fn run(asked: &Asked, out: &mut Out) -> Done {
    let mut source = Source::open(asked.file(0), 0)?;
    let (mut groups, mut count) = (Groups::new(), 0u64);
    let ending = records(&mut source, |_, record| {
        groups.count(&record.label);
        count += 1;
        out.say(told(out.line(""), record))?;
        Ok(!out.gone())
    })?;
    out.say(out.line("records").word("records", count))?;
    for (label, count) in groups.labels() {
        out.say(out.line("label").text("label", &label).word("count", count))?;
    }
    if groups.other > 0 {
        out.say(out.line("other").word("other", groups.other))?;
    }
    match ending {
        Some(Ending::Again { from, rest }) => again(out, from, rest),
        _ => Ok(Found::Right),
    }
}
