//! `outline`: what a file is made of, without its values, set by set.

use brinethimble::{Ending, FedRecord, Refusal, outline_into};

use crate::list::{again, records};
use crate::say::{Out, hex};
use crate::source::Source;
use crate::words::Asked;
use crate::{Done, Found, Trouble};

/// The longest set, with its label and length, whose items are shown.
const LONGEST: usize = 1 << 22;

/// Whether a record is a set that opens: its items are tagged by one byte or two.
fn opens(label: &[u8; 16]) -> bool {
    label[4] == 2 && matches!(label[5], 0x53 | 0x13 | 0x43)
}

/// The outline of a record, which is that of a file of the record alone.
fn lines(source: &mut Source, record: &FedRecord, depth: usize) -> Result<String, Trouble> {
    if depth == 1 || !opens(&record.label) {
        return Ok(format!("1 {} {}\n", hex(&record.label), record.value_length));
    }
    let length = record.value_place + record.value_length - record.place;
    if length > LONGEST {
        return Err(Trouble::Said(format!("the set at {} has {length} bytes, more than the {LONGEST} that are read", record.place)));
    }
    let set = source.bytes(record.place, length)?;
    let mut room = Vec::new();
    if let Err(Refusal::NoRoom { needed }) = outline_into(&set, length, depth, &mut room) {
        room.resize(needed, 0);
    }
    Ok(outline_into(&set, length, depth, &mut room)?.to_string())
}

/// Says a line of an outline.
fn say(out: &mut Out, line: &str) -> Result<(), Trouble> {
    let mut words = line.split(' ');
    let mut next = || words.next().expect("a line is a level, a key and a length");
    let line = out.line("").word("level", next());
    let said = match (next(), next()) {
        ("rest", length) if out.json => line.word("rest", length),
        (key, length) => line.text("key", key).word("length", length),
    };
    Ok(out.say(said)?)
}

pub fn run(asked: &Asked, out: &mut Out) -> Done {
    let depth = asked.depth.unwrap_or(8);
    if !(1..=8).contains(&depth) {
        return Err(Refusal::Depth.into());
    }
    let mut source = Source::open(asked.file(0), LONGEST)?;
    let ending = records(&mut source, |source, record| {
        for line in lines(source, record, depth)?.lines() {
            say(out, line)?;
        }
        Ok(!out.gone())
    })?;
    match ending {
        Some(Ending::Again { from, rest }) => again(out, from, rest),
        _ => Ok(Found::Right),
    }
}
