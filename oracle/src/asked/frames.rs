//! The frame walks as the rules say them, with L9's counts, and L13's arriving form.

use crate::arri::mxf::reach::is_frame;
use crate::canon::mxf_packs::KEYS;
use crate::mxf::same_ul;
use crate::plain::{arriving_search, arriving_step, finished_step, search};
use crate::sony::mxf::reach::LABEL;
use crate::words::Record;

/// A frame walk: its label, its longest element, and of Canon's the labels and the longest value that it gives besides.
pub struct Kind {
    is_frame: fn(&[u8; 16]) -> bool,
    longest: u64,
    is_given: fn(&[u8; 16]) -> bool,
    longest_given: u64,
}

pub const SONY: Kind = Kind { is_frame: |label| *label == LABEL, longest: 23_723_672, is_given: |_| false, longest_given: 0 };
pub const ARRI: Kind = Kind { is_frame, longest: 8192, ..SONY };
pub const CANON: Kind = Kind { is_given: |label| KEYS.iter().any(|key| same_ul(key, label)), longest_given: 1_048_576, ..SONY };

/// What a frame walk gives: a frame with its number, or a value of Canon's without one.
#[derive(Clone, PartialEq, Eq, Debug)]
pub struct Given {
    pub number: Option<u64>,
    pub record: Record,
    pub over_long: bool,
    pub passed: u64,
}

/// A frame walk over the steps and searches of a walk: it steps over every record but an over-long frame, from whose value it
/// searches. The last cursor is with what it gives.
fn frames(kind: &Kind, step: impl Fn(usize) -> Result<Record, usize>, search: impl Fn(usize) -> usize) -> (Vec<Given>, usize) {
    let mut given = Vec::new();
    let (mut at, mut since, mut numbers) = (0, 0, 0..);
    loop {
        let record = match step(at) {
            Ok(record) => record,
            Err(cursor) => return (given, cursor),
        };
        let is_frame = (kind.is_frame)(&record.label);
        let over_long = is_frame && record.length > kind.longest;
        let passed = record.place - since;
        (since, at) = if over_long { (record.value, search(record.value as usize)) } else { (record.end(), record.end() as usize) };
        if is_frame || (kind.is_given)(&record.label) && record.length <= kind.longest_given {
            given.push(Given { number: if is_frame { numbers.next() } else { None }, record, over_long, passed });
        }
    }
}

/// The frames of the finished walk up to an end.
pub fn finished_frames(bytes: &[u8], e: usize, kind: &Kind) -> Vec<Given> {
    frames(kind, |p| finished_step(bytes, e, p), |from| search(bytes, from, e)).0
}

/// The frames of the arriving walk within a limit, and the place where it waits.
pub fn arriving_frames(bytes: &[u8], limit: u64, kind: &Kind) -> (Vec<Given>, usize) {
    frames(kind, |p| arriving_step(bytes, limit, p), |from| arriving_search(bytes, from).unwrap_or_else(|at| at))
}
