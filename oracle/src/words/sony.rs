//! `anc`, `set` and `sony`: src/sony/mxf.rs.

use std::cell::RefCell;
use std::fmt::Write;
use std::io::{Cursor, Result};

use serde_json::Value;

use super::frames::{Frames, place_of};
use crate::line::put_bytes;
use crate::shims::heard;
use crate::sony::mxf::{parse, reach};
use crate::{InputOptions, SampleInfo};

/// `anc`: the payload of an ST 436 element.
pub fn anc(out: &mut String, bytes: &[u8]) {
    let payload = reach::payload(bytes);
    write!(out, "{},", payload.len()).unwrap();
    put_bytes(out, &payload);
}

/// `set`: the items of a descriptor.
pub fn set(out: &mut String, bytes: &[u8]) {
    let Some(items) = reach::set(bytes) else {
        out.push_str("refused 4");
        return;
    };
    for (name, value) in items {
        match (value.as_u64(), value) {
            (_, Value::Null) => {}
            (Some(whole), _) => write!(out, "{name}=i:{whole};").unwrap(),
            (None, value) => write!(out, "{name}=f:{:016x};", value.as_f64().expect("a number").to_bits()).unwrap(),
        }
    }
}

/// `sony`: the frames with their payloads.
pub fn frames(out: &mut String, bytes: &[u8], end: u64) {
    heard::listen();
    let read = RefCell::new(Vec::new());
    let size = walked(bytes, end);
    let samples = parse(
        &mut Cursor::new(bytes),
        end,
        |share| heard::reached(share, size),
        Default::default(),
        None,
        &InputOptions::default(),
        |payload, _, _| {
            read.borrow_mut().push((heard::place(), payload.to_vec()));
            Ok(())
        },
    );
    list(out, bytes, samples, read.into_inner(), Frames::default());
}

/// The size that Sony's walk takes: an end of 0 is the whole stream to it.
pub fn walked(bytes: &[u8], end: u64) -> u64 {
    if end > 0 { end } else { bytes.len() as u64 }
}

/// Lists a walk's frames: the numbers of its samples with the payloads that it read, and what was heard of the rest.
pub fn list(out: &mut String, bytes: &[u8], samples: Result<Vec<SampleInfo>>, read: Vec<(u64, Vec<u8>)>, mut frames: Frames) {
    let numbers = samples.expect("memory is read without error").into_iter().map(|sample| sample.sample_index);
    for (number, (v, payload)) in numbers.zip(read) {
        let mut text = String::new();
        put_bytes(&mut text, &payload);
        frames.put_read(number, place_of(bytes, v).0, v, bytes, text);
    }
    frames.put_heard(bytes);
    frames.list(out);
}

#[cfg(test)]
mod tests {
    use super::*;
    use crate::cases::sketch::encoded;

    /// The answer to an ST 436 element of so many zeros.
    fn answer(length: usize) -> String {
        let mut bytes = [&reach::LABEL[..], &encoded(length as u64, 5)].concat();
        bytes.resize(21 + length, 0);
        let mut out = String::new();
        frames(&mut out, &bytes, bytes.len() as u64);
        out
    }

    #[test]
    fn the_longest_element_is_read_and_one_byte_more_is_over_long() {
        assert_eq!(answer(23_723_672), "0,0,21,23723672,,-;");
        assert_eq!(answer(23_723_673), "0,0,21,23723673,o,-;");
    }
}
