//! The frames of Sony's, ARRI's and Canon's walks, put together from what the Rust hands over and what its log says.

use std::collections::BTreeMap;
use std::fmt::Write;

use crate::plain::{Length, length};
use crate::shims::heard;

/// What a walk gives, by the places of its values: they rise, so this is file order.
#[derive(Default)]
pub struct Frames {
    entries: BTreeMap<u64, Entry>,
}

struct Entry {
    /// The number that the Rust gives the frame, if it gives it a sample.
    number: Option<u64>,
    /// Whether it is a frame.
    frame: bool,
    /// What follows the number.
    text: String,
}

impl Frames {
    /// Puts a frame that was read, with its text.
    pub fn put_read(&mut self, number: u64, p: u64, v: u64, bytes: &[u8], text: String) {
        let text = format!("{p},{v},{},,{text};", length_of(bytes, p));
        self.entries.insert(v, Entry { number: Some(number), frame: true, text });
    }

    /// Puts the frames that the log called over-long.
    pub fn put_heard(&mut self, bytes: &[u8]) {
        for (v, length) in heard::taken() {
            let p = place_of(bytes, v).0;
            self.entries.insert(v, Entry { number: None, frame: true, text: format!("{p},{v},{length},o,-;") });
        }
    }

    /// Puts a value that is no frame.
    pub fn put_value(&mut self, v: u64, text: String) {
        self.entries.insert(v, Entry { number: None, frame: false, text });
    }

    /// Lists everything in file order. A frame's number is its place among the frames, as the Rust says where it does.
    pub fn list(self, out: &mut String) {
        let mut next = 0;
        for entry in self.entries.into_values() {
            if entry.frame {
                assert_eq!(entry.number.unwrap_or(next), next, "the Rust's frame number");
                write!(out, "{next},").unwrap();
                next += 1;
            } else {
                out.push_str("-,");
            }
            out.push_str(&entry.text);
        }
    }
}

/// The place of the one label and length that end at a value, and the label.
pub fn place_of(bytes: &[u8], v: u64) -> (u64, [u8; 16]) {
    let v = v as usize;
    let ends = |size: &usize| {
        let place = v.checked_sub(16 + size)?;
        let label: [u8; 16] = bytes[place..place + 16].try_into().ok()?;
        let whole = label.starts_with(&crate::mxf::KEY_START.to_be_bytes()) && is_framed(&label);
        let size_is = matches!(length(&bytes[place + 16..v]), Length::Is(_, found) if found == *size);
        (whole && size_is).then_some((place as u64, label))
    };
    (1..=9).find_map(|size| ends(&size)).expect("a label and a length before the value")
}

/// Whether a label is one of those that the walks give values of, so that no other can overlap it.
fn is_framed(label: &[u8; 16]) -> bool {
    crate::canon::mxf_packs::KEYS.iter().any(|key| crate::mxf::same_ul(key, label))
        || crate::arri::mxf::reach::is_frame(label)
        || *label == crate::sony::mxf::reach::LABEL
}

/// The length that stands after the label at a place.
pub fn length_of(bytes: &[u8], p: u64) -> u64 {
    match length(&bytes[p as usize + 16..]) {
        Length::Is(number, _) => number,
        other => panic!("a length was read there: {other:?}"),
    }
}
