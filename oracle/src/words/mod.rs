//! What the published Rust answers to each word.

pub mod arri;
pub mod canon;
mod frames;
pub mod sony;
pub mod walk;

use crate::line::put_hex;

/// A record of a walk or a run.
#[derive(Clone, PartialEq, Eq, Debug)]
pub struct Record {
    pub place: u64,
    pub label: [u8; 16],
    pub value: u64,
    pub length: u64,
}

impl Record {
    /// The place after the value.
    pub fn end(&self) -> u64 {
        self.value + self.length
    }

    /// The record's text, without its end.
    pub fn put(&self, out: &mut String) {
        put_number(out, self.place);
        out.push(',');
        put_hex(out, &self.label);
        out.push(',');
        put_number(out, self.value);
        out.push(',');
        put_number(out, self.length);
    }
}

/// A whole number in decimal.
pub fn put_number(out: &mut String, number: u64) {
    use std::fmt::Write;
    write!(out, "{number}").expect("a string takes all");
}

/// The place of a part in its whole.
pub fn offset(whole: &[u8], part: &[u8]) -> u64 {
    (part.as_ptr() as usize - whole.as_ptr() as usize) as u64
}
