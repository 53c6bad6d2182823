//! The requests read plainly, one file a request: as its sentences say it, and as slowly as they say it. Wherever
//! the published Rust has an answer, it is the judge.

pub mod certain;
pub mod columns;
pub mod fed;
pub mod forms;
pub mod frames;
pub mod groups;
pub mod index;
pub mod outline;
pub mod passed;
pub mod random_index;
pub mod shared;
pub mod strict;
pub mod takes;
pub mod written;

use std::fmt::Write;

use crate::line::{Case, Field, Word, put_hex};

/// A request's words and what answers their cases.
type Request = (&'static [Word], fn(&mut String, &Case));

/// The requests that add words.
const REQUESTS: &[Request] = &[
    (forms::WORDS, forms::put),
    (passed::WORDS, passed::put),
    (strict::WORDS, strict::put),
    (random_index::WORDS, random_index::put),
    (fed::WORDS, fed::put),
    (certain::WORDS, certain::put),
    (outline::WORDS, outline::put),
    (written::WORDS, written::put),
    (index::WORDS, index::put),
    (columns::WORDS, columns::put),
    (shared::WORDS, shared::put),
    (takes::WORDS, takes::put),
];

/// The words that take any part of a file.
pub const TAKING: &[&str] = &[
    "forms",
    "formrun",
    "passed",
    "passarrive",
    "passsony",
    "passarri",
    "passcanon",
    "strict",
    "rip",
    "fed",
    "fedend",
    "sonyarrive",
    "arriarrive",
    "outline",
    "rewrite",
];

/// The words of all requests.
pub fn words() -> impl Iterator<Item = Word> {
    REQUESTS.iter().flat_map(|(words, _)| words.iter().copied())
}

/// Puts what was written into a lent output, or refusal 3 where it is longer than its room.
fn put_bounded(out: &mut String, needed: usize, room: u64, written: impl FnOnce() -> String) {
    match needed {
        0 => out.push('-'),
        _ if needed as u64 > room => write!(out, "refused 3 {needed}").unwrap(),
        _ => out.push_str(&written()),
    }
}

/// Puts bytes that were written into a lent output as hex, or refusal 3.
fn put_written(out: &mut String, bytes: &[u8], room: u64) {
    let mut hex = String::new();
    put_hex(&mut hex, bytes);
    put_bounded(out, bytes.len(), room, || hex);
}

/// The answer to a case of a request.
pub fn put(out: &mut String, case: &Case) {
    if case.word == "tally" {
        return groups::tally(out, &case.bytes);
    }
    let known = case.word == "fedend";
    if case.fields()[0] == Field::End && !known && case.numbers[0] > case.bytes.len() as u64 {
        return out.push_str("refused 1");
    }
    let is_its = |(words, _): &&Request| words.iter().any(|(word, _)| *word == case.word);
    REQUESTS.iter().find(is_its).expect("a request's word").1(out, case);
}

#[cfg(test)]
pub mod tests {
    use crate::answer::answer;

    /// The key that stands for K in the requests' examples.
    pub const KEY: &str = "060e2b340101010d0e15000100010000";

    /// An ARRI element of 8,193 bytes at 0 with an empty frame at 100 in it, and another behind it at 8,212, as hex.
    pub fn over_long() -> String {
        let label = "060e2b34010201010d01030117010f00";
        let zeros = |count: usize| "00".repeat(count);
        format!("{label}822001{}{label}00{}{label}00", zeros(81), zeros(8193 - 81 - 17))
    }

    /// Shows that a case has an answer, with the key where either has a K.
    pub fn shows(case: &str, right: &str) {
        let case = case.replace('K', KEY);
        assert_eq!(answer(&case), right.replace('K', KEY), "{case}");
    }
}
