//! The worst input for the port's search, looked for among periodic ones.

use std::hint::black_box;
use std::time::Instant;

use crate::inputs::{KEY, repeated};
use crate::{port, published};

/// The bytes of each input, and how often it is searched.
const BYTES: usize = 1 << 14;
const PASSES: usize = 9;

/// All patterns of so many bytes at most, of a key's start and 00.
fn patterns(most: usize) -> Vec<Vec<u8>> {
    let mut all = vec![Vec::new()];
    let mut last = all.clone();
    for _ in 0..most {
        let bytes = KEY.iter().chain(&[0]);
        last = bytes.flat_map(|byte| last.iter().map(|pattern| [&pattern[..], &[*byte]].concat())).collect();
        all.extend(last.clone());
    }
    all.split_off(1)
}

/// Patterns of up to six bytes, and those of up to four with zeros after them, to every period up to 130.
fn periods() -> Vec<Vec<u8>> {
    let mut all = patterns(6);
    for period in 7..=130 {
        all.extend(patterns(4).into_iter().map(|pattern| [&pattern[..], &vec![0; period - pattern.len()]].concat()));
    }
    all
}

/// The least time that the port takes for a search.
fn time(s: &[u8]) -> u128 {
    let pass = |_| {
        let began = Instant::now();
        black_box(port::next_key(s, 0));
        began.elapsed().as_nanos()
    };
    (0..PASSES).map(pass).min().unwrap()
}

/// The slowest of them, each beside the published loop over a slice, and the fastest.
pub fn table() {
    let inputs = periods().into_iter().map(|pattern| (repeated(&pattern, BYTES), pattern));
    let mut found: Vec<_> =
        inputs.filter(|(s, _)| published::plain_search(s, 0) == BYTES).map(|(s, pattern)| (time(&s), pattern)).collect();
    found.sort();
    println!("{} periodic inputs of 16 KiB\n\n| ns | period | begins |\n|---|---|---|", found.len());
    for (time, pattern) in found.iter().rev().take(10).chain(&found[..1]) {
        println!("| {time} | {} | `{:02x?}` |", pattern.len(), &pattern[..pattern.len().min(8)]);
    }
}
