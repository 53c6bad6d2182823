//! The functions of mxf.rs that are not public, which this is a child of.

use super::*;

/// On to the next key of a stream, or to the end.
pub fn search<R: Read + Seek>(stream: &mut BufReader<R>, end: u64) {
    next_key(stream, end, &AtomicBool::new(false), &|_| ()).expect("memory is read without error");
}

/// The next record of a stream, with the stream at its value.
pub fn step<R: Read + Seek>(stream: &mut BufReader<R>, end: u64) -> Option<([u8; 16], u64)> {
    next_klv(stream, end, &AtomicBool::new(false), &|_| ()).expect("memory is read without error")
}

/// The lengths of a run's values, together.
pub fn run_lengths(run: &[u8]) -> u64 {
    klvs(run).map(|(_, value)| value.len() as u64).sum()
}

/// A step of a run behind a call that writes to places, as an exported one would: found, place, value's place, value's
/// length, next cursor.
#[inline(never)]
pub fn run_step(run: &[u8], at: usize) -> [u64; 5] {
    let Some((_, value)) = run.get(at..).and_then(|rest| klvs(rest).next()) else { return [0, 0, 0, 0, at as u64] };
    let place = value.as_ptr() as u64 - run.as_ptr() as u64;
    [1, at as u64, place, value.len() as u64, place + value.len() as u64]
}

/// Whether two labels are the same.
pub fn same_label(a: &[u8], b: &[u8]) -> bool {
    same_ul(a, b)
}
