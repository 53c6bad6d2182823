//! The port's exported calls (include/brinethimble.h), with slices for pointers and lengths. Not all of them are measured.
#![allow(dead_code)]

include!("../../rust/src/calls.rs");

/// The next key from a place on.
pub fn next_key(s: &[u8], from: usize) -> usize {
    unsafe { brine_next_key(s.as_ptr(), s.len(), s.len(), from) }
}

/// What a walk's step writes: found, place, value's place and length, next cursor, the length's form, passed, since.
pub type Stepped = [u64; 9];

/// A step of the finished walk of all of s, into lent places.
pub fn step(s: &[u8], at: usize, since: usize, out: &mut Stepped) {
    unsafe { brine_step(s.as_ptr(), s.len(), s.len(), at, since, out) };
}

/// A step of the arriving walk, into lent places.
pub fn arrive(a: &[u8], limit: usize, at: usize, since: usize, out: &mut Stepped) {
    unsafe { brine_arrive(a.as_ptr(), a.len(), limit, at, since, out) };
}

/// A fed walk of at most so many bytes.
pub fn fed_limit(limit: usize) -> [u64; 10] {
    let mut state = [0; 10];
    unsafe { brine_fed_limit(limit, &mut state) };
    state
}

/// What feeding writes: found, bytes taken, place, value's place and length, the length's form, passed.
pub type Fed = [u64; 8];

/// A piece fed, into lent places.
pub fn feed(state: &mut [u64; 10], piece: &[u8], label: &mut [u8; 16], out: &mut Fed) {
    unsafe { brine_feed(state, piece.as_ptr(), piece.len(), label, out) };
}

/// A piece fed, its records put into lent room: how many were put, bytes taken.
pub fn feed_records(state: &mut [u64; 10], piece: &[u8], room: &mut [u64], labels: &mut [u8]) -> [u64; 2] {
    let mut out = [0; 2];
    unsafe {
        brine_feed_records(state, piece.as_ptr(), piece.len(), room.as_mut_ptr(), room.len(), labels.as_mut_ptr(), labels.len(), &mut out)
    };
    out
}

/// What a step over a run or a set writes: found, place, value's place and length, next cursor, the length's form.
pub type Item = [u64; 7];

/// A step of a run, into lent places.
pub fn run(s: &[u8], at: usize, out: &mut Item) {
    unsafe { brine_run(s.as_ptr(), s.len(), at, out) };
}

/// A step over a set's items, into lent places.
pub fn item(s: &[u8], tag: usize, ber: bool, at: usize, out: &mut Item) {
    unsafe { brine_item(s.as_ptr(), s.len(), tag, ber, at, out) };
}

/// Whether two labels are the same.
pub fn same_label(a: &[u8], b: &[u8]) -> bool {
    unsafe { brine_same_label(a.as_ptr(), a.len(), b.as_ptr(), b.len()) }
}

/// What the search for the header part writes out.
pub fn header(s: &[u8]) -> [u64; 3] {
    let mut out = [0; 3];
    unsafe { brine_header(s.as_ptr(), s.len(), &mut out) };
    out
}

/// What the look-up of a tag in a primer writes out.
pub fn primer(s: &[u8], tag: u64) -> [u64; 2] {
    let mut out = [0; 2];
    unsafe { brine_primer(s.as_ptr(), s.len(), tag, &mut out) };
    out
}

/// Fills a table over a primer.
pub fn primer_table(s: &[u8], table: &mut [u64; 65536]) {
    unsafe { brine_primer_table(s.as_ptr(), s.len(), table) };
}

/// What the look-up of a tag in a primer writes out, by a table over it.
pub fn primer_in(s: &[u8], table: &[u64; 65536], tag: u64) -> [u64; 2] {
    let mut out = [0; 2];
    unsafe { brine_primer_in(s.as_ptr(), s.len(), table, tag, &mut out) };
    out
}

/// What the search for ARRI's 256 bytes writes out.
pub fn arri_block(element: &[u8]) -> [u64; 2] {
    let mut out = [0; 2];
    unsafe { brine_arri_block(element.as_ptr(), element.len(), &mut out) };
    out
}

/// The length of an element's payload, which is put into lent room.
pub fn payload(element: &[u8], room: &mut [u8]) -> u64 {
    let mut out = [0];
    unsafe { brine_payload(element.as_ptr(), element.len(), room.as_mut_ptr(), room.len(), &mut out) };
    out[0]
}

/// What a sequence info writes out, with its positions.
pub fn sequence(s: &[u8]) -> ([u64; 8], [i64; 2]) {
    let (mut out, mut positions) = ([0; 8], [0; 2]);
    unsafe { brine_sequence(s.as_ptr(), s.len(), &mut out, &mut positions) };
    (out, positions)
}

/// How many items of a descriptor are there.
pub fn descriptor_items(s: &[u8]) -> u64 {
    let mut v = Values::default();
    unsafe { brine_descriptor(s.as_ptr(), s.len(), &mut v.kind, &mut v.bits) };
    v.count()
}

/// A record of an index: start, size of the length field, group, length.
pub type Entry = [u64; 4];

/// Adds a record to an index of so many; its status.
pub fn index_add(index: &mut [u8], columns: bool, used: usize, entry: &Entry) -> u32 {
    let mut out = [0];
    unsafe { brine_index_add(index.as_mut_ptr(), index.len(), columns, used, entry, &mut out) }
}

/// The number of the record of an index that covers a position, and 1; 0 where none does.
pub fn index_find(index: &[u8], columns: bool, used: usize, position: u64) -> u64 {
    let mut out = [0; 6];
    unsafe { brine_index_find(index.as_ptr(), index.len(), columns, used, position, &mut out) };
    out[0] * (out[1] + 1)
}

/// A list of values, as a call writes them out.
#[derive(Default)]
pub struct Values {
    pub kind: [u64; 32],
    pub bits: [u64; 32],
}

impl Values {
    /// How many are there.
    fn count(&self) -> u64 {
        self.kind.iter().filter(|kind| **kind != 0).count() as u64
    }
}

/// The values in ARRI's 256 bytes.
pub fn of_dynamic(block: &[u8]) -> Values {
    let mut v = Values::default();
    unsafe { brine_of_dynamic(block.as_ptr(), block.len(), &mut v.kind, &mut v.bits) };
    v
}

/// The values in an ALEXA 35's element.
pub fn of_alexa35(element: &[u8]) -> Values {
    let mut v = Values::default();
    unsafe { brine_of_alexa35(element.as_ptr(), element.len(), &mut v.kind, &mut v.bits) };
    v
}

/// How many fields of Canon's packs have a value.
pub fn camera_fields(s: &[u8]) -> u64 {
    let mut v = Values::default();
    unsafe { brine_camera(s.as_ptr(), s.len(), &mut v.kind, &mut v.bits) };
    v.count()
}

/// The places of a record in lent room.
pub const EACH: usize = 6;

/// Puts records of the finished walk of all of s into lent room, `EACH` places each: how many, the next cursor and its `since`.
pub fn records(s: &[u8], at: usize, since: usize, room: &mut [u64]) -> [u64; 3] {
    let mut out = [0; 3];
    unsafe { brine_records(s.as_ptr(), s.len(), s.len(), at, since, room.as_mut_ptr(), room.len(), &mut out) };
    out
}

/// Records of the arriving walk put into lent room: how many were put, the next cursor.
pub fn arrivals(a: &[u8], limit: usize, at: usize, since: usize, room: &mut [u64]) -> [u64; 3] {
    let mut out = [0; 3];
    unsafe { brine_arrivals(a.as_ptr(), a.len(), limit, at, since, room.as_mut_ptr(), room.len(), &mut out) };
    out
}
