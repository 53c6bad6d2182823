//! The library's calls (include/brinethimble.h), and over each a function that is safe to call. All that is `unsafe` in this
//! crate is here, and for one reason everywhere: a slice is as many readable bytes as it says, its pointer is never null, and
//! an array has the number of places that the call writes.

use crate::Refusal;
use crate::frames::FrameCursor;
use crate::places::{KIND_F32, KIND_F64, KIND_WHOLE, VALUES};
use crate::takes::TakesCursor;
use crate::walk::Cursor;

/// The library is for 64-bit machines: a place that it answers is a `usize`.
const _: () = assert!(usize::BITS == 64);

/// What a step of a walk wrote: found, place, value's place, value's length, next cursor, bytes of the length field, shortest or
/// not, bytes passed, next cursor's `since`.
pub type Stepped = [u64; 9];
/// What a step of a run or over items wrote: the first seven of these.
pub type Inside = [u64; 7];
/// What a step of a frame walk wrote: found, number, place, value's place, value's length, over-long, next cursor, next number,
/// bytes passed, next cursor's `since`.
pub type Framed = [u64; 10];

/// A room of two files: the whole, their shares, their counts, whether each is open.
pub type Room = [u64; 7];

/// A list of values as the library writes them: what each is, and its bits.
#[derive(Default)]
pub struct Values {
    kind: [u64; VALUES],
    bits: [u64; VALUES],
}

impl Values {
    /// What the value at a place is, and its bits.
    pub fn at(&self, place: usize) -> (u64, u64) {
        (self.kind[place], self.bits[place])
    }

    /// The bits of a value that is of a kind.
    fn of(&self, kind: u64, place: usize) -> Option<u64> {
        (self.kind[place] == kind).then_some(self.bits[place])
    }

    /// A whole number.
    pub fn whole(&self, place: usize) -> Option<u64> {
        self.of(KIND_WHOLE, place)
    }

    /// An `f32`.
    pub fn single(&self, place: usize) -> Option<f32> {
        self.of(KIND_F32, place).map(|bits| f32::from_bits(bits as u32))
    }

    /// An `f64`.
    pub fn double(&self, place: usize) -> Option<f64> {
        self.of(KIND_F64, place).map(f64::from_bits)
    }
}

include!("calls.rs");

/// What a status says; `told` is the number that comes with some: what a payload, a text or a writer without room needs, where records
/// break off.
fn answered<T>(status: u32, told: u64, answer: T) -> Result<T, Refusal> {
    let place = told as usize;
    match status {
        0 => Ok(answer),
        1 => Err(Refusal::EndPastBuffer),
        2 => Err(Refusal::PastLimit),
        3 => Err(Refusal::NoRoom { needed: told as usize }),
        4 => Err(Refusal::ItemPastSet),
        5 => Err(Refusal::Closed),
        6 => Err(Refusal::Depth),
        7 => Err(Refusal::PackSize),
        8 => Err(Refusal::PackLabel),
        9 => Err(Refusal::PackLength),
        10 => Err(Refusal::TooShort { place }),
        11 => Err(Refusal::NoKey { place }),
        12 => Err(Refusal::NoLength { place }),
        13 => Err(Refusal::Indefinite { place }),
        14 => Err(Refusal::PastEnd { place }),
        15 => Err(Refusal::NoFit),
        16 => Err(Refusal::Start),
        17 => Err(Refusal::Order),
        18 => Err(Refusal::Full),
        19 => Err(Refusal::File),
        20 => Err(Refusal::Shares),
        _ => unreachable!("{status} is no status of the library"),
    }
}

/// `brine_version`.
pub fn version() -> u32 {
    unsafe { brine_version() }
}

/// `brine_length`: found, number, bytes, shortest or not.
pub fn length(s: &[u8], at: usize) -> [u64; 4] {
    let mut out = [0; 4];
    unsafe { brine_length(s.as_ptr(), s.len(), at, &mut out) };
    out
}

/// `brine_same_label`.
pub fn same_label(a: &[u8], b: &[u8]) -> bool {
    unsafe { brine_same_label(a.as_ptr(), a.len(), b.as_ptr(), b.len()) }
}

/// `brine_next_key`.
pub fn next_key(s: &[u8], end: usize, from: usize) -> usize {
    unsafe { brine_next_key(s.as_ptr(), s.len(), end, from) }
}

/// `brine_step`.
pub fn step(s: &[u8], end: usize, Cursor { at, since }: Cursor) -> Result<Stepped, Refusal> {
    let mut out = [0; 9];
    let status = unsafe { brine_step(s.as_ptr(), s.len(), end, at, since, &mut out) };
    answered(status, 0, out)
}

/// `brine_arrive`.
pub fn arrive(a: &[u8], limit: usize, Cursor { at, since }: Cursor) -> Result<Stepped, Refusal> {
    let mut out = [0; 9];
    let status = unsafe { brine_arrive(a.as_ptr(), a.len(), limit, at, since, &mut out) };
    answered(status, 0, out)
}

/// `brine_records`: how many were put, next cursor, its `since`.
pub fn records(s: &[u8], end: usize, Cursor { at, since }: Cursor, records: &mut [u64]) -> Result<[u64; 3], Refusal> {
    let mut out = [0; 3];
    let (room, places) = (records.as_mut_ptr(), records.len());
    let status = unsafe { brine_records(s.as_ptr(), s.len(), end, at, since, room, places, &mut out) };
    answered(status, 0, out)
}

/// `brine_arrivals`: how many were put, next cursor, its `since`.
pub fn arrivals(a: &[u8], limit: usize, Cursor { at, since }: Cursor, records: &mut [u64]) -> Result<[u64; 3], Refusal> {
    let mut out = [0; 3];
    let (room, places) = (records.as_mut_ptr(), records.len());
    let status = unsafe { brine_arrivals(a.as_ptr(), a.len(), limit, at, since, room, places, &mut out) };
    answered(status, 0, out)
}

/// A fed walk's state.
pub type State = [u64; 10];

/// `brine_fed_limit`.
pub fn fed_limit(limit: usize) -> State {
    let mut state = [0; 10];
    unsafe { brine_fed_limit(limit, &mut state) };
    state
}

/// `brine_fed_end`.
pub fn fed_end(end: usize) -> State {
    let mut state = [0; 10];
    unsafe { brine_fed_end(end, &mut state) };
    state
}

/// `brine_feed`: found, bytes taken, place, value's place, value's length, bytes of the length field, shortest or not, bytes passed;
/// and the label of what was found.
pub fn feed(state: &mut State, piece: &[u8]) -> Result<([u64; 8], [u8; 16]), Refusal> {
    let (mut out, mut label) = ([0; 8], [0; 16]);
    let status = unsafe { brine_feed(state, piece.as_ptr(), piece.len(), &mut label, &mut out) };
    answered(status, 0, (out, label))
}

/// `brine_feed_records`: how many records were put, bytes taken.
pub fn feed_records(state: &mut State, piece: &[u8], records: &mut [u64], labels: &mut [u8]) -> Result<[u64; 2], Refusal> {
    let mut out = [0; 2];
    let (room, places) = (records.as_mut_ptr(), records.len());
    let (names, bytes) = (labels.as_mut_ptr(), labels.len());
    let status = unsafe { brine_feed_records(state, piece.as_ptr(), piece.len(), room, places, names, bytes, &mut out) };
    answered(status, 0, out)
}

/// `brine_close`: 1 clean or 2 again, the value's place, the rest.
pub fn close(state: &mut State) -> Result<[u64; 3], Refusal> {
    let mut out = [0; 3];
    let status = unsafe { brine_close(state, &mut out) };
    answered(status, 0, out)
}

/// `brine_tally`: how many groups there are, how many records are in none.
pub fn tally(s: &[u8], firsts: &mut [usize; 64], counts: &mut [usize; 64]) -> [u64; 2] {
    let mut out = [0; 2];
    unsafe { brine_tally(s.as_ptr(), s.len(), firsts, counts, &mut out) };
    out
}

/// `brine_run`.
pub fn run(s: &[u8], at: usize) -> Inside {
    let mut out = [0; 7];
    unsafe { brine_run(s.as_ptr(), s.len(), at, &mut out) };
    out
}

/// `brine_item`.
pub fn item(s: &[u8], tag: usize, ber: bool, at: usize) -> Inside {
    let mut out = [0; 7];
    unsafe { brine_item(s.as_ptr(), s.len(), tag, ber, at, &mut out) };
    out
}

/// `brine_outline`: the text's length.
pub fn outline(s: &[u8], end: usize, depth: usize, text: &mut [u8]) -> Result<usize, Refusal> {
    let mut out = [0];
    let status = unsafe { brine_outline(s.as_ptr(), s.len(), end, depth, text.as_mut_ptr(), text.len(), &mut out) };
    answered(status, out[0], out[0] as usize)
}

/// `brine_header`: found, place, length.
pub fn header(s: &[u8]) -> [u64; 3] {
    let mut out = [0; 3];
    unsafe { brine_header(s.as_ptr(), s.len(), &mut out) };
    out
}

/// `brine_primer`: found, place.
pub fn primer(s: &[u8], tag: u16) -> [u64; 2] {
    let mut out = [0; 2];
    unsafe { brine_primer(s.as_ptr(), s.len(), tag.into(), &mut out) };
    out
}

/// `brine_primer_table`.
pub fn primer_table(s: &[u8], table: &mut [u64; 65536]) {
    unsafe { brine_primer_table(s.as_ptr(), s.len(), table) };
}

/// `brine_primer_in`: found, place.
pub fn primer_in(s: &[u8], table: &[u64; 65536], tag: u16) -> [u64; 2] {
    let mut out = [0; 2];
    unsafe { brine_primer_in(s.as_ptr(), s.len(), table, tag.into(), &mut out) };
    out
}

/// `brine_arri_block`: found, place.
pub fn arri_block(element: &[u8]) -> [u64; 2] {
    let mut out = [0; 2];
    unsafe { brine_arri_block(element.as_ptr(), element.len(), &mut out) };
    out
}

/// `brine_payload`: its length.
pub fn payload(element: &[u8], payload: &mut [u8]) -> Result<usize, Refusal> {
    let mut out = [0];
    let status = unsafe { brine_payload(element.as_ptr(), element.len(), payload.as_mut_ptr(), payload.len(), &mut out) };
    answered(status, out[0], out[0] as usize)
}

/// `brine_line`: found, payload's place, payload's length, next cursor's place, lines left there.
pub fn line(element: &[u8], at: usize, left: usize) -> [u64; 5] {
    let mut out = [0; 5];
    unsafe { brine_line(element.as_ptr(), element.len(), at, left, &mut out) };
    out
}

/// `brine_descriptor`.
pub fn descriptor(s: &[u8]) -> Result<Values, Refusal> {
    let mut v = Values::default();
    let status = unsafe { brine_descriptor(s.as_ptr(), s.len(), &mut v.kind, &mut v.bits) };
    answered(status, 0, v)
}

/// `brine_sony_step`.
pub fn sony_step(s: &[u8], end: usize, FrameCursor { at, since, number }: FrameCursor) -> Result<Framed, Refusal> {
    let mut out = [0; 10];
    let status = unsafe { brine_sony_step(s.as_ptr(), s.len(), end, at, since, number, &mut out) };
    answered(status, 0, out)
}

/// `brine_arri_step`.
pub fn arri_step(s: &[u8], end: usize, FrameCursor { at, since, number }: FrameCursor) -> Result<Framed, Refusal> {
    let mut out = [0; 10];
    let status = unsafe { brine_arri_step(s.as_ptr(), s.len(), end, at, since, number, &mut out) };
    answered(status, 0, out)
}

/// `brine_sony_arrive`.
pub fn sony_arrive(a: &[u8], limit: usize, FrameCursor { at, since, number }: FrameCursor) -> Result<Framed, Refusal> {
    let mut out = [0; 10];
    let status = unsafe { brine_sony_arrive(a.as_ptr(), a.len(), limit, at, since, number, &mut out) };
    answered(status, 0, out)
}

/// `brine_arri_arrive`.
pub fn arri_arrive(a: &[u8], limit: usize, FrameCursor { at, since, number }: FrameCursor) -> Result<Framed, Refusal> {
    let mut out = [0; 10];
    let status = unsafe { brine_arri_arrive(a.as_ptr(), a.len(), limit, at, since, number, &mut out) };
    answered(status, 0, out)
}

/// `brine_canon_step`.
pub fn canon_step(s: &[u8], end: usize, FrameCursor { at, since, number }: FrameCursor) -> Result<Framed, Refusal> {
    let mut out = [0; 10];
    let status = unsafe { brine_canon_step(s.as_ptr(), s.len(), end, at, since, number, &mut out) };
    answered(status, 0, out)
}

/// The state of a frame walk that is fed.
pub type FrameState = [u64; 13];

/// `brine_fed_sony_limit`.
pub fn fed_sony_limit(limit: usize, first: u64) -> FrameState {
    let mut state = [0; 13];
    unsafe { brine_fed_sony_limit(limit, first, &mut state) };
    state
}

/// `brine_fed_sony_end`.
pub fn fed_sony_end(end: usize, first: u64) -> FrameState {
    let mut state = [0; 13];
    unsafe { brine_fed_sony_end(end, first, &mut state) };
    state
}

/// `brine_fed_arri_limit`.
pub fn fed_arri_limit(limit: usize, first: u64) -> FrameState {
    let mut state = [0; 13];
    unsafe { brine_fed_arri_limit(limit, first, &mut state) };
    state
}

/// `brine_fed_arri_end`.
pub fn fed_arri_end(end: usize, first: u64) -> FrameState {
    let mut state = [0; 13];
    unsafe { brine_fed_arri_end(end, first, &mut state) };
    state
}

/// `brine_feed_frame`: the places, and the element's label.
pub fn feed_frame(state: &mut FrameState, piece: &[u8]) -> Result<([u64; 9], [u8; 16]), Refusal> {
    let (mut out, mut label) = ([0; 9], [0; 16]);
    let status = unsafe { brine_feed_frame(state, piece.as_ptr(), piece.len(), &mut label, &mut out) };
    answered(status, 0, (out, label))
}

/// `brine_close_frames`: what closing says, from where on, how much, and the next frame's number.
pub fn close_frames(state: &mut FrameState) -> Result<[u64; 4], Refusal> {
    let mut out = [0; 4];
    let status = unsafe { brine_close_frames(state, &mut out) };
    answered(status, 0, out)
}

/// `brine_of_dynamic`.
pub fn of_dynamic(block: &[u8]) -> Values {
    let mut v = Values::default();
    unsafe { brine_of_dynamic(block.as_ptr(), block.len(), &mut v.kind, &mut v.bits) };
    v
}

/// `brine_of_alexa35`.
pub fn of_alexa35(element: &[u8]) -> Values {
    let mut v = Values::default();
    unsafe { brine_of_alexa35(element.as_ptr(), element.len(), &mut v.kind, &mut v.bits) };
    v
}

/// `brine_arri_values`, where they are found.
pub fn arri_values(s: &[u8], frame: &[u64; 4]) -> Option<Values> {
    let (mut out, mut v) = ([0], Values::default());
    unsafe { brine_arri_values(s.as_ptr(), s.len(), frame, &mut out, &mut v.kind, &mut v.bits) };
    (out[0] == 1).then_some(v)
}

/// What a step over two recordings wrote: found, number, what is apart, the side that has it, fields, the next cursor's three places;
/// and the values of both sides.
#[derive(Default)]
pub struct TakesStep {
    pub out: [u64; 8],
    pub main: Values,
    pub backup: Values,
}

/// `brine_takes_step`, of two files with their ends.
pub fn takes_step(main: (&[u8], usize), backup: (&[u8], usize), at: TakesCursor) -> Result<TakesStep, Refusal> {
    let ((a, a_end), (b, b_end), mut step) = (main, backup, TakesStep::default());
    let TakesStep { out, main, backup } = &mut step;
    let status = unsafe {
        brine_takes_step(
            a.as_ptr(),
            a.len(),
            a_end,
            b.as_ptr(),
            b.len(),
            b_end,
            at.main,
            at.backup,
            at.number,
            out,
            &mut main.kind,
            &mut main.bits,
            &mut backup.kind,
            &mut backup.bits,
        )
    };
    answered(status, 0, step)
}

/// `brine_package`: found, record's place, value's place, value's length, next cursor's two places.
pub fn package(s: &[u8], from: usize, end: usize) -> [u64; 6] {
    let mut out = [0; 6];
    unsafe { brine_package(s.as_ptr(), s.len(), from, end, &mut out) };
    out
}

/// `brine_camera`.
pub fn camera(s: &[u8]) -> Values {
    let mut v = Values::default();
    unsafe { brine_camera(s.as_ptr(), s.len(), &mut v.kind, &mut v.bits) };
    v
}

/// `brine_sequence`: where the identifiers are and what is found, the two positions.
pub fn sequence(s: &[u8]) -> ([u64; 8], [i64; 2]) {
    let (mut out, mut positions) = ([0; 8], [0; 2]);
    unsafe { brine_sequence(s.as_ptr(), s.len(), &mut out, &mut positions) };
    (out, positions)
}

/// `brine_strict`.
pub fn strict(s: &[u8], end: usize) -> Result<(), Refusal> {
    let mut out = [0];
    let status = unsafe { brine_strict(s.as_ptr(), s.len(), end, &mut out) };
    answered(status, out[0], ())
}

/// `brine_random_index`: the first pair's place, how many pairs there are.
pub fn random_index(s: &[u8]) -> Result<[u64; 2], Refusal> {
    let mut out = [0; 2];
    let status = unsafe { brine_random_index(s.as_ptr(), s.len(), &mut out) };
    answered(status, 0, out)
}

/// `brine_pair`: found, stream, offset, whether a partition stands there, next cursor's place, pairs left there.
pub fn pair(s: &[u8], at: usize, left: usize) -> [u64; 6] {
    let mut out = [0; 6];
    unsafe { brine_pair(s.as_ptr(), s.len(), at, left, &mut out) };
    out
}

/// `brine_shortest`.
pub fn shortest(n: u64) -> usize {
    unsafe { brine_shortest(n) }
}

/// `brine_put_length`: the place behind it.
pub fn put_length(n: u64, size: usize, room: &mut [u8], at: usize) -> Result<usize, Refusal> {
    let mut out = [0];
    let status = unsafe { brine_put_length(n, size, room.as_mut_ptr(), room.len(), at, &mut out) };
    answered(status, out[0], out[0] as usize)
}

/// `brine_put_klv`: the place behind it.
pub fn put_klv(label: &[u8; 16], size: usize, value: &[u8], room: &mut [u8], at: usize) -> Result<usize, Refusal> {
    let mut out = [0];
    let status = unsafe { brine_put_klv(label, size, value.as_ptr(), value.len(), room.as_mut_ptr(), room.len(), at, &mut out) };
    answered(status, out[0], out[0] as usize)
}

/// `brine_rewrite`: the place behind it.
pub fn rewrite(s: &[u8], room: &mut [u8]) -> Result<usize, Refusal> {
    let mut out = [0];
    let status = unsafe { brine_rewrite(s.as_ptr(), s.len(), room.as_mut_ptr(), room.len(), &mut out) };
    answered(status, out[0], out[0] as usize)
}

/// `brine_put_item`: the place behind it.
pub fn put_item(tag: u64, value: &[u8], room: &mut [u8], at: usize) -> Result<usize, Refusal> {
    let mut out = [0];
    let status = unsafe { brine_put_item(tag, value.as_ptr(), value.len(), room.as_mut_ptr(), room.len(), at, &mut out) };
    answered(status, out[0], out[0] as usize)
}

/// `brine_put_primer`: the place behind it.
pub fn put_primer(tags: &[u64], labels: &[u8], room: &mut [u8], at: usize) -> Result<usize, Refusal> {
    let mut out = [0];
    let (tags, tags_len, labels, labels_len) = (tags.as_ptr(), tags.len(), labels.as_ptr(), labels.len());
    let status = unsafe { brine_put_primer(tags, tags_len, labels, labels_len, room.as_mut_ptr(), room.len(), at, &mut out) };
    answered(status, out[0], out[0] as usize)
}

/// `brine_put_pack`: the place behind it.
pub fn put_pack(id: u64, fields: &[u64], room: &mut [u8], at: usize) -> Result<usize, Refusal> {
    let mut out = [0];
    let status = unsafe { brine_put_pack(id, fields.as_ptr(), fields.len(), room.as_mut_ptr(), room.len(), at, &mut out) };
    answered(status, out[0], out[0] as usize)
}

/// `brine_group`.
pub fn group(s: &[u8], firsts: &[usize; 64], groups: usize, at: usize) -> u64 {
    unsafe { brine_group(s.as_ptr(), s.len(), firsts, groups, at) }
}

/// `brine_index_add`: how many records there are now.
pub fn index_add(index: &mut [u8], columns: bool, used: usize, entry: &[u64; 4]) -> Result<usize, Refusal> {
    let mut out = [0];
    let status = unsafe { brine_index_add(index.as_mut_ptr(), index.len(), columns, used, entry, &mut out) };
    answered(status, 0, out[0] as usize)
}

/// `brine_index_find`: found, number, start, size, group, length.
pub fn index_find(index: &[u8], columns: bool, used: usize, position: u64) -> Result<[u64; 6], Refusal> {
    let mut out = [0; 6];
    let status = unsafe { brine_index_find(index.as_ptr(), index.len(), columns, used, position, &mut out) };
    answered(status, 0, out)
}

/// `brine_index_columns`.
pub fn index_columns(rows: &[u8], room: &mut [u8]) -> Result<(), Refusal> {
    let mut out = [0];
    let status = unsafe { brine_index_columns(rows.as_ptr(), rows.len(), room.as_mut_ptr(), room.len(), &mut out) };
    answered(status, out[0], ())
}

/// `brine_index_rows`.
pub fn index_rows(columns: &[u8], room: &mut [u8]) -> Result<(), Refusal> {
    let mut out = [0];
    let status = unsafe { brine_index_rows(columns.as_ptr(), columns.len(), room.as_mut_ptr(), room.len(), &mut out) };
    answered(status, out[0], ())
}

/// `brine_shared_set_up`.
pub fn shared_set_up(index: &[u8], a: usize, b: usize) -> Result<Room, Refusal> {
    let mut room = [0; 7];
    let status = unsafe { brine_shared_set_up(index.as_ptr(), index.len(), a, b, &mut room) };
    answered(status, 0, room)
}

/// `brine_shared_open`.
pub fn shared_open(room: &mut Room, file: u64) -> Result<(), Refusal> {
    let status = unsafe { brine_shared_open(room, file) };
    answered(status, 0, ())
}

/// `brine_shared_close`.
pub fn shared_close(room: &mut Room, file: u64) -> Result<(), Refusal> {
    let status = unsafe { brine_shared_close(room, file) };
    answered(status, 0, ())
}

/// `brine_shared_add`.
pub fn shared_add(index: &mut [u8], columns: bool, room: &mut Room, file: u64, entry: &[u64; 4]) -> Result<(), Refusal> {
    let status = unsafe { brine_shared_add(index.as_mut_ptr(), index.len(), columns, room, file, entry) };
    answered(status, 0, ())
}

/// `brine_shared_find`: found, number, start, size, group, length.
pub fn shared_find(index: &[u8], columns: bool, room: &Room, file: u64, position: u64) -> Result<[u64; 6], Refusal> {
    let mut out = [0; 6];
    let status = unsafe { brine_shared_find(index.as_ptr(), index.len(), columns, room, file, position, &mut out) };
    answered(status, 0, out)
}
