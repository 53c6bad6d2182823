//! The private functions of arri/mxf.rs, which this is a child of.

use super::*;

/// The header part of a buffer that starts with a header partition pack.
pub fn header(buffer: &[u8]) -> Option<&[u8]> {
    header_partition_metadata(buffer)
}

/// The entries of a primer pack.
pub fn primer(value: &[u8]) -> HashMap<u16, [u8; 16]> {
    primer_of(value)
}

/// The items of a local set, with BER lengths or with lengths of 2 bytes.
pub fn items(set: &[u8], ber: bool) -> impl Iterator<Item = (u16, &[u8])> {
    local_items(set, ber)
}

/// The lengths of a local set's items, together.
pub fn item_lengths(set: &[u8], ber: bool) -> u64 {
    local_items(set, ber).map(|(_, value)| value.len() as u64).sum()
}

/// A step over a local set's items behind a call that writes to places, as an exported one would.
#[inline(never)]
pub fn item_step(set: &[u8], ber: bool, at: usize) -> [u64; 5] {
    let Some((_, value)) = set.get(at..).and_then(|rest| local_items(rest, ber).next()) else { return [0, 0, 0, 0, at as u64] };
    let place = value.as_ptr() as u64 - set.as_ptr() as u64;
    [1, at as u64, place, value.len() as u64, place + value.len() as u64]
}

/// ARRI's 256 bytes of an element.
pub fn dynamic(element: &[u8]) -> Option<&[u8; 256]> {
    dynamic_metadata(element)
}

/// The values in ARRI's 256 bytes.
pub fn of_dynamic(bytes: &[u8; 256]) -> Frame {
    Frame::of_dynamic(bytes)
}

/// The values in an ALEXA 35's element.
pub fn of_alexa35(element: &[u8]) -> Frame {
    Frame::of_alexa35(element)
}

/// Whether the values of an element with a label come from `of_alexa35`.
pub fn is_alexa35(label: &[u8; 16]) -> bool {
    is_frame_data(label)
}

/// Whether a label is a frame's.
pub fn is_frame(label: &[u8; 16]) -> bool {
    is_frame_data(label) || same_ul(label, &PICTURE_METADATA)
}

/// Walks the frames of a buffer up to an end: each is handed to `frame_sample`, with the progress at its value.
pub fn walk(bytes: &[u8], end: u64, progress: impl Fn(f64)) {
    let _ = ArriRaw.parse_mxf(&mut Cursor::new(bytes), end, progress, &AtomicBool::new(false), &InputOptions::default());
}

/// Reads a stream of so many bytes as the published reader does, header metadata and frames, and gives the number of samples.
pub fn read<T: Read + Seek>(stream: &mut T, size: u64) -> usize {
    ArriRaw.parse_mxf(stream, size, |_| (), &AtomicBool::new(false), &InputOptions::default()).map_or(0, |samples| samples.len())
}
