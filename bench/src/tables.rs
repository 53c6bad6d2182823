//! The rows of tables inside values and of frame values: each pass is so many calls over one value.

use oracle::arri::mxf::reach as arri;
use oracle::canon::mxf_packs::reach as canon;
use oracle::mxf::reach as mxf;
use oracle::sony::mxf::reach as sony;

use crate::inputs::{KEY, Random, records};
use crate::port;
use crate::primers::{Table, mapped, primer, searched};
use crate::rows::{Row, kept};

/// The calls of a pass: few where a call is long, since a short pass is the less disturbed.
const CALLS: u64 = 256;
const LONG_CALLS: u64 = 8;

/// The rows.
pub fn rows(rows: &mut Vec<Row>) {
    primers(rows);
    items(rows);
    ancillary(rows);
    others(rows);
}

/// A row of calls, each answering a number.
pub fn row(name: &str, target: Option<f64>, port: impl Fn() -> u64 + 'static, rust: impl Fn() -> u64 + 'static) -> Row {
    let calls = if name.starts_with("hostile") || name.ends_with("100 look-ups") { LONG_CALLS } else { CALLS };
    Row {
        part: "tables and frame values, 256 calls (hostile ones and 100 look-ups: 8)",
        name: name.into(),
        target,
        port: Box::new(move || (0..calls).map(|_| std::hint::black_box(port())).sum()),
        rust: Box::new(move || (0..calls).map(|_| std::hint::black_box(rust())).sum()),
        others: Vec::new(),
    }
}

/// A primer of 100 entries. The Rust makes a map of it, once for a file; the port searches it, or fills a table once.
fn primers(rows: &mut Vec<Row>) {
    let s = kept(primer(100));
    let tags = || 0x8000..0x8064;
    rows.push(row(
        "primer of 100 entries: map made (Rust) and one look-up",
        Some(1.0),
        move || searched(s, 0x8032..0x8033),
        move || mapped(s, 0x8032..0x8033),
    ));
    let table = Table::default();
    let mut all = row(
        "primer of 100 entries: table (in Rust a map) made and 100 look-ups",
        Some(1.0),
        move || table.looked_up(s, tags()),
        move || mapped(s, tags()),
    );
    all.others.push(("a search each", Box::new(move || (0..LONG_CALLS).map(|_| searched(s, tags())).sum())));
    rows.push(all);
}

/// The lengths that steps give, together, from the first cursor to the end: each says whether an item is found, its length and
/// the next cursor.
fn lengths(mut step: impl FnMut(usize) -> [u64; 3]) -> u64 {
    let (mut at, mut sum) = (0, 0);
    loop {
        let [found, length, next] = step(at);
        if found == 0 {
            return sum;
        }
        sum += length;
        at = next as usize;
    }
}

/// The same of the port's steps, whose places are lent once.
fn port_lengths(step: impl Fn(usize, &mut port::Item)) -> u64 {
    let mut out = port::Item::default();
    lengths(|at| {
        step(at, &mut out);
        [out[0], out[3], out[4]]
    })
}

/// The same of the Rust's, which returns its places.
fn rust_lengths(step: impl Fn(usize) -> [u64; 5]) -> u64 {
    lengths(|at| {
        let [found, _, _, length, next] = step(at);
        [found, length, next]
    })
}

/// A set of so many items with tags and lengths of 2 bytes.
fn set(items: u16, length: usize) -> Vec<u8> {
    let mut random = Random::new();
    let mut bytes = Vec::new();
    for i in 0..items {
        bytes.extend((0x3c00 + i).to_be_bytes());
        bytes.extend((length as u16).to_be_bytes());
        bytes.extend(random.bytes(length));
    }
    bytes
}

/// Runs and local items, stepped through by exported calls.
fn items(rows: &mut Vec<Row>) {
    let run = kept(records(2000, 1, (0, 20), (0, 0)));
    let port = || port_lengths(|at, out| port::run(run, at, out));
    rows.push(row("run of some 75 KLVs: a call each on both sides", Some(1.0), port, || rust_lengths(|at| mxf::run_step(run, at))));
    rows.push(row("run of some 75 KLVs: a call each, the Rust's loop inlined", None, port, || mxf::run_lengths(run)));
    let long = kept(records(4000, 4, (0, 40), (0, 0)));
    let port = || port_lengths(|at, out| port::run(long, at, out));
    rows.push(row("run of some 100 KLVs, lengths of 4 bytes: a call each", Some(1.0), port, || rust_lengths(|at| mxf::run_step(long, at))));
    let local = kept(set(50, 8));
    let port = || port_lengths(|at, out| port::item(local, 2, false, at, out));
    rows.push(row("50 local items: a call each on both sides", Some(1.0), port, || rust_lengths(|at| arri::item_step(local, false, at))));
    rows.push(row("50 local items: a call each, the Rust's loop inlined", None, port, || arri::item_lengths(local, false)));
    let (a, b) = (&run[..16], kept(run[..16].to_vec()));
    rows.push(row("same label", Some(1.0), || port::same_label(a, b) as u64, || mxf::same_label(a, b) as u64));
}

/// An ST 436 element of so many lines, each with an array of so many bytes that begins 43 05.
fn element(lines: u16, array: u16) -> Vec<u8> {
    let mut random = Random::new();
    let mut bytes = lines.to_be_bytes().to_vec();
    for _ in 0..lines {
        bytes.extend([0, 9, 2, 4]);
        bytes.extend(array.to_be_bytes());
        bytes.extend((array as u32).to_be_bytes());
        bytes.extend(1u32.to_be_bytes());
        bytes.extend([0x43, 0x05][..2.min(array as usize)].iter());
        bytes.extend(random.bytes((array as usize).saturating_sub(2)));
    }
    bytes
}

/// ST 436 elements. The Rust makes a vector for the payload, the port is lent one room for all.
fn ancillary(rows: &mut Vec<Row>) {
    let elements = [
        ("ST 436 payload: 2 lines of 255 bytes", element(2, 255)),
        ("ST 436 payload: 20 lines of 40 bytes", element(20, 40)),
        ("hostile: ST 436 payload of 4,000 empty lines", element(4000, 0)),
        ("hostile: ST 436 payload of 4,000 lines of 5 bytes", element(4000, 5)),
    ];
    for (name, element) in elements {
        let s = kept(element);
        let room = std::cell::RefCell::new(vec![0; s.len()]);
        rows.push(row(name, Some(1.0), move || port::payload(s, &mut room.borrow_mut()), move || sony::payload(s).len() as u64));
    }
}

/// A header partition pack of 104 bytes, and the part that it speaks of.
fn header_part() -> Vec<u8> {
    let mut bytes = [&KEY[..], &[0x02, 0x05, 0x01, 0x01, 0x0d, 0x01, 0x02, 0x01, 0x01, 0x02, 0x04, 0x00, 0x83, 0, 0, 104]].concat();
    let mut pack = [0; 104];
    pack[4..8].copy_from_slice(&512u32.to_be_bytes());
    pack[32..40].copy_from_slice(&9000u64.to_be_bytes());
    bytes.extend(pack);
    bytes.resize(bytes.len() + 10_000, 0);
    bytes
}

/// Items of a set: a tag, a length of 2 bytes, and so many random bytes each.
fn items_of(items: &[(u16, u16)]) -> Vec<u8> {
    let mut random = Random::new();
    let mut bytes = Vec::new();
    for (tag, length) in items {
        bytes.extend(tag.to_be_bytes());
        bytes.extend(length.to_be_bytes());
        bytes.extend(random.bytes(*length as usize));
    }
    bytes
}

/// A picture metadata element: two items that are passed by, then ARRI's 256 bytes in a lens unit set.
fn picture_metadata() -> Vec<u8> {
    let label = [0x06, 0x0e, 0x2b, 0x34, 0x02, 0x53, 0x01, 0x01, 0x0c, 0x02, 0x01, 0x01, 0x01, 0x01, 0x00, 0x00];
    let set = items_of(&[(0x8000, 4), (0x8001, 8), (0x8200, 256)]);
    let run = [&label[..], &[0x82], &(set.len() as u16).to_be_bytes(), &set].concat();
    let mut bytes = vec![0x83, 0, 2, 1, 1, 0x81, 0, 1, 0, 0x88];
    bytes.extend((run.len() as u16).to_be_bytes());
    bytes.extend(run);
    bytes
}

/// The other tables.
fn others(rows: &mut Vec<Row>) {
    let s = kept(header_part());
    rows.push(row("header part", Some(1.0), || port::header(s)[2], || arri::header(s).unwrap().len() as u64));
    let s = kept(picture_metadata());
    let place = |block: &[u8]| (block.as_ptr() as usize - s.as_ptr() as usize) as u64;
    rows.push(row("ARRI's 256 bytes in an element", Some(1.0), || port::arri_block(s)[1], move || place(arri::dynamic(s).unwrap())));
    let s = kept(items_of(&[(0x3c0a, 16), (0x0102, 16), (0x4401, 32), (0x1501, 8), (0x1201, 8)]));
    let found = |out: [u64; 8]| out[0] + out[3] + out[6] + out[7];
    rows.push(row("sequence info", Some(1.0), move || found(port::sequence(s).0), || canon::sequence(s).as_object().unwrap().len() as u64));
    let tags =
        [0x3c0a, 0x3001, 0x3002, 0x3202, 0x3203, 0x3204, 0x3205, 0x3206, 0x3207, 0x3208, 0x3209, 0x320a, 0x320b, 0x320e, 0x3306, 0x3201];
    let s = kept(items_of(&tags.map(|tag| (tag, if tag == 0x3c0a || tag == 0x3201 { 16 } else { 8 }))));
    rows.push(row("picture descriptor of 16 items", Some(1.0), || port::descriptor_items(s), || sony::set_items(s).unwrap() as u64));
}
