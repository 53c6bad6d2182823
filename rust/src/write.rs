//! Writing what can be read: lengths, KLVs, items of local sets, primers, Canon's packs.
//!
//! Each call writes at a place of lent room and answers the place behind it, to go on from. Reading what was written gives the same
//! fields. A refusal leaves the room as it was: [`Refusal::NoFit`] where there is no such form, and only then
//! [`Refusal::NoRoom`], with the bytes that it takes.
//!
//! ```
//! use brinethimble::write::{put_item, put_klv, shortest};
//! use brinethimble::{Coding, Records, local_items, strict};
//!
//! let mut set = [0; 16];
//! let next = put_item(0x3c0a, b"ab", &mut set, 0)?;
//! let end = put_item(0x0102, &[], &mut set, next)?;
//! assert_eq!(&set[..end], b"\x3c\x0a\x00\x02ab\x01\x02\x00\x00");
//!
//! let label = b"\x06\x0e\x2b\x34\x02\x53\x01\x01\x0d\x01\x01\x01\x01\x01\x2f\x00";
//! let mut file = [0; 64];
//! let end = put_klv(label, shortest(end as u64), &set[..end], &mut file, 0)?;
//! assert_eq!(strict(&file[..end], end), Ok(()));
//!
//! let record = Records::of(&file[..end]).next().unwrap();
//! let items: Vec<_> = local_items(record.value, Coding::TWO).map(|item| (item.tag, item.value)).collect();
//! assert_eq!((record.label, items), (label, vec![(&b"\x3c\x0a"[..], &b"ab"[..]), (&b"\x01\x02"[..], &[][..])]));
//! # Ok::<(), brinethimble::Refusal>(())
//! ```

use crate::boundary;
use crate::record::Refusal;

/// How many bytes the shortest form of a length takes: 1 to 9.
///
/// ```
/// use brinethimble::write::shortest;
///
/// assert_eq!([0, 127, 128, 256, 1 << 56].map(shortest), [1, 1, 2, 3, 9]);
/// ```
pub fn shortest(n: u64) -> usize {
    boundary::shortest(n)
}

/// Writes a length in a form of `size` bytes, 1 to 9, that holds it: [`shortest`] says the least. 80h is never written.
///
/// ```
/// use brinethimble::Refusal;
/// use brinethimble::write::put_length;
///
/// let mut room = [9; 4];
/// assert_eq!(put_length(5, 3, &mut room, 1), Ok(4));
/// assert_eq!(room, [9, 0x82, 0, 5]);
/// assert_eq!(put_length(128, 1, &mut room, 0), Err(Refusal::NoFit));
/// assert_eq!(put_length(0, 10, &mut [], 0), Err(Refusal::NoFit));
/// assert_eq!(put_length(128, 2, &mut room, 3), Err(Refusal::NoRoom { needed: 2 }));
/// assert_eq!(room, [9, 0x82, 0, 5]);
/// ```
pub fn put_length(n: u64, size: usize, room: &mut [u8], at: usize) -> Result<usize, Refusal> {
    boundary::put_length(n, size, room, at)
}

/// Writes a KLV: its label, its length in a form of `size` bytes, its value.
///
/// ```
/// use brinethimble::{Refusal, klvs};
/// use brinethimble::write::put_klv;
///
/// let label = b"\x06\x0e\x2b\x34\x01\x01\x01\x0d\x0e\x15\x00\x01\x00\x01\x00\x00";
/// let mut room = [0; 20];
/// assert_eq!(put_klv(label, 2, b"ab", &mut room, 0), Ok(20));
/// let record = klvs(&room).next().unwrap();
/// assert_eq!((record.label, record.value, record.length_bytes, record.shortest), (label, &b"ab"[..], 2, false));
/// assert_eq!(put_klv(label, 2, b"ab", &mut room, 1), Err(Refusal::NoRoom { needed: 20 }));
/// assert_eq!(put_klv(label, 0, b"ab", &mut room, 1), Err(Refusal::NoFit));
/// ```
pub fn put_klv(label: &[u8; 16], size: usize, value: &[u8], room: &mut [u8], at: usize) -> Result<usize, Refusal> {
    boundary::put_klv(label, size, value, room, at)
}

/// Writes the KLVs of a run (those of [`klvs`](crate::klvs)), each length in its shortest form, at the start of the room, and answers
/// the bytes there. What follows the last whole one is not written. They are the run's own bytes exactly where every length of it was
/// the shortest.
///
/// ```
/// use brinethimble::write::rewrite;
///
/// let label = b"\x06\x0e\x2b\x34\x01\x01\x01\x0d\x0e\x15\x00\x01\x00\x01\x00\x00";
/// let (long, short) = ([&label[..], &[0x81, 1, 0xcc], &label[..], &[0x80]].concat(), [&label[..], &[1, 0xcc], label, &[0]].concat());
/// assert_eq!(rewrite(&long, &mut [0; 40])?, short);
/// assert_eq!(rewrite(&short, &mut [0; 40])?, short);
/// # Ok::<(), brinethimble::Refusal>(())
/// ```
pub fn rewrite<'a>(run: &[u8], room: &'a mut [u8]) -> Result<&'a [u8], Refusal> {
    let end = boundary::rewrite(run, room)?;
    Ok(&room[..end])
}

/// Writes an item of a local set: its tag and its length in two bytes each, its value. A set is its items one behind the other.
///
/// ```
/// use brinethimble::Refusal;
/// use brinethimble::write::put_item;
///
/// let mut room = [0; 6];
/// assert_eq!(put_item(0x3c0a, &[0xaa, 0xbb], &mut room, 0), Ok(6));
/// assert_eq!(room, [0x3c, 0x0a, 0, 2, 0xaa, 0xbb]);
/// assert_eq!(put_item(0x1_0000, &[], &mut room, 0), Err(Refusal::NoFit));
/// assert_eq!(put_item(0, &vec![0; 0x1_0000], &mut room, 0), Err(Refusal::NoFit));
/// ```
pub fn put_item(tag: u64, value: &[u8], room: &mut [u8], at: usize) -> Result<usize, Refusal> {
    boundary::put_item(tag, value, room, at)
}

/// Writes the value of a primer pack: the count of its entries, their size, and for each tag of two bytes in its order the tag and its
/// label. Equal tags are kept, and the last of them is found.
///
/// ```
/// use brinethimble::{Primer, Refusal};
/// use brinethimble::write::put_primer;
///
/// let mut room = [0; 62];
/// assert_eq!(put_primer(&[0x3c0a, 0x0102, 0x3c0a], &[[1; 16], [2; 16], [3; 16]], &mut room, 0), Ok(62));
/// assert_eq!((Primer(&room).get(0x3c0a), Primer(&room).get(0x0102)), (Some(&[3; 16]), Some(&[2; 16])));
/// assert_eq!(put_primer(&[1, 2], &[[1; 16]], &mut room, 0), Err(Refusal::NoFit));
/// ```
pub fn put_primer(tags: &[u64], labels: &[[u8; 16]], room: &mut [u8], at: usize) -> Result<usize, Refusal> {
    boundary::put_primer(tags, labels.as_flattened(), room, at)
}

/// Writes one of Canon's packs, 1 to 20, from its raw fields: 5 bytes, its id and the fields as bits of a number of 32 bits; bits of no
/// field are 0. [`camera_metadata`](crate::camera_metadata) reads packs behind a byte that counts them.
///
/// Each pack has its own fields, the highest bits first: a lowest bit and a number of bits for each. As many numbers as it has must be
/// given.
///
/// | packs | fields |
/// |---|---|
/// | 1, 3, 5, 10 | 16+16, 0+16 |
/// | 2 | 30+2, 28+2, 27+1 |
/// | 4 | 30+2, 8+16, 0+8 |
/// | 6 | 29+3, 24+5, 23+1, 8+15, 0+8 |
/// | 7 | 31+1, 24+7, 16+8, 12+4 |
/// | 8 | 30+2, 24+4, 16+1 |
/// | 9, 12, 13, 16, 17, 19 | 0+32 |
/// | 11 | 31+1, 28+3, 16+12, 0+16 |
/// | 14, 15 | 16+16 |
/// | 18 | 31+1, 0+16 |
/// | 20 | 24+2 |
///
/// ```
/// use brinethimble::{Member, Refusal, Value, camera_metadata};
/// use brinethimble::write::put_pack;
///
/// let mut metadata = [1, 0, 0, 0, 0, 0];
/// assert_eq!(put_pack(6, &[3, 31, 1, 5600, 128], &mut metadata, 1), Ok(6));
/// assert_eq!(metadata, [1, 0x06, 0x7f, 0x95, 0xe0, 0x80]);
/// let camera = camera_metadata(&metadata);
/// assert_eq!((camera.get(Member::WbMode), camera.get(Member::WbPreset)), (Some(Value::Code(3)), None));
/// assert_eq!(camera.get(Member::ColorTemperature), Some(Value::Whole(5600)));
/// assert_eq!(put_pack(6, &[8, 31, 1, 5600, 128], &mut metadata, 1), Err(Refusal::NoFit));
/// assert_eq!(put_pack(6, &[3, 31, 1, 5600], &mut metadata, 1), Err(Refusal::NoFit));
/// ```
pub fn put_pack(id: u64, fields: &[u64], room: &mut [u8], at: usize) -> Result<usize, Refusal> {
    boundary::put_pack(id, fields, room, at)
}
