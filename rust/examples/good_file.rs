//! A whole good file, for a test bench: a header partition with a primer and its sets, Canon's camera metadata, a frame of sound, a
//! footer partition and the random index pack. `good_file FILE` writes it and prints each record's place, label and length.
//!
//! The writers of the crate make lengths, KLVs, items, the primer and Canon's packs. Numbers inside values, the head of the item in
//! Canon's 43h set and the byte that counts packs are the host's own.

use brinethimble::write::{put_item, put_klv, put_pack, put_primer, shortest};
use brinethimble::{Member, RandomIndex, Records, Refusal, Value, camera_metadata, package_metadata, strict};

/// Room for the file.
const ROOM: usize = 1 << 16;

/// Labels of the file's records; those of sets and partitions by the byte that tells them apart.
const PRIMER: [u8; 16] = *b"\x06\x0e\x2b\x34\x02\x05\x01\x01\x0d\x01\x02\x01\x01\x05\x01\x00";
const RANDOM_INDEX: [u8; 16] = *b"\x06\x0e\x2b\x34\x02\x05\x01\x01\x0d\x01\x02\x01\x01\x11\x01\x00";
const PACKAGE_METADATA: [u8; 16] = *b"\x06\x0e\x2b\x34\x02\x43\x01\x01\x0d\x01\x03\x01\x04\x01\x02\x03";
const PRIVATE_CAMERA_METADATA: [u8; 16] = *b"\x06\x0e\x2b\x34\x01\x01\x01\x0d\x0e\x15\x00\x01\x00\x01\x00\x00";
const SOUND: [u8; 16] = *b"\x06\x0e\x2b\x34\x01\x02\x01\x01\x0d\x01\x03\x01\x16\x01\x01\x00";

fn set_label(kind: u8) -> [u8; 16] {
    [0x06, 0x0e, 0x2b, 0x34, 2, 0x53, 1, 1, 0x0d, 1, 1, 1, 1, 1, kind, 0]
}

fn partition_label(kind: u8) -> [u8; 16] {
    [0x06, 0x0e, 0x2b, 0x34, 2, 5, 1, 1, 0x0d, 1, 2, 1, 1, kind, 4, 0]
}

/// Labels inside values: the operational pattern, the wrapping, the kind of data.
const PATTERN: &[u8] = b"\x06\x0e\x2b\x34\x04\x01\x01\x01\x0d\x01\x02\x01\x01\x01\x09\x00";
const WRAPPING: &[u8] = b"\x06\x0e\x2b\x34\x04\x01\x01\x01\x0d\x01\x03\x01\x02\x06\x01\x00";
const IS_SOUND: &[u8] = b"\x06\x0e\x2b\x34\x04\x01\x01\x01\x01\x03\x02\x02\x02\x00\x00\x00";

/// The local tags of the sets, and how their labels go on behind 06 0e 2b 34 01 01 01.
const TAGS: [(u64, [u8; 9]); 35] = [
    (0x3c0a, *b"\x01\x01\x01\x15\x02\x00\x00\x00\x00"),
    (0x3b02, *b"\x02\x07\x02\x01\x10\x02\x04\x00\x00"),
    (0x3b05, *b"\x02\x03\x01\x02\x01\x05\x00\x00\x00"),
    (0x3b06, *b"\x02\x06\x01\x01\x04\x06\x04\x00\x00"),
    (0x3b03, *b"\x02\x06\x01\x01\x04\x02\x01\x00\x00"),
    (0x3b09, *b"\x05\x01\x02\x02\x03\x00\x00\x00\x00"),
    (0x3b0a, *b"\x05\x01\x02\x02\x10\x02\x01\x00\x00"),
    (0x3b0b, *b"\x05\x01\x02\x02\x10\x02\x02\x00\x00"),
    (0x3c09, *b"\x02\x05\x20\x07\x01\x01\x00\x00\x00"),
    (0x3c01, *b"\x02\x05\x20\x07\x01\x02\x01\x00\x00"),
    (0x3c06, *b"\x02\x07\x02\x01\x10\x02\x03\x00\x00"),
    (0x1901, *b"\x02\x06\x01\x01\x04\x05\x01\x00\x00"),
    (0x1902, *b"\x02\x06\x01\x01\x04\x05\x02\x00\x00"),
    (0x2701, *b"\x02\x06\x01\x01\x06\x01\x00\x00\x00"),
    (0x3f07, *b"\x04\x01\x03\x04\x04\x00\x00\x00\x00"),
    (0x4401, *b"\x01\x01\x01\x15\x10\x00\x00\x00\x00"),
    (0x4403, *b"\x02\x06\x01\x01\x04\x06\x05\x00\x00"),
    (0x4701, *b"\x02\x06\x01\x01\x04\x02\x03\x00\x00"),
    (0x4801, *b"\x02\x01\x07\x01\x01\x00\x00\x00\x00"),
    (0x4803, *b"\x02\x06\x01\x01\x04\x02\x04\x00\x00"),
    (0x4804, *b"\x02\x01\x04\x01\x03\x00\x00\x00\x00"),
    (0x4b01, *b"\x02\x05\x30\x04\x05\x00\x00\x00\x00"),
    (0x4b02, *b"\x02\x07\x02\x01\x03\x01\x03\x00\x00"),
    (0x0201, *b"\x02\x04\x07\x01\x00\x00\x00\x00\x00"),
    (0x0202, *b"\x02\x07\x02\x02\x01\x01\x03\x00\x00"),
    (0x1001, *b"\x02\x06\x01\x01\x04\x06\x09\x00\x00"),
    (0x1201, *b"\x02\x07\x02\x01\x03\x01\x04\x00\x00"),
    (0x1101, *b"\x02\x06\x01\x01\x03\x01\x00\x00\x00"),
    (0x1102, *b"\x02\x06\x01\x01\x03\x02\x00\x00\x00"),
    (0x3001, *b"\x01\x04\x06\x01\x01\x00\x00\x00\x00"),
    (0x3004, *b"\x02\x06\x01\x01\x04\x01\x02\x00\x00"),
    (0x3006, *b"\x05\x06\x01\x01\x03\x05\x00\x00\x00"),
    (0x3d03, *b"\x05\x04\x02\x03\x01\x01\x01\x00\x00"),
    (0x3d07, *b"\x05\x04\x02\x01\x01\x04\x00\x00\x00"),
    (0x3d01, *b"\x04\x04\x02\x03\x03\x04\x00\x00\x00"),
];

/// Bytes that are written one behind the other in room of their own.
struct Room {
    bytes: Vec<u8>,
    end: usize,
}

impl Room {
    fn new() -> Self {
        Room { bytes: vec![0; ROOM], end: 0 }
    }

    fn written(&self) -> &[u8] {
        &self.bytes[..self.end]
    }

    /// A KLV with its length in the shortest form.
    fn klv(&mut self, label: &[u8; 16], value: &[u8]) -> Result<(), Refusal> {
        self.end = put_klv(label, shortest(value.len() as u64), value, &mut self.bytes, self.end)?;
        Ok(())
    }

    /// A set of items with tags and lengths of two bytes.
    fn set(&mut self, kind: u8, number: u8, items: &[(u64, &[u8])]) -> Result<(), Refusal> {
        let mut set = Room::new();
        for (tag, value) in [(0x3c0a, &reference(number)[..])].iter().chain(items) {
            set.end = put_item(*tag, value, &mut set.bytes, set.end)?;
        }
        self.klv(&set_label(kind), set.written())
    }
}

/// A set's own number, by which others refer to it.
fn reference(number: u8) -> [u8; 16] {
    [&[0xb5; 15][..], &[number]].concat().try_into().expect("16 bytes")
}

/// A package's number.
fn package(number: u8) -> Vec<u8> {
    [b"\x06\x0a\x2b\x34\x01\x01\x01\x05\x01\x01\x0d\x00\x13\x00\x00\x00", &reference(number)[..]].concat()
}

/// A batch of items of 16 bytes.
fn batch(items: &[&[u8]]) -> Vec<u8> {
    [&(items.len() as u32).to_be_bytes()[..], &16u32.to_be_bytes(), &items.concat()].concat()
}

/// A partition pack's value: where it, the footer and the body stand, and how long the header's metadata is.
fn partition(this: usize, footer: usize, metadata: usize, stream: u32) -> Vec<u8> {
    let place = |place: usize| (place as u64).to_be_bytes();
    let head = [&[0, 1, 0, 2][..], &1u32.to_be_bytes(), &place(this), &place(0), &place(footer), &place(metadata), &place(0)].concat();
    let body = [&0u32.to_be_bytes()[..], &place(0), &stream.to_be_bytes(), PATTERN, &batch(&[WRAPPING])].concat();
    [head, body].concat()
}

/// A track with its sequence and clip, numbered from `first` on.
fn track(room: &mut Room, first: u8, number: u32, source: &[u8], source_track: u32) -> Result<(), Refusal> {
    let (sequence, clip, one) = (reference(first + 1), batch(&[&reference(first + 2)]), 1u64.to_be_bytes());
    room.set(
        0x3b,
        first,
        &[
            (0x4801, &2u32.to_be_bytes()),
            (0x4804, &number.to_be_bytes()),
            (0x4b01, &[0, 0, 0, 25, 0, 0, 0, 1]),
            (0x4b02, &[0; 8]),
            (0x4803, &sequence),
        ],
    )?;
    room.set(0x0f, first + 1, &[(0x0201, IS_SOUND), (0x0202, &one), (0x1001, &clip)])?;
    let clip: [(u64, &[u8]); 5] =
        [(0x0201, IS_SOUND), (0x0202, &one), (0x1201, &[0; 8]), (0x1101, source), (0x1102, &source_track.to_be_bytes())];
    room.set(0x11, first + 2, &clip)
}

/// The primer and the sets of the header.
fn metadata() -> Result<Room, Refusal> {
    let (mut primer, mut room) = (Room::new(), Room::new());
    let tags = TAGS.map(|(tag, _)| tag);
    let labels = TAGS.map(|(_, rest)| [&[0x06, 0x0e, 0x2b, 0x34, 1, 1, 1][..], &rest].concat().try_into().expect("16 bytes"));
    primer.end = put_primer(&tags, &labels, &mut primer.bytes, 0)?;
    room.klv(&PRIMER, primer.written())?;

    let date = [0x07, 0xe4, 1, 1, 0, 0, 0, 0];
    let [storage, identification, material, file, descriptor, container] = [2, 3, 4, 5, 6, 7].map(reference);
    room.set(
        0x2f,
        1,
        &[
            (0x3b02, &date),
            (0x3b05, &[1, 3]),
            (0x3b06, &batch(&[&identification])),
            (0x3b03, &storage),
            (0x3b09, PATTERN),
            (0x3b0a, &batch(&[WRAPPING])),
            (0x3b0b, &batch(&[])),
        ],
    )?;
    let company: Vec<u8> = "test bench".encode_utf16().flat_map(u16::to_be_bytes).collect();
    room.set(0x30, 3, &[(0x3c09, &reference(8)), (0x3c01, &company), (0x3c06, &date)])?;
    room.set(0x18, 2, &[(0x1901, &batch(&[&material, &file])), (0x1902, &batch(&[&container]))])?;
    room.set(0x23, 7, &[(0x2701, &package(5)), (0x3f07, &1u32.to_be_bytes())])?;
    room.set(0x36, 4, &[(0x4401, &package(4)), (0x4403, &batch(&[&reference(16)]))])?;
    track(&mut room, 16, 0, &package(5), 2)?;
    room.set(0x37, 5, &[(0x4401, &package(5)), (0x4403, &batch(&[&reference(32)])), (0x4701, &descriptor)])?;
    track(&mut room, 32, 0x1601_0100, &[0; 32], 0)?;
    room.set(
        0x48,
        6,
        &[
            (0x3006, &2u32.to_be_bytes()),
            (0x3001, &[0, 0, 0xbb, 0x80, 0, 0, 0, 1]),
            (0x3004, WRAPPING),
            (0x3d03, &[0, 0, 0xbb, 0x80, 0, 0, 0, 1]),
            (0x3d07, &1u32.to_be_bytes()),
            (0x3d01, &16u32.to_be_bytes()),
        ],
    )?;
    Ok(room)
}

/// Canon's packs that the file has: ids and raw fields.
const PACKS: [(u64, &[u64]); 20] = [
    (1, &[500, 0]),
    (2, &[0, 2, 1]),
    (3, &[1, 50]),
    (4, &[1, 360, 2]),
    (5, &[28, 10]),
    (6, &[3, 31, 1, 5600, 128]),
    (7, &[1, 38, 2, 3]),
    (8, &[1, 0, 1]),
    (9, &[800]),
    (10, &[31, 10]),
    (11, &[1, 2, 291, 4]),
    (12, &[4000]),
    (13, &[22]),
    (14, &[32768]),
    (15, &[32770]),
    (16, &[501]),
    (17, &[702]),
    (18, &[1, 32769]),
    (19, &[640]),
    (20, &[1]),
];

/// Canon's package metadata set: one item of a 1-byte tag, in it a run with the Private Camera Metadata.
fn canon() -> Result<Vec<u8>, Refusal> {
    let (mut packs, mut run) = (Room::new(), Room::new());
    (packs.bytes[0], packs.end) = (PACKS.len() as u8, 1);
    for (id, fields) in PACKS {
        packs.end = put_pack(id, fields, &mut packs.bytes, packs.end)?;
    }
    run.klv(&PRIVATE_CAMERA_METADATA, packs.written())?;
    Ok([&[0x88][..], &(run.end as u16).to_be_bytes(), run.written()].concat())
}

/// The whole file.
fn good_file() -> Result<Vec<u8>, Refusal> {
    let (metadata, canon, sound, mut file) = (metadata()?, canon()?, vec![0; 3840], Room::new());
    let mut body = Room::new();
    body.klv(&PACKAGE_METADATA, &canon)?;
    body.end = put_klv(&SOUND, 4, &sound, &mut body.bytes, body.end)?;

    let header = 17 + partition(0, 0, 0, 0).len();
    let footer = header + metadata.end + body.end;
    file.klv(&partition_label(2), &partition(0, footer, metadata.end, 1))?;
    assert_eq!(file.end, header, "a length of one byte");
    for part in [&metadata, &body] {
        file.bytes[file.end..][..part.end].copy_from_slice(part.written());
        file.end += part.end;
    }
    file.klv(&partition_label(4), &partition(footer, footer, 0, 0))?;
    let pairs = [(1u32, 0u64), (0, footer as u64)].map(|(stream, place)| [&stream.to_be_bytes()[..], &place.to_be_bytes()].concat());
    file.klv(&RANDOM_INDEX, &[&pairs.concat()[..], &45u32.to_be_bytes()].concat())?;
    file.bytes.truncate(file.end);
    Ok(file.bytes)
}

fn main() -> Result<(), Box<dyn std::error::Error>> {
    let path = std::env::args().nth(1).ok_or("good_file FILE")?;
    let file = good_file()?;
    strict(&file, file.len())?;
    assert!(RandomIndex::of(&file)?.all(|pair| pair.partition), "both partitions stand where the random index pack says");
    let set = Records::of(&file).find(|record| *record.label == PACKAGE_METADATA).ok_or("no package metadata")?;
    let camera = camera_metadata(package_metadata(set.value).next().ok_or("no camera metadata")?.value);
    assert_eq!(camera.get(Member::ColorTemperature), Some(Value::Whole(5600)));
    assert_eq!(camera.get(Member::IsoSpeed), Some(Value::Whole(800)));
    for record in Records::of(&file) {
        let label: String = record.label.iter().map(|byte| format!("{byte:02x}")).collect();
        println!("{} {label} {}", record.place, record.value.len());
    }
    Ok(std::fs::write(path, file)?)
}
