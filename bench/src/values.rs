//! The rows of frame values: ARRI's 256 bytes, an ALEXA 35's element, Canon's packs. The Rust puts some of the values into a
//! JSON map; the port writes them all to lent places.

use oracle::arri::mxf::reach as arri;
use oracle::canon::mxf_packs::reach as canon;

use crate::inputs::Random;
use crate::places::{FRAME_EXPOSURE_TIME, FRAME_FOCAL_LENGTH};
use crate::port;
use crate::rows::{Row, kept};
use crate::tables::row;

/// The rows.
pub fn rows(rows: &mut Vec<Row>) {
    let block: &'static [u8; 256] = kept(dynamic()).try_into().unwrap();
    let bits = |length: f32, time: f64| length.to_bits() as u64 ^ time.to_bits();
    rows.push(row(
        "of_dynamic",
        Some(1.0),
        move || {
            let bits = port::of_dynamic(block).bits;
            bits[FRAME_FOCAL_LENGTH] ^ bits[FRAME_EXPOSURE_TIME]
        },
        move || {
            let frame = arri::of_dynamic(block);
            bits(frame.focal_length.unwrap(), frame.exposure_time.unwrap())
        },
    ));
    for (name, element) in [("of_alexa35: 20 items in 3 sets", alexa35(1)), ("hostile: of_alexa35, 380 items in 57 sets", alexa35(19))] {
        let s = kept(element);
        rows.push(row(
            name,
            Some(1.0),
            move || {
                let bits = port::of_alexa35(s).bits;
                bits[FRAME_FOCAL_LENGTH] ^ bits[FRAME_EXPOSURE_TIME]
            },
            move || {
                let frame = arri::of_alexa35(s);
                bits(frame.focal_length.unwrap(), frame.exposure_time.unwrap())
            },
        ));
    }
    for (name, packs) in [("Canon's packs: one of each", packs(1)), ("hostile: Canon's packs, 240", packs(12))] {
        let s = kept(packs);
        rows.push(row(name, Some(1.0), move || port::camera_fields(s), move || canon::packs(s).as_object().unwrap().len() as u64));
    }
}

/// ARRI's 256 bytes, with a value in every field.
fn dynamic() -> Vec<u8> {
    let mut bytes: Vec<u8> = Random::new().bytes(256).into_iter().map(|byte| byte & 0x3f).collect();
    bytes[0xfc..].copy_from_slice(&0x10000u32.to_be_bytes());
    bytes
}

/// An ALEXA 35's element: three sets with an item of each kind, so many times.
fn alexa35(times: usize) -> Vec<u8> {
    let sets: [(u8, &[(u8, usize)]); 3] = [
        (0x0c, &[(3, 4), (4, 4)]),
        (0x0d, &[(1, 4), (2, 4), (3, 4), (5, 4), (6, 4), (7, 2), (8, 2), (9, 2), (10, 2), (11, 2), (12, 2)]),
        (0x0e, &[(1, 8), (3, 4), (4, 4), (5, 4), (6, 4), (7, 8), (8, 4)]),
    ];
    let mut random = Random::new();
    let mut element = Vec::new();
    for (set, items) in sets.iter().cycle().take(3 * times) {
        let mut run = Vec::new();
        for (item, length) in items.iter() {
            run.extend([0x06, 0x0e, 0x2b, 0x34, 1, 1, 1, 0x0e, 0x0e, 0x17, 1, 2, *set, *item, 0, 0, *length as u8]);
            run.extend(random.bytes(*length).into_iter().map(|byte| byte & 0x3f | 1));
        }
        element.extend([0x06, 0x0e, 0x2b, 0x34, 2, 1, 1, 1, 0x0e, 0x17, 1, 2, *set, 0, 0, 0, 0x82]);
        element.extend((run.len() as u16).to_be_bytes());
        element.extend(run);
    }
    element
}

/// A Private Camera Metadata: each pack from 1 to 20, so many times.
fn packs(times: usize) -> Vec<u8> {
    let mut bytes = vec![20 * times as u8];
    for pack in (1..=20).cycle().take(20 * times) {
        bytes.push(pack);
        bytes.extend(match pack {
            2 => [0x58, 0, 0, 0],
            4 => [0x40, 0, 180, 1],
            6 => [0x24, 0x15, 0xe0, 0x80],
            7 => [0xa8, 1, 0x10, 0],
            8 => [0x40, 1, 0, 0],
            12 => [0, 0, 0, 150],
            20 => [1, 0, 0, 0],
            _ => [0, 28, 0, 10],
        });
    }
    bytes
}
