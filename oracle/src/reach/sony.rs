//! The private functions of sony/mxf.rs, which this is a child of.

use super::*;

/// The label of a frame's element.
pub const LABEL: [u8; 16] = ANCILLARY;

/// The payload of an ST 436 element.
pub fn payload(element: &[u8]) -> Vec<u8> {
    parse_ancillary(element)
}

/// The items of a descriptor by their names, in the order of their list, or nothing for a set that is refused.
pub fn set(bytes: &[u8]) -> Option<Vec<(String, serde_json::Value)>> {
    let items = parse_set(&mut BufReader::new(Cursor::new(bytes)), bytes.len() as u64).ok()?;
    Some(items.into_iter().map(|(name, value)| (format!("{name:?}"), value)).collect())
}

/// How many items a descriptor has, or nothing for a set that is refused.
pub fn set_items(bytes: &[u8]) -> Option<usize> {
    parse_set(&mut BufReader::new(Cursor::new(bytes)), bytes.len() as u64).ok().map(|items| items.len())
}
