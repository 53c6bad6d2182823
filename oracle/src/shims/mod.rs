//! What the published files import from files that are not compiled: nothing here decides an answer.

pub mod arri;
pub mod canon;
pub mod heard;

use crate::tags_impl::{GroupedTagMap, TagDescription};

/// The published options, of which the compared files read these.
#[derive(Default)]
pub struct InputOptions {
    pub probe_only: bool,
}

/// Puts a tag into the map, as the published one does without a filter, and keeps it in the order of the calls.
pub fn insert_tag(map: &mut GroupedTagMap, tag: TagDescription, _: &InputOptions) {
    canon::keep(&tag);
    map.entry(tag.group.clone()).or_default().insert(tag.id.clone(), tag);
}

/// The hex of bytes in an error's text.
pub fn pretty_hex(bytes: &[u8]) -> String {
    crate::util::to_hex(bytes)
}

/// The crate `crc32fast`, which nothing compared reaches.
pub struct Hasher;

impl Hasher {
    #[allow(clippy::new_without_default)]
    pub fn new() -> Self {
        Self
    }

    pub fn update(&mut self, _: &[u8]) {}

    pub fn finalize(self) -> u32 {
        unreachable!("no checksum is compared")
    }
}
