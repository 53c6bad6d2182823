//! The private functions of canon/mxf_packs.rs, which this is a child of.

use super::*;

/// The members of a Private Camera Metadata.
pub fn packs(data: &[u8]) -> Value {
    camera_metadata(data)
}

/// The members of a sequence info.
pub fn sequence(data: &[u8]) -> Value {
    stream_file_sequence_info(data)
}
