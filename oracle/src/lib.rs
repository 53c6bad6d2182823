//! The published Rust, compiled unchanged, and the port's answers compared with its own.

// Crates that nothing compared reaches: what is named of them is in `shims`.
extern crate self as crc32fast;
extern crate self as pretty_hex;

// ---- The published files, where build.rs stages them

#[allow(clippy::all, dead_code)]
#[cfg_attr(rustfmt, rustfmt::skip)]
#[path = "../target/staged/mxf.rs"]
pub mod mxf;

#[allow(clippy::all, dead_code)]
#[cfg_attr(rustfmt, rustfmt::skip)]
#[path = "../target/staged/segment_table.rs"]
pub mod segment_table;

#[allow(clippy::all, dead_code)]
#[cfg_attr(rustfmt, rustfmt::skip)]
#[path = "../target/staged/tags_impl.rs"]
pub mod tags_impl;

#[allow(clippy::all)]
#[cfg_attr(rustfmt, rustfmt::skip)]
#[path = "../target/staged/util.rs"]
pub mod util;

#[path = "../target/staged/arri"]
pub mod arri {
    pub use crate::shims::arri::*;
    #[allow(clippy::all, dead_code)]
    #[cfg_attr(rustfmt, rustfmt::skip)]
    pub mod mxf;
}

#[path = "../target/staged/sony"]
pub mod sony {
    #[allow(clippy::all, dead_code)]
    #[cfg_attr(rustfmt, rustfmt::skip)]
    pub mod mxf;
}

/// Canon's packs with the published `named`.
#[path = "../target/staged/canon"]
pub mod canon {
    #[allow(clippy::all)]
    #[cfg_attr(rustfmt, rustfmt::skip)]
    pub mod clip_boxes;
    #[allow(clippy::all)]
    #[cfg_attr(rustfmt, rustfmt::skip)]
    pub mod cndm_tags;
    #[allow(clippy::all)]
    #[cfg_attr(rustfmt, rustfmt::skip)]
    pub mod crm_packs;
    #[allow(clippy::all, dead_code)]
    #[cfg_attr(rustfmt, rustfmt::skip)]
    pub mod mxf_packs;
}

/// Canon's packs with a `named` that gives back its code.
#[path = "../target/staged/canon"]
pub mod canon_codes {
    pub use crate::canon::{clip_boxes, cndm_tags};
    pub mod crm_packs {
        pub use crate::canon::crm_packs::focus_position;
        pub use crate::shims::canon::named;
    }
    #[allow(clippy::all, dead_code)]
    #[cfg_attr(rustfmt, rustfmt::skip)]
    pub mod mxf_packs;
}

// ---- What is asked of them

pub mod answer;
pub mod arriving;
pub mod asked;
pub mod cases;
pub mod compare;
pub mod cuts;
pub mod every;
pub mod files;
pub mod known;
pub mod leaves;
pub mod line;
pub mod plain;
pub mod record;
pub mod shims;
pub mod shrink;
pub mod words;

pub use shims::{Hasher, InputOptions, insert_tag, pretty_hex};
pub use util::SampleInfo;
