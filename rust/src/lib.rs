//! The records, tables and frames of MXF files, as they land.
//!
//! A safe crate over a library in which every function is proved. Every call answers on every input and ends; none allocates,
//! trusts a length or a count, or keeps anything between calls but in a value that the caller has. What is found is a part of the
//! buffer that was lent, or, in a fed walk, a place in the file.
//!
//! ```
//! let label = *b"\x06\x0e\x2b\x34\x01\x01\x01\x0d\x0e\x15\x00\x01\x00\x01\x00\x00";
//! let other = *b"\x06\x0e\x2b\x34\x01\x01\x01\x0e\x0e\x15\x00\x01\x00\x01\x00\x00";
//! let file = [&[0][..], &label, &[2, 0xaa, 0xbb], &other, &[0x81, 0]].concat();
//!
//! let records: Vec<_> = brinethimble::Records::of(&file).collect();
//! assert_eq!((records[0].place, records[0].label, records[0].value_place), (1, &label, 18));
//! assert_eq!(records[0].value, [0xaa, 0xbb]);
//! assert_eq!((records[1].place, records[1].label, records[1].value_place), (20, &other, 38));
//! assert_eq!(records[1].value, []);
//! assert_eq!((records[1].length_bytes, records[1].shortest), (2, false));
//! assert_eq!((records[0].passed, records[1].passed), (1, 0));
//! assert_eq!(records.len(), 2);
//! ```
//!
//! | subject | module |
//! |---|---|
//! | labels, lengths, records, refusals, the version | [`record`] |
//! | the walk over a file, finished or arriving | [`walk`] |
//! | the walk over a file that comes in pieces | [`feeding`] |
//! | runs of records and items of sets, inside values | [`items`] |
//! | the outline of a file, without its values | [`outline`] |
//! | header part, primer, descriptor, ST 436 | [`tables`] |
//! | the frames of Sony's, ARRI's and Canon's files | [`frames`] |
//! | Sony's and ARRI's frames of a file that comes in pieces | [`feeding_frames`] |
//! | the values of ARRI's frames | [`values`] |
//! | what two recordings of one take have apart | [`takes`] |
//! | Canon's camera metadata and sequence info | [`canon`] |
//! | whole files: a strict gate, the random index pack | [`checks`] |
//! | writing lengths, KLVs, sets, primers, Canon's packs | [`write`] |
//! | an index beside a file, or shared by two: the record at a byte position | [`index`] |
//!
//! The crate needs no `std` and no allocator.
#![cfg_attr(not(test), no_std)]
#![forbid(unsafe_op_in_unsafe_fn)]
#![deny(missing_docs, unsafe_code)]

#[allow(unsafe_code)]
mod boundary;
pub mod canon;
pub mod checks;
pub mod feeding;
pub mod feeding_frames;
pub mod frames;
pub mod index;
pub mod items;
pub mod outline;
mod places;
pub mod record;
pub mod tables;
pub mod takes;
pub mod values;
pub mod walk;
pub mod write;

pub use canon::{Camera, Member, Packages, Sequence, Value, camera_metadata, package_metadata, stream_file_sequence_info};
pub use checks::{Pair, RandomIndex, strict};
pub use feeding::{Ending, Fed, FedRecord, Feeding, Piece};
pub use feeding_frames::{FedFrame, FedFrames, FeedingFrames, FramesEnding};
pub use frames::{Arri, Canon, CanonItem, Frame, FrameCursor, Sony};
pub use index::{Entry, Index, Layout, SharedIndex};
pub use items::{Coding, Item, Items, Klvs, klvs, local_items};
pub use outline::outline_into;
pub use record::{Length, Record, Refusal, next_key, read_ber, same_label, version};
pub use tables::{Area, Descriptor, Lines, Primer, TAGS, TabledPrimer, dynamic_metadata, header_partition_metadata, lines, payload_into};
pub use takes::{Apart, Difference, Field, Fields, Side, Takes, TakesCursor};
pub use values::{Distance, Encoders, FrameValues, TStop, of_alexa35, of_dynamic, values_of};
pub use walk::{Arriving, Cursor, Filled, Listed, Records, Tally, next_klv, records_into, tally};
