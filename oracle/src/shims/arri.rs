//! What arri/mxf.rs imports from ARRI's other files: its fields' types are forced by what arri/mxf.rs writes into them.

use std::cell::RefCell;
pub use std::io::*;
pub use std::sync::atomic::AtomicBool;

pub use crate::{InputOptions, util::SampleInfo};

use super::heard;

pub const HEADER_SIZE: usize = 4096;

pub struct ArriRaw;

pub struct Header(pub [u8; HEADER_SIZE]);

#[derive(Default)]
pub struct Clip {
    pub model: Option<String>,
    pub serial: Option<String>,
    pub lens: Option<String>,
    pub lens_serial: Option<String>,
    pub pixel_aspect_ratio: Option<f32>,
    pub fps: Option<f64>,
    pub md: serde_json::Map<String, serde_json::Value>,
}

#[derive(Default)]
pub struct Frame {
    pub focal_length: Option<f32>,
    pub focus_distance: Option<f32>,
    pub t_stop: Option<f32>,
    pub exposure_time: Option<f64>,
    pub shutter_angle: Option<f32>,
    pub tilt_roll: Option<(f32, f32)>,
    pub exposure_index: Option<u32>,
    pub white_balance: Option<u32>,
    pub nd_density: Option<f64>,
    pub md: serde_json::Map<String, serde_json::Value>,
}

impl ArriRaw {
    /// No header is one here: the clip's values are not compared.
    pub fn is_header(_: &[u8]) -> bool {
        false
    }

    /// A sample without tags in the clip's place.
    pub fn clip_sample(&self, _: Clip, _: Option<Frame>, _: Option<f64>, _: &InputOptions) -> SampleInfo {
        SampleInfo::default()
    }
}

impl Clip {
    pub fn of_header(_: &Header) -> Self {
        Self::default()
    }
}

impl Frame {
    pub fn inclinometer(_: &Header) -> Option<(f32, f32)> {
        None
    }

    pub fn settings_of_header(_: &Header) -> Self {
        Self::default()
    }
}

/// The rate that samples are timed by, which is not compared.
pub fn timing_fps(fps: Option<f64>) -> f64 {
    fps.unwrap_or(1.0)
}

/// The pair as it is handed over.
pub fn tilt_roll(tilt: f32, roll: f32) -> Option<(f32, f32)> {
    Some((tilt, roll))
}

/// The whole number that is handed over, as the bits of an f32.
pub fn t_stop(linear: u32) -> f32 {
    f32::from_bits(linear)
}

thread_local! {
    static FRAMES: RefCell<Vec<(u64, u64, Option<Frame>)>> = const { RefCell::new(Vec::new()) };
}

/// A sample without tags, the frame's values being kept until they are taken.
pub fn frame_sample(frame: u64, values: Option<Frame>, _: f64, _: &InputOptions) -> SampleInfo {
    FRAMES.with_borrow_mut(|frames| frames.push((frame, heard::place(), values)));
    SampleInfo::default()
}

/// The frames kept since the last call: their numbers, the places of their values, and what they hold.
pub fn taken() -> Vec<(u64, u64, Option<Frame>)> {
    FRAMES.take()
}
