//! The values of ARRI's frames: lens, focus, exposure, tilt.
//!
//! Lengths are in mm, distances in m, times in ms, angles in degrees. An ALEXA Mini's 256 bytes and an ALEXA 35's element fill
//! the same record, each what it has.
//!
//! ```
//! use brinethimble::{Distance, of_dynamic};
//!
//! let mut block = [0xff; 256];
//! block[0xa4..0xa8].copy_from_slice(&1000u32.to_be_bytes());
//! block[0xa8..0xac].copy_from_slice(&32_000u32.to_be_bytes());
//! let values = of_dynamic(&block);
//! assert_eq!(values.focus_distance, Some(Distance::Metres(1.0)));
//! assert_eq!(values.focal_length, Some(32.0));
//! assert_eq!(values.tilt_roll, None);
//! ```

use crate::boundary::{self, Values};
use crate::frames::Frame;
use crate::places::*;

/// A focus distance.
#[derive(Clone, Copy, PartialEq, Debug)]
pub enum Distance {
    /// So many metres.
    Metres(f32),
    /// Infinity.
    Infinity,
}

/// A T-stop.
#[derive(Clone, Copy, PartialEq, Debug)]
pub enum TStop {
    /// The figure itself, as an ALEXA Mini has it.
    Is(f32),
    /// The number on the linear scale, as an ALEXA 35 has it, of which the host makes the figure.
    Linear(u32),
}

/// The lens encoders' raw values, the lens's own (LDS) and the motor's.
#[derive(Clone, Copy, PartialEq, Eq, Default, Debug)]
pub struct Encoders {
    /// The lens's focus.
    pub focus_lds: Option<u64>,
    /// The motor's focus.
    pub focus_motor: Option<u64>,
    /// The lens's zoom.
    pub zoom_lds: Option<u64>,
    /// The motor's zoom.
    pub zoom_motor: Option<u64>,
    /// The lens's iris.
    pub iris_lds: Option<u64>,
    /// The motor's iris.
    pub iris_motor: Option<u64>,
}

/// All values of a frame.
#[derive(Clone, Copy, PartialEq, Default, Debug)]
pub struct FrameValues {
    /// The focal length.
    pub focal_length: Option<f32>,
    /// The focus distance.
    pub focus_distance: Option<Distance>,
    /// The T-stop.
    pub t_stop: Option<TStop>,
    /// The exposure time.
    pub exposure_time: Option<f64>,
    /// The shutter angle.
    pub shutter_angle: Option<f32>,
    /// Tilt and roll.
    pub tilt_roll: Option<(f32, f32)>,
    /// The exposure index.
    pub exposure_index: Option<u32>,
    /// The white balance, in K.
    pub white_balance: Option<u32>,
    /// The ND filter's density.
    pub nd_density: Option<f64>,
    /// The effective focal length.
    pub effective_focal_length: Option<f64>,
    /// The white balance factors on red, green and blue.
    pub white_balance_factors: Option<[f64; 3]>,
    /// The encoders.
    pub encoders: Encoders,
    /// The white balance's tint.
    pub tint: Option<f64>,
    /// The sensor's rate, frames a second.
    pub sensor_rate: Option<f64>,
}

impl FrameValues {
    /// The values that the library wrote, at the places that include/brinethimble.h gives them.
    pub(crate) fn written(v: &Values) -> Self {
        let low = |place| v.whole(place).map(|n| n as u32);
        FrameValues {
            focal_length: v.single(FRAME_FOCAL_LENGTH),
            focus_distance: distance(v.at(FRAME_FOCUS_DISTANCE)),
            t_stop: t_stop(v.at(FRAME_T_STOP)),
            exposure_time: v.double(FRAME_EXPOSURE_TIME),
            shutter_angle: v.single(FRAME_SHUTTER_ANGLE),
            tilt_roll: v.single(FRAME_TILT).zip(v.single(FRAME_ROLL)),
            exposure_index: low(FRAME_EXPOSURE_INDEX),
            white_balance: low(FRAME_WHITE_BALANCE),
            nd_density: v.double(FRAME_ND_DENSITY),
            effective_focal_length: v.double(FRAME_EFFECTIVE_FOCAL_LENGTH),
            white_balance_factors: factors(v),
            encoders: encoders(v),
            tint: v.double(FRAME_TINT),
            sensor_rate: v.double(FRAME_SENSOR_RATE),
        }
    }
}

/// The focus distance that a kind and its bits say.
fn distance((kind, bits): (u64, u64)) -> Option<Distance> {
    match kind {
        KIND_F32 => Some(Distance::Metres(f32::from_bits(bits as u32))),
        KIND_INFINITY => Some(Distance::Infinity),
        _ => None,
    }
}

/// The T-stop that a kind and its bits say.
fn t_stop((kind, bits): (u64, u64)) -> Option<TStop> {
    match kind {
        KIND_F32 => Some(TStop::Is(f32::from_bits(bits as u32))),
        KIND_LINEAR => Some(TStop::Linear(bits as u32)),
        _ => None,
    }
}

/// The factors on red, green and blue that the library wrote, which come together.
fn factors(v: &Values) -> Option<[f64; 3]> {
    Some([v.double(FRAME_RED)?, v.double(FRAME_GREEN)?, v.double(FRAME_BLUE)?])
}

/// The encoders that the library wrote.
fn encoders(v: &Values) -> Encoders {
    Encoders {
        focus_lds: v.whole(FRAME_FOCUS_LDS),
        focus_motor: v.whole(FRAME_FOCUS_MOTOR),
        zoom_lds: v.whole(FRAME_ZOOM_LDS),
        zoom_motor: v.whole(FRAME_ZOOM_MOTOR),
        iris_lds: v.whole(FRAME_IRIS_LDS),
        iris_motor: v.whole(FRAME_IRIS_MOTOR),
    }
}

/// The values in an ALEXA Mini's 256 bytes ([`crate::dynamic_metadata`]). Fewer bytes are read as far as they go.
///
/// ```
/// use brinethimble::{Distance, TStop, of_dynamic};
///
/// let mut block = [0xff; 256];
/// block[0xac..0xb0].copy_from_slice(&2800u32.to_be_bytes());
/// block[0xe0..0xe8].copy_from_slice(&[0, 0, 0, 15, 0, 0, 0xff, 0xf6]);
/// let values = of_dynamic(&block);
/// assert_eq!(values.t_stop, Some(TStop::Is(2.8)));
/// assert_eq!(values.focus_distance, Some(Distance::Infinity));
/// assert_eq!(values.tilt_roll, Some((1.5, -1.0)));
/// assert_eq!(values.encoders.focus_lds, None);
/// ```
pub fn of_dynamic(block: &[u8]) -> FrameValues {
    FrameValues::written(&boundary::of_dynamic(block))
}

/// The values in an ALEXA 35's element.
///
/// ```
/// use brinethimble::{TStop, of_alexa35};
///
/// let item = b"\x06\x0e\x2b\x34\x01\x01\x01\x0e\x0e\x17\x01\x02\x0d\x03\x00\x00\x04\x00\x00\x10\x00";
/// let element = [b"\x06\x0e\x2b\x34\x02\x01\x01\x01\x0e\x17\x01\x02\x0d\x00\x00\x00", &[21][..], item].concat();
/// let values = of_alexa35(&element);
/// assert_eq!(values.t_stop, Some(TStop::Linear(4096)));
/// assert_eq!(values.focal_length, None);
/// ```
pub fn of_alexa35(element: &[u8]) -> FrameValues {
    FrameValues::written(&boundary::of_alexa35(element))
}

/// The values of a frame of ARRI's walk over `s`, by the label of its element; an over-long frame has none.
///
/// ```
/// use brinethimble::{Arri, FrameValues, values_of};
///
/// let picture = *b"\x06\x0e\x2b\x34\x02\x43\x01\x01\x0d\x01\x03\x01\x04\x01\x03\x01";
/// let data = *b"\x06\x0e\x2b\x34\x01\x02\x01\x01\x0d\x01\x03\x01\x17\x01\x0f\x00";
/// let file = [&picture[..], &[0], &data, &[0]].concat();
/// let values: Vec<_> = Arri::new(&file, 34)?.map(|frame| values_of(&file, &frame)).collect();
/// assert_eq!(values, [None, Some(FrameValues::default())]);
/// # Ok::<(), brinethimble::Refusal>(())
/// ```
pub fn values_of(s: &[u8], frame: &Frame) -> Option<FrameValues> {
    let e = &frame.element;
    let places = [e.place as u64, e.value_place as u64, e.value.len() as u64, frame.overlong as u64];
    boundary::arri_values(s, &places).as_ref().map(FrameValues::written)
}

#[cfg(test)]
mod tests {
    use super::*;
    use crate::record::Record;

    #[test]
    fn nothing_is_found_in_nothing() {
        assert_eq!(of_alexa35(&[]), FrameValues::default());
        assert_eq!(of_alexa35(&[0xff; 600]), FrameValues::default());
        assert_eq!(of_dynamic(&[0xff; 256]), FrameValues::default());
    }

    #[test]
    fn a_u32_is_rounded_to_an_f32_before_it_is_divided() {
        let mut block = [0xff; 256];
        for v in [16_777_217, 16_777_219, u32::MAX - 1] {
            block[0xa8..0xac].copy_from_slice(&v.to_be_bytes());
            assert_eq!(of_dynamic(&block).focal_length, Some(v as f32 / 1000.0));
        }
    }

    #[test]
    fn encoders_stand_each_in_its_place() {
        let mut block = [0; 256];
        block[0xb0..0xbc].copy_from_slice(&[0, 1, 0, 2, 0, 3, 0, 4, 0, 5, 0xff, 0xff]);
        let e = of_dynamic(&block).encoders;
        assert_eq!([e.focus_lds, e.focus_motor, e.zoom_lds, e.zoom_motor, e.iris_lds], [1, 2, 3, 4, 5].map(Some));
        assert_eq!(e.iris_motor, None);
    }

    #[test]
    fn a_frame_with_places_past_the_buffer_has_no_values() {
        let (label, far) = (&[0; 16], usize::MAX);
        let element = Record { place: far, label, value_place: far, value: &[], length_bytes: 0, shortest: false, passed: 0 };
        for overlong in [false, true] {
            assert_eq!(values_of(&[], &Frame { number: 0, element, overlong }), None);
        }
    }
}
