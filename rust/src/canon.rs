//! Canon's values: the camera metadata of a package set, and the sequence info.
//!
//! A package metadata set holds Private Camera Metadata, each a count and packs of 5 bytes. The count is not trusted.
//!
//! ```
//! use brinethimble::{Member, Value, camera_metadata};
//!
//! let camera = camera_metadata(b"\x02\x05\x00\x1c\x00\x0a\x0a\x00\x00\xff\xfe");
//! assert_eq!(camera.get(Member::FNumber), Some(Value::Float(2.8)));
//! assert_eq!(camera.get(Member::TNumber), Some(Value::Close));
//! assert_eq!(camera.get(Member::Gain), None);
//! ```

use core::iter::FusedIterator;

use crate::boundary;
use crate::places::*;
use crate::record::{Record, part};

/// The Private Camera Metadata of a package set.
#[derive(Clone, Debug)]
pub struct Packages<'a> {
    set: &'a [u8],
    from: usize,
    end: usize,
}

/// Each Private Camera Metadata of a package metadata set, in turn.
///
/// ```
/// let private = b"\x06\x0e\x2b\x34\x01\x01\x01\x0d\x0e\x15\x00\x01\x00\x01\x00\x00";
/// let set = [&[0x88, 0, 18][..], private, &[1, 0], &[0x88, 0, 17], private, &[0]].concat();
/// let found: Vec<_> = brinethimble::package_metadata(&set).map(|record| (record.place, record.value)).collect();
/// assert_eq!(found, [(3, &[0][..]), (24, &[])]);
/// ```
pub fn package_metadata(set: &[u8]) -> Packages<'_> {
    Packages { set, from: 0, end: 0 }
}

impl<'a> Iterator for Packages<'a> {
    type Item = Record<'a>;

    fn next(&mut self) -> Option<Record<'a>> {
        let [found, place, value, length, from, end] = boundary::package(self.set, self.from, self.end);
        (self.from, self.end) = (from as usize, end as usize);
        (found == 1).then(|| Record::at(self.set, [place, value, length], 0))
    }
}

impl FusedIterator for Packages<'_> {}

/// What a member of a camera's metadata is.
#[derive(Clone, Copy, PartialEq, Debug)]
pub enum Value {
    /// What a table of names is asked for; 255 has none.
    Code(u8),
    /// A whole number.
    Whole(u32),
    /// A signed number.
    Signed(i16),
    /// A figure.
    Float(f64),
    /// A flag.
    Flag(bool),
    /// The electric zoom is off.
    Off,
    /// The aperture is closed.
    Close,
    /// Another preset than those with codes.
    Others,
    /// The camera's own choice.
    Auto,
    /// The operator's choice.
    Manual,
    /// Not in use.
    Reserved,
}

/// The members of a camera's metadata.
#[derive(Clone, Copy, PartialEq, Eq, Debug)]
#[repr(usize)]
pub enum Member {
    /// Focal_Length, pack 1.
    FocalLength = CAMERA_FOCAL_LENGTH,
    /// Electric_Zoom, pack 1.
    ElectricZoom = CAMERA_ELECTRIC_ZOOM,
    /// F_Number, pack 5.
    FNumber = CAMERA_F_NUMBER,
    /// T_Number, pack 10.
    TNumber = CAMERA_T_NUMBER,
    /// Focal_Length_No35Conv, pack 16.
    FocalLengthNo35Conv = CAMERA_REAL_FOCAL_LENGTH,
    /// Focal_Length_35Conv, pack 17.
    FocalLength35Conv = CAMERA_FOCAL_LENGTH_35,
    /// SetDistortion, pack 18.
    SetDistortion = CAMERA_SET_DISTORTION,
    /// AbstatLensValue, pack 18.
    AbstatLensValue = CAMERA_LENS_VALUE,
    /// Focus_Mode, pack 2.
    FocusMode = CAMERA_FOCUS_MODE,
    /// Image_Stabilizer, pack 2.
    ImageStabilizer = CAMERA_STABILIZER,
    /// Aperture_Mode, pack 2.
    ApertureMode = CAMERA_APERTURE_MODE,
    /// IR_Status, pack 8.
    IrStatus = CAMERA_INFRARED,
    /// HighSensitivityMode, pack 8.
    HighSensitivityMode = CAMERA_HIGH_SENSITIVITY,
    /// ISOMode, pack 20.
    IsoMode = CAMERA_ISO_MODE,
    /// Shutter_Speed, pack 3.
    ShutterSpeed = CAMERA_SHUTTER_SPEED,
    /// Set_Mode, pack 4.
    SetMode = CAMERA_SHUTTER_MODE,
    /// Shutter_Value, pack 4.
    ShutterValue = CAMERA_SHUTTER_VALUE,
    /// WB_Mode, pack 6.
    WbMode = CAMERA_BALANCE_MODE,
    /// WB_Preset, pack 6.
    WbPreset = CAMERA_BALANCE_PRESET,
    /// Accurate_Flag, pack 6.
    AccurateFlag = CAMERA_BALANCE_ACCURATE,
    /// Color_Temperature, pack 6.
    ColorTemperature = CAMERA_TEMPERATURE,
    /// Isotemperature_Line_Index, pack 6.
    IsotemperatureLineIndex = CAMERA_ISOTEMPERATURE,
    /// Gain_Mode, packs 7 and 11.
    GainMode = CAMERA_GAIN_MODE,
    /// Gain, packs 7 and 11.
    Gain = CAMERA_GAIN_LEVEL,
    /// ND_Filter, packs 7 and 11.
    NdFilter = CAMERA_ND_FILTER,
    /// ISO_Speed, pack 9.
    IsoSpeed = CAMERA_ISO_SPEED,
    /// BaseISO, pack 19.
    BaseIso = CAMERA_BASE_ISO,
    /// Camera_D_Range, pack 12.
    CameraDRange = CAMERA_DYNAMIC_RANGE,
    /// Base_Gamma_D_Range, pack 13.
    BaseGammaDRange = CAMERA_BASE_GAMMA,
    /// VFX_Tilt, pack 14.
    VfxTilt = CAMERA_TILT,
    /// VFX_Roll, pack 15.
    VfxRoll = CAMERA_ROLL,
}

/// A camera's metadata.
#[derive(Clone, Copy, PartialEq, Debug)]
pub struct Camera([Option<Value>; VALUES]);

impl Camera {
    /// A member's value, where it has one.
    ///
    /// ```
    /// use brinethimble::{Member, Value, camera_metadata};
    ///
    /// let camera = camera_metadata(b"\x01\x09\x00\x00\x03\x20");
    /// assert_eq!(camera.get(Member::IsoSpeed), Some(Value::Whole(800)));
    /// ```
    pub fn get(&self, member: Member) -> Option<Value> {
        self.0[member as usize]
    }
}

/// The members of a Private Camera Metadata.
///
/// ```
/// use brinethimble::{Member, Value, camera_metadata};
///
/// let camera = camera_metadata(b"\xff\x06\x20\x0c\x80\x7f\x12\x80");
/// assert_eq!(camera.get(Member::WbMode), Some(Value::Code(1)));
/// assert_eq!(camera.get(Member::ColorTemperature), Some(Value::Whole(3200)));
/// assert_eq!(camera.get(Member::IsotemperatureLineIndex), Some(Value::Signed(-1)));
/// assert_eq!(camera.get(Member::SetDistortion), None, "a partial pack is dropped");
/// ```
pub fn camera_metadata(data: &[u8]) -> Camera {
    let v = boundary::camera(data);
    Camera(core::array::from_fn(|place| value(v.at(place))))
}

/// The value that a kind and its bits say.
fn value((kind, bits): (u64, u64)) -> Option<Value> {
    Some(match kind {
        KIND_NOTHING => return None,
        KIND_CODE => Value::Code(bits as u8),
        KIND_WHOLE => Value::Whole(bits as u32),
        KIND_SIGNED => Value::Signed(bits as i16),
        KIND_F64 => Value::Float(f64::from_bits(bits)),
        KIND_FLAG => Value::Flag(bits == 1),
        KIND_OFF => Value::Off,
        KIND_CLOSE => Value::Close,
        KIND_OTHERS => Value::Others,
        KIND_AUTO => Value::Auto,
        KIND_MANUAL => Value::Manual,
        KIND_RESERVED => Value::Reserved,
        _ => unreachable!("{kind} is no kind of value"),
    })
}

/// A sequence info: a stream file's place in its clip.
#[derive(Clone, Copy, PartialEq, Eq, Default, Debug)]
pub struct Sequence<'a> {
    /// The instance's identifier, item 3C0Ah.
    pub instance_uid: Option<&'a [u8]>,
    /// The package's identifier, item 4401h.
    pub package_uid: Option<&'a [u8]>,
    /// Item 1501h.
    pub start_timecode: Option<i64>,
    /// Item 1201h.
    pub start_position: Option<i64>,
}

/// The items of a sequence info; the last of equal ones stands.
///
/// ```
/// let set = b"\x3c\x0a\x00\x02ab\x12\x01\x00\x08\xff\xff\xff\xff\xff\xff\xff\xfe\x15\x01\x00\x01\x07";
/// let sequence = brinethimble::stream_file_sequence_info(set);
/// assert_eq!(sequence.instance_uid, Some(&b"ab"[..]));
/// assert_eq!(sequence.start_position, Some(-2));
/// assert_eq!((sequence.package_uid, sequence.start_timecode), (None, None));
/// ```
pub fn stream_file_sequence_info(data: &[u8]) -> Sequence<'_> {
    let ([instance, i, i_len, package, p, p_len, timecode, position], positions) = boundary::sequence(data);
    Sequence {
        instance_uid: (instance == 1).then(|| part(data, i, i_len)),
        package_uid: (package == 1).then(|| part(data, p, p_len)),
        start_timecode: (timecode == 1).then_some(positions[0]),
        start_position: (position == 1).then_some(positions[1]),
    }
}

#[cfg(test)]
mod tests {
    use super::*;

    #[test]
    fn nothing_is_found_in_nothing() {
        assert_eq!(package_metadata(&[]).count(), 0);
        assert_eq!(camera_metadata(&[]), Camera([None; VALUES]));
        assert_eq!(camera_metadata(&[255]), Camera([None; VALUES]));
        assert_eq!(stream_file_sequence_info(&[]), Sequence::default());
    }

    #[test]
    fn a_set_of_lengths_past_its_end_holds_nothing() {
        assert_eq!(package_metadata(&[0x88, 0xff, 0xff, 1, 2, 3]).count(), 0);
        assert_eq!(stream_file_sequence_info(&[0x3c, 0x0a, 0xff, 0xff, 1]), Sequence::default());
    }

    #[test]
    fn each_kind_of_value_is_told() {
        let one = |pack: &[u8], member| camera_metadata(&[&[1], pack].concat()).get(member);
        assert_eq!(one(&[1, 0, 9, 0, 0], Member::ElectricZoom), Some(Value::Off));
        assert_eq!(one(&[6, 30, 0, 0, 0], Member::WbPreset), Some(Value::Others));
        assert_eq!(one(&[2, 0xc0, 0, 0, 0], Member::FocusMode), Some(Value::Code(255)));
        assert_eq!(one(&[18, 0x80, 0, 0x80, 5], Member::SetDistortion), Some(Value::Flag(true)));
        assert_eq!(one(&[18, 0x80, 0, 0x80, 5], Member::AbstatLensValue), Some(Value::Float(0.5)));
        assert_eq!(one(&[12, 0xff, 0xff, 0xff, 0xfe], Member::CameraDRange), Some(Value::Auto));
        assert_eq!(one(&[20, 1, 0, 0, 0], Member::IsoMode), Some(Value::Manual));
        assert_eq!(one(&[20, 2, 0, 0, 0], Member::IsoMode), Some(Value::Reserved));
    }

    #[test]
    fn closed_is_checked_before_nothing() {
        let f_number = |pack: [u8; 4]| camera_metadata(&[&[1, 5][..], &pack].concat()).get(Member::FNumber);
        assert_eq!(f_number([0, 0, 0xff, 0xfe]), Some(Value::Close));
        assert_eq!(f_number([0, 0, 0, 28]), None);
    }

    #[test]
    fn a_value_of_nothing_erases_nothing() {
        let camera = camera_metadata(b"\x02\x09\x00\x00\x03\x20\x09\xff\xff\xff\xff");
        assert_eq!(camera.get(Member::IsoSpeed), Some(Value::Whole(800)));
    }
}
