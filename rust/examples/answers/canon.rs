//! `packs`, `package`, `sequence` and `canon`: the published canon/mxf_packs.rs.

use brinethimble::{
    Camera, Canon, CanonItem, Member, Record, Refusal, Value, camera_metadata, package_metadata, same_label, stream_file_sequence_info,
};

use crate::arri::put_double;
use crate::sony::put_frame;
use crate::text::Text;
use crate::walk::put_record;

/// The members in the order of their names' bytes.
const MEMBERS: [(&str, Member); 31] = [
    ("AbstatLensValue", Member::AbstatLensValue),
    ("Accurate_Flag", Member::AccurateFlag),
    ("Aperture_Mode", Member::ApertureMode),
    ("BaseISO", Member::BaseIso),
    ("Base_Gamma_D_Range", Member::BaseGammaDRange),
    ("Camera_D_Range", Member::CameraDRange),
    ("Color_Temperature", Member::ColorTemperature),
    ("Electric_Zoom", Member::ElectricZoom),
    ("F_Number", Member::FNumber),
    ("Focal_Length", Member::FocalLength),
    ("Focal_Length_35Conv", Member::FocalLength35Conv),
    ("Focal_Length_No35Conv", Member::FocalLengthNo35Conv),
    ("Focus_Mode", Member::FocusMode),
    ("Gain", Member::Gain),
    ("Gain_Mode", Member::GainMode),
    ("HighSensitivityMode", Member::HighSensitivityMode),
    ("IR_Status", Member::IrStatus),
    ("ISOMode", Member::IsoMode),
    ("ISO_Speed", Member::IsoSpeed),
    ("Image_Stabilizer", Member::ImageStabilizer),
    ("Isotemperature_Line_Index", Member::IsotemperatureLineIndex),
    ("ND_Filter", Member::NdFilter),
    ("SetDistortion", Member::SetDistortion),
    ("Set_Mode", Member::SetMode),
    ("Shutter_Speed", Member::ShutterSpeed),
    ("Shutter_Value", Member::ShutterValue),
    ("T_Number", Member::TNumber),
    ("VFX_Roll", Member::VfxRoll),
    ("VFX_Tilt", Member::VfxTilt),
    ("WB_Mode", Member::WbMode),
    ("WB_Preset", Member::WbPreset),
];

/// `packs`: the members of a Private Camera Metadata.
pub fn packs(out: &mut Text, s: &[u8]) {
    put_camera(out, &camera_metadata(s));
}

/// `package`: of a package set, each Private Camera Metadata and its members.
pub fn package(out: &mut Text, s: &[u8]) {
    for record in package_metadata(s) {
        packs(out.put("[").bytes(record.value).put("]"), record.value);
    }
}

/// `sequence`: the members of a sequence info.
pub fn sequence(out: &mut Text, s: &[u8]) {
    let sequence = stream_file_sequence_info(s);
    for (name, uid) in [("InstanceUID=s:", sequence.instance_uid), ("PackageUID=s:", sequence.package_uid)] {
        if let Some(uid) = uid {
            out.put(name).bytes(uid).put(";");
        }
    }
    for (name, position) in [("StartPosition=i:", sequence.start_position), ("StartTimecode=i:", sequence.start_timecode)] {
        if let Some(position) = position {
            out.put(name).signed(position).put(";");
        }
    }
}

/// `canon`: Sony's frames, and among them the values of Canon's two labels with their members.
pub fn frames(out: &mut Text, s: &[u8], end: usize) -> Result<(), Refusal> {
    for item in Canon::new(s, end)? {
        match item {
            CanonItem::Frame(frame) => put_frame(out, &frame)?,
            CanonItem::Given(record) => put_given(out, &record),
        }
    }
    Ok(())
}

/// Puts a given value, and in brackets the members of each Private Camera Metadata or of the sequence info.
fn put_given(out: &mut Text, record: &Record) {
    put_record(out.put("-,"), record);
    out.put(";");
    if same_label(record.label, &Canon::STREAM_FILE_SEQUENCE_INFO) {
        sequence(out.put("["), record.value);
        out.put("]");
        return;
    }
    for private in package_metadata(record.value) {
        packs(out.put("["), private.value);
        out.put("]");
    }
}

/// Puts a camera's members.
fn put_camera(out: &mut Text, camera: &Camera) {
    for (name, member) in MEMBERS {
        if let Some(value) = camera.get(member) {
            put_value(out.put(name).put("="), value);
            out.put(";");
        }
    }
}

/// Puts a value by its kind.
fn put_value(out: &mut Text, value: Value) {
    match value {
        Value::Code(code) => out.put("c:").number(code.into()),
        Value::Whole(number) => out.put("i:").number(number.into()),
        Value::Signed(number) => out.put("i:").signed(number.into()),
        Value::Float(x) => {
            put_double(out.put("f:"), x);
            out
        }
        Value::Flag(set) => out.put("b:").number(set.into()),
        Value::Off => out.put("s:Off"),
        Value::Close => out.put("s:Close"),
        Value::Others => out.put("s:Others"),
        Value::Auto => out.put("s:Auto"),
        Value::Manual => out.put("s:Manual"),
        Value::Reserved => out.put("s:Reserved"),
    };
}
