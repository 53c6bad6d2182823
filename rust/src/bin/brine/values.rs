//! A frame's values by names that all cameras share, with their units in them; what one camera alone has keeps a name of its own.

use brinethimble::{Camera, Distance, FrameValues, Member, Sequence, TStop, Value};

use crate::say::{Line, hex};

/// A value as it is said.
enum Said {
    Whole(i128),
    Single(f32),
    Double(f64),
    Text(String),
}

/// Values, each with its name.
pub struct Values(Vec<(&'static str, Said)>);

impl Values {
    pub fn has(&self, name: &str) -> bool {
        self.0.iter().any(|(known, _)| *known == name)
    }

    /// The value of a name, as text or as JSON has it; `-` or `null` where there is none.
    pub fn shown(&self, name: &str, json: bool) -> String {
        let quoted = |text: String| if json { format!("\"{text}\"") } else { text };
        match self.0.iter().find(|(known, _)| *known == name) {
            None => String::from(if json { "null" } else { "-" }),
            Some((_, Said::Whole(number))) => number.to_string(),
            Some((_, Said::Single(x))) if x.is_finite() => x.to_string(),
            Some((_, Said::Double(x))) if x.is_finite() => x.to_string(),
            Some((_, Said::Single(x))) => quoted(x.to_string()),
            Some((_, Said::Double(x))) => quoted(x.to_string()),
            Some((_, Said::Text(text))) => quoted(text.clone()),
        }
    }

    pub fn put(self, line: Line) -> Line {
        self.0.into_iter().fold(line, |line, (name, value)| match value {
            Said::Whole(number) => line.named(name, number),
            Said::Single(x) => line.figure(name, x),
            Said::Double(x) => line.figure(name, x),
            Said::Text(text) => line.named_text(name, &text),
        })
    }
}

/// An ARRI frame's values.
pub fn arri(v: &FrameValues) -> Values {
    let mut said = Vec::new();
    let mut put = |name, value: Option<Said>| said.extend(value.map(|value| (name, value)));
    put("focal_length_mm", v.focal_length.map(Said::Single));
    put("focus_distance_m", v.focus_distance.map(distance));
    match v.t_stop {
        Some(TStop::Linear(n)) => put("t_stop_linear", Some(Said::Whole(n.into()))),
        Some(TStop::Is(x)) => put("t_stop", Some(Said::Single(x))),
        None => {}
    }
    put("exposure_time_ms", v.exposure_time.map(Said::Double));
    put("shutter_angle_deg", v.shutter_angle.map(Said::Single));
    put("tilt_deg", v.tilt_roll.map(|(tilt, _)| Said::Single(tilt)));
    put("roll_deg", v.tilt_roll.map(|(_, roll)| Said::Single(roll)));
    put("exposure_index", v.exposure_index.map(|n| Said::Whole(n.into())));
    put("white_balance_k", v.white_balance.map(|n| Said::Whole(n.into())));
    put("nd_density", v.nd_density.map(Said::Double));
    put("effective_focal_length_mm", v.effective_focal_length.map(Said::Double));
    for (place, name) in ["red", "green", "blue"].into_iter().enumerate() {
        put(name, v.white_balance_factors.map(|factors| Said::Double(factors[place])));
    }
    let e = &v.encoders;
    let raw = [e.focus_lds, e.focus_motor, e.zoom_lds, e.zoom_motor, e.iris_lds, e.iris_motor];
    for (name, raw) in ["focus_lds", "focus_motor", "zoom_lds", "zoom_motor", "iris_lds", "iris_motor"].into_iter().zip(raw) {
        put(name, raw.map(|raw| Said::Whole(raw.into())));
    }
    put("tint", v.tint.map(Said::Double));
    put("sensor_rate_fps", v.sensor_rate.map(Said::Double));
    Values(said)
}

fn distance(distance: Distance) -> Said {
    match distance {
        Distance::Metres(x) => Said::Single(x),
        Distance::Infinity => Said::Text("infinity".into()),
    }
}

/// Canon's members by the shared names, and then those that only Canon has by their own.
const MEMBERS: [(&str, Member); 31] = [
    ("focal_length_mm", Member::FocalLength),
    ("t_stop", Member::TNumber),
    ("f_number", Member::FNumber),
    ("exposure_time_ms", Member::ShutterSpeed),
    ("tilt_deg", Member::VfxTilt),
    ("roll_deg", Member::VfxRoll),
    ("exposure_index", Member::IsoSpeed),
    ("white_balance_k", Member::ColorTemperature),
    ("effective_focal_length_mm", Member::FocalLengthNo35Conv),
    ("Focal_Length_35Conv", Member::FocalLength35Conv),
    ("Electric_Zoom", Member::ElectricZoom),
    ("Set_Mode", Member::SetMode),
    ("Shutter_Value", Member::ShutterValue),
    ("Gain", Member::Gain),
    ("Gain_Mode", Member::GainMode),
    ("ND_Filter", Member::NdFilter),
    ("BaseISO", Member::BaseIso),
    ("ISOMode", Member::IsoMode),
    ("WB_Mode", Member::WbMode),
    ("WB_Preset", Member::WbPreset),
    ("Accurate_Flag", Member::AccurateFlag),
    ("Isotemperature_Line_Index", Member::IsotemperatureLineIndex),
    ("Focus_Mode", Member::FocusMode),
    ("Image_Stabilizer", Member::ImageStabilizer),
    ("Aperture_Mode", Member::ApertureMode),
    ("IR_Status", Member::IrStatus),
    ("HighSensitivityMode", Member::HighSensitivityMode),
    ("SetDistortion", Member::SetDistortion),
    ("AbstatLensValue", Member::AbstatLensValue),
    ("Camera_D_Range", Member::CameraDRange),
    ("Base_Gamma_D_Range", Member::BaseGammaDRange),
];

/// What Canon's Set_Mode says of a shutter value that is in degrees.
const DEGREE: Value = Value::Code(1);

/// A Canon camera's values. Its shutter speed is a part of a second; its shutter value is an angle where the mode says so.
pub fn canon(camera: &Camera) -> Values {
    let angle = camera.get(Member::SetMode) == Some(DEGREE);
    let said = MEMBERS.into_iter().filter_map(|(name, member)| {
        let value = match camera.get(member)? {
            Value::Float(seconds) if member == Member::ShutterSpeed => Said::Double(seconds * 1000.0),
            Value::Code(code) => Said::Whole(code.into()),
            Value::Whole(number) => Said::Whole(number.into()),
            Value::Signed(number) => Said::Whole(number.into()),
            Value::Float(x) => Said::Double(x),
            Value::Flag(set) => Said::Whole(i128::from(set)),
            text => Said::Text(format!("{text:?}").to_lowercase()),
        };
        Some((if angle && member == Member::ShutterValue { "shutter_angle_deg" } else { name }, value))
    });
    Values(said.collect())
}

/// A sequence info's members.
pub fn sequence(sequence: &Sequence) -> Values {
    let bytes = |name, bytes: Option<&[u8]>| bytes.map(|bytes| (name, Said::Text(hex(bytes))));
    let number = |name, number: Option<i64>| number.map(|number| (name, Said::Whole(number.into())));
    let said = [
        bytes("InstanceUID", sequence.instance_uid),
        bytes("PackageUID", sequence.package_uid),
        number("StartTimecode", sequence.start_timecode),
        number("StartPosition", sequence.start_position),
    ];
    Values(said.into_iter().flatten().collect())
}
