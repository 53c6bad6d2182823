//! What is told of a frame or a given value.

use brinethimble::{
    Arri, Camera, Canon, Distance, Member, Record, Refusal, TStop, Value, camera_metadata, package_metadata, payload_into, same_label,
    stream_file_sequence_info, values_of,
};

const PAYLOAD_ROOM: usize = 4096;

/// How long the payload of a Sony frame is, whose element has its value at a place.
pub fn payload(element: &[u8], value: usize) -> String {
    payload_of(&element[value..])
}

/// How long the payload of an ST 436 element's value is; what there is no room for is refused with the length that it needs.
pub fn payload_of(value: &[u8]) -> String {
    match payload_into(value, &mut [0; PAYLOAD_ROOM]) {
        Ok(length) => format!(" payload {length}"),
        Err(Refusal::NoRoom { needed }) => format!(" payload {needed} refused 3"),
        Err(refusal) => format!(" refused {}", refusal.number()),
    }
}

/// The lens, focus, exposure and tilt of an ARRI frame, what there is of them.
pub fn values(element: &[u8], _: usize) -> String {
    let frame = Arri::new(element, element.len()).ok().and_then(|mut walk| walk.next());
    let Some(values) = frame.and_then(|frame| values_of(element, &frame)) else { return " no values".into() };
    let figure = |name, figure: Option<f64>| figure.map(|figure| format!(" {name} {figure:.3}"));
    let single = |name, single: Option<f32>| figure(name, single.map(f64::from));
    let whole = |name, whole: Option<u32>| whole.map(|whole| format!(" {name} {whole}"));
    let focus = values.focus_distance.map(|distance| match distance {
        Distance::Metres(metres) => format!(" focus {metres:.3}"),
        Distance::Infinity => " focus infinity".into(),
    });
    let stop = values.t_stop.map(|stop| match stop {
        TStop::Is(stop) => format!(" stop {stop:.3}"),
        TStop::Linear(number) => format!(" linear-stop {number}"),
    });
    let told = [
        single("focal", values.focal_length),
        focus,
        stop,
        figure("exposure", values.exposure_time),
        single("shutter", values.shutter_angle),
        single("tilt", values.tilt_roll.map(|(tilt, _)| tilt)),
        single("roll", values.tilt_roll.map(|(_, roll)| roll)),
        whole("index", values.exposure_index),
        whole("balance", values.white_balance),
    ];
    told.into_iter().flatten().collect()
}

/// An element's place, its value's place and length, and the bytes passed before it.
pub fn places(record: &Record) -> String {
    format!("{} {} {} {}", record.place, record.value_place, record.value.len(), record.passed)
}

/// Of Canon's package metadata how many Private Camera Metadata it has, and the lens and exposure of the first; of a sequence info its
/// start.
pub fn given(record: &Record) -> String {
    if same_label(record.label, &Canon::STREAM_FILE_SEQUENCE_INFO) {
        return sequence(record.value);
    }
    let count = package_metadata(record.value).count();
    let first = package_metadata(record.value).next().map(|private| camera(&camera_metadata(private.value)));
    format!(" package {count}{}", first.unwrap_or_default())
}

/// A sequence info.
fn sequence(set: &[u8]) -> String {
    let sequence = stream_file_sequence_info(set);
    let start = |name, number: Option<i64>| number.map(|number| format!(" {name} {number}")).unwrap_or_default();
    format!(" sequence{}{}", start("timecode", sequence.start_timecode), start("position", sequence.start_position))
}

/// A camera's lens and exposure, what there is of them.
fn camera(camera: &Camera) -> String {
    let named = [
        ("focal", Member::FocalLength),
        ("f", Member::FNumber),
        ("t", Member::TNumber),
        ("shutter", Member::ShutterValue),
        ("balance", Member::ColorTemperature),
        ("nd", Member::NdFilter),
        ("iso", Member::IsoSpeed),
        ("tilt", Member::VfxTilt),
        ("roll", Member::VfxRoll),
    ];
    named.into_iter().filter_map(|(name, member)| camera.get(member).map(|value| format!(" {name} {}", text(value)))).collect()
}

/// A value by what it is.
fn text(value: Value) -> String {
    match value {
        Value::Code(code) => code.to_string(),
        Value::Whole(number) => number.to_string(),
        Value::Signed(number) => number.to_string(),
        Value::Float(figure) => format!("{figure:.3}"),
        Value::Flag(set) => u8::from(set).to_string(),
        Value::Off => "off".into(),
        Value::Close => "close".into(),
        Value::Others => "others".into(),
        Value::Auto => "auto".into(),
        Value::Manual => "manual".into(),
        Value::Reserved => "reserved".into(),
    }
}
