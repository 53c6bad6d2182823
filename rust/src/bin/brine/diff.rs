//! `diff`: two recordings of one take, frame by frame. Both files are fed, and the library compares the elements of two frames with one
//! number, each as a file of its own.

use brinethimble::{Apart, Field, Side, Takes};

use crate::cameras::{Camera, Walk};
use crate::say::{Line, Out};
use crate::source::Source;
use crate::words::Asked;
use crate::{Done, Found, Trouble, values};

/// How the length and the value of an element begin that is over-long, and no more.
const OVER_LONG: [u8; 3 + 8193] = {
    let mut bytes = [0; 3 + 8193];
    [bytes[0], bytes[1], bytes[2]] = [0x82, 0x20, 0x01];
    bytes
};

/// A recorder's file, frame by frame.
struct Recording {
    source: Source,
    walk: Walk,
}

impl Recording {
    fn open(asked: &Asked, number: usize) -> Result<Self, Trouble> {
        let source = Source::open(asked.file(number), 0)?;
        let walk = Walk::over(Camera::Arri, &source);
        match source.length() {
            Some(_) => Ok(Recording { source, walk }),
            None => Err(Trouble::Said("two files are compared, and a stream is none".into())),
        }
    }

    /// The element of the next frame; no bytes where there is none. Of one that is over-long nothing is compared but that.
    fn next(&mut self) -> Result<Vec<u8>, Trouble> {
        loop {
            let piece = self.source.piece(self.walk.at)?;
            if piece.is_empty() {
                return Ok(Vec::new());
            }
            match self.walk.feed(piece)? {
                Some(frame) if frame.overlong => return Ok([&frame.label[..], &OVER_LONG].concat()),
                Some(frame) => return self.source.bytes(frame.place, frame.value_place + frame.value_length - frame.place),
                None => {}
            }
        }
    }
}

pub fn run(asked: &Asked, out: &mut Out) -> Done {
    let (mut main, mut backup) = (Recording::open(asked, 0)?, Recording::open(asked, 1)?);
    let (mut number, mut apart) = (0, 0);
    while !out.gone() {
        let (one, other) = (main.next()?, backup.next()?);
        if one.is_empty() && other.is_empty() {
            break;
        }
        for difference in Takes::new(&one, one.len(), &other, other.len())? {
            apart += 1;
            said(out, number, &difference.apart)?;
        }
        number += 1;
    }
    out.say(out.line("frames").word("frames", number).only_text("apart").word("apart", apart))?;
    Ok(if apart == 0 { Found::Right } else { Found::Wanting })
}

/// Says what is apart at a number: each value of a field that differs, on both sides.
fn said(out: &mut Out, number: u64, apart: &Apart) -> Result<(), Trouble> {
    let sided = |name: &str, side: &Side, out: &mut Out| {
        let (main, backup) = if *side == Side::Main { ("yes", "-") } else { ("-", "yes") };
        let line = out.line("").word("number", number).text("name", name);
        out.say(line.only_text(main).only_text(backup).only_json("side", if *side == Side::Main { "\"main\"" } else { "\"backup\"" }))
    };
    match apart {
        Apart::Values(side) => sided("values", side, out)?,
        Apart::Overlong(side) => sided("over-long", side, out)?,
        Apart::Only(side) => sided("only", side, out)?,
        Apart::Fields(fields) => {
            let (main, backup) = (values::arri(&fields.main), values::arri(&fields.backup));
            for name in fields.iter().flat_map(names).filter(|name| main.has(name) || backup.has(name)) {
                let line = out.line("").word("number", number).text("name", name);
                out.say(put(put(line, "main", &main, name), "backup", &backup, name))?;
            }
        }
    }
    Ok(())
}

/// A side's value.
fn put(line: Line, side: &str, values: &values::Values, name: &str) -> Line {
    line.only_text(&values.shown(name, false)).only_json(side, values.shown(name, true))
}

/// The names of a field's values.
fn names(field: Field) -> &'static [&'static str] {
    match field {
        Field::FocalLength => &["focal_length_mm"],
        Field::FocusDistance => &["focus_distance_m"],
        Field::TStop => &["t_stop", "t_stop_linear"],
        Field::ExposureTime => &["exposure_time_ms"],
        Field::ShutterAngle => &["shutter_angle_deg"],
        Field::TiltRoll => &["tilt_deg", "roll_deg"],
        Field::ExposureIndex => &["exposure_index"],
        Field::WhiteBalance => &["white_balance_k"],
        Field::NdDensity => &["nd_density"],
        Field::EffectiveFocalLength => &["effective_focal_length_mm"],
        Field::WhiteBalanceFactors => &["red", "green", "blue"],
        Field::FocusLds => &["focus_lds"],
        Field::FocusMotor => &["focus_motor"],
        Field::ZoomLds => &["zoom_lds"],
        Field::ZoomMotor => &["zoom_motor"],
        Field::IrisLds => &["iris_lds"],
        Field::IrisMotor => &["iris_motor"],
        Field::Tint => &["tint"],
        Field::SensorRate => &["sensor_rate_fps"],
    }
}
