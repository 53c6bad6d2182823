//! `takes`: what two recordings of one take have apart.

use brinethimble::{Apart, Field, FrameValues, Refusal, Side, Takes};

use crate::arri::{put_distance, put_double, put_factors, put_single, put_t_stop, put_tilt_roll, put_whole};
use crate::text::Text;

/// `takes`: the report of two files with their ends.
pub fn takes(out: &mut Text, (main, main_end): (&[u8], usize), (backup, backup_end): (&[u8], usize)) -> Result<(), Refusal> {
    for difference in Takes::new(main, main_end, backup, backup_end)? {
        let number = difference.number;
        match difference.apart {
            Apart::Fields(fields) => {
                for field in fields.iter() {
                    out.number(number).put(" ").put(field.name()).put(" ");
                    put_field(out, field, &fields.main);
                    put_field(out.put(" "), field, &fields.backup);
                    out.put(";");
                }
            }
            Apart::Values(side) => put_one(out, number, "values", side),
            Apart::Overlong(side) => put_one(out, number, "over-long", side),
            Apart::Only(side) => put_one(out, number, "only", side),
        }
    }
    if out.0.is_empty() {
        out.put("-");
    }
    Ok(())
}

/// Puts a difference that is whether something is there.
fn put_one(out: &mut Text, number: u64, what: &str, side: Side) {
    let [main, backup] = if side == Side::Main { ["yes", "-"] } else { ["-", "yes"] };
    out.number(number).put(" ").put(what).put(" ").put(main).put(" ").put(backup).put(";");
}

/// Puts one field of a frame's values.
fn put_field(out: &mut Text, field: Field, v: &FrameValues) {
    let raw = |out: &mut Text, raw| _ = out.number(raw);
    match field {
        Field::FocalLength => out.or_dash(v.focal_length, put_single),
        Field::FocusDistance => out.or_dash(v.focus_distance, put_distance),
        Field::TStop => out.or_dash(v.t_stop, put_t_stop),
        Field::ExposureTime => out.or_dash(v.exposure_time, put_double),
        Field::ShutterAngle => out.or_dash(v.shutter_angle, put_single),
        Field::TiltRoll => out.or_dash(v.tilt_roll, put_tilt_roll),
        Field::ExposureIndex => out.or_dash(v.exposure_index, put_whole),
        Field::WhiteBalance => out.or_dash(v.white_balance, put_whole),
        Field::NdDensity => out.or_dash(v.nd_density, put_double),
        Field::EffectiveFocalLength => out.or_dash(v.effective_focal_length, put_double),
        Field::WhiteBalanceFactors => out.or_dash(v.white_balance_factors, put_factors),
        Field::FocusLds => out.or_dash(v.encoders.focus_lds, raw),
        Field::FocusMotor => out.or_dash(v.encoders.focus_motor, raw),
        Field::ZoomLds => out.or_dash(v.encoders.zoom_lds, raw),
        Field::ZoomMotor => out.or_dash(v.encoders.zoom_motor, raw),
        Field::IrisLds => out.or_dash(v.encoders.iris_lds, raw),
        Field::IrisMotor => out.or_dash(v.encoders.iris_motor, raw),
        Field::Tint => out.or_dash(v.tint, put_double),
        Field::SensorRate => out.or_dash(v.sensor_rate, put_double),
    };
}
