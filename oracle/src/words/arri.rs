//! `header`, `primer`, `items`, `dynamic`, `ofdynamic`, `alexa` and `arri`: src/arri/mxf.rs.

use std::collections::BTreeMap;
use std::fmt::Write;

use serde_json::Value;

use super::frames::{Frames, place_of};
use super::{offset, put_number};
use crate::arri::mxf::reach;
use crate::line::put_hex;
use crate::shims::arri::{Frame, taken};
use crate::shims::heard;

/// The names of the encoders, in the order of the answer.
const ENCODERS: [&str; 6] = ["focus_lds", "focus_motor", "zoom_lds", "zoom_motor", "iris_lds", "iris_motor"];

/// `header`: the place and length of the header part.
pub fn header(out: &mut String, bytes: &[u8]) {
    match reach::header(bytes) {
        Some(part) => write!(out, "{},{}", offset(bytes, part), part.len()).unwrap(),
        None => out.push('-'),
    }
}

/// `primer`: the tags and their labels, in rising order of the tag.
pub fn primer(out: &mut String, bytes: &[u8]) {
    for (tag, label) in reach::primer(bytes).into_iter().collect::<BTreeMap<_, _>>() {
        write!(out, "{tag:04x}=").unwrap();
        put_hex(out, &label);
        out.push(';');
    }
}

/// `items`: the local items of a set.
pub fn items(out: &mut String, bytes: &[u8], ber: bool) {
    for (tag, value) in reach::items(bytes, ber) {
        write!(out, "{tag:04x},{},{};", offset(bytes, value), value.len()).unwrap();
    }
}

/// `dynamic`: the place of ARRI's 256 bytes.
pub fn dynamic(out: &mut String, bytes: &[u8]) {
    match reach::dynamic(bytes) {
        Some(block) => put_number(out, offset(bytes, block)),
        None => out.push('-'),
    }
}

/// `ofdynamic`: the values in ARRI's 256 bytes.
pub fn of_dynamic(out: &mut String, bytes: &[u8]) {
    match bytes.try_into() {
        Ok(block) => put_frame(out, &reach::of_dynamic(block), false),
        Err(_) => out.push('?'),
    }
}

/// `alexa`: the values in an ALEXA 35's element.
pub fn alexa(out: &mut String, bytes: &[u8]) {
    put_frame(out, &reach::of_alexa35(bytes), true);
}

/// `arri`: the frames with their values.
pub fn frames(out: &mut String, bytes: &[u8], end: u64) {
    heard::listen();
    reach::walk(bytes, end, |share| heard::reached(share, end));
    let mut frames = Frames::default();
    for (number, place, values) in taken() {
        let (p, label) = place_of(bytes, place);
        let mut text = String::new();
        match values {
            Some(frame) => put_frame(&mut text, &frame, reach::is_alexa35(&label)),
            None => text.push('-'),
        }
        frames.put_read(number, p, place, bytes, text);
    }
    frames.put_heard(bytes);
    frames.list(out);
}

/// A frame's values. The T-stop of an ALEXA 35 is the whole number that the Rust hands to `t_stop`.
fn put_frame(out: &mut String, frame: &Frame, alexa35: bool) {
    put_single(out, "fl", frame.focal_length);
    put_single(out, " fd", frame.focus_distance);
    if alexa35 {
        put_whole(out, " ts", frame.t_stop.map(f32::to_bits));
    } else {
        put_single(out, " ts", frame.t_stop);
    }
    put_double(out, " et", frame.exposure_time);
    put_single(out, " sa", frame.shutter_angle);
    match frame.tilt_roll {
        Some((tilt, roll)) => write!(out, " tr={:08x}/{:08x}", tilt.to_bits(), roll.to_bits()).unwrap(),
        None => out.push_str(" tr=-"),
    }
    put_whole(out, " ei", frame.exposure_index);
    put_whole(out, " wb", frame.white_balance);
    put_double(out, " nd", frame.nd_density);
    put_double(out, " efl", number_in(frame, "effective_focal_length"));
    put_factors(out, frame.md.get("white_balance_factors"));
    put_encoders(out, frame.md.get("lens_encoders"));
    put_double(out, " tint", number_in(frame, "white_balance_tint"));
    put_double(out, " fps", number_in(frame, "sensor_fps"));
}

/// The number that a frame has under a name.
fn number_in(frame: &Frame, name: &str) -> Option<f64> {
    frame.md.get(name).and_then(Value::as_f64)
}

fn put_single(out: &mut String, name: &str, value: Option<f32>) {
    match value {
        Some(value) => write!(out, "{name}={:08x}", value.to_bits()).unwrap(),
        None => write!(out, "{name}=-").unwrap(),
    }
}

fn put_double(out: &mut String, name: &str, value: Option<f64>) {
    match value {
        Some(value) => write!(out, "{name}={:016x}", value.to_bits()).unwrap(),
        None => write!(out, "{name}=-").unwrap(),
    }
}

fn put_whole(out: &mut String, name: &str, value: Option<u32>) {
    match value {
        Some(value) => write!(out, "{name}={value}").unwrap(),
        None => write!(out, "{name}=-").unwrap(),
    }
}

/// The white balance factors, red, green and blue.
fn put_factors(out: &mut String, factors: Option<&Value>) {
    let factors: Option<Vec<f64>> = factors.and_then(|list| list.as_array()?.iter().map(Value::as_f64).collect());
    match factors.as_deref() {
        Some([red, green, blue]) => write!(out, " wbf={:016x}/{:016x}/{:016x}", red.to_bits(), green.to_bits(), blue.to_bits()).unwrap(),
        _ => out.push_str(" wbf=-"),
    }
}

/// The six encoders.
fn put_encoders(out: &mut String, encoders: Option<&Value>) {
    for (i, name) in ENCODERS.iter().enumerate() {
        out.push_str(if i == 0 { " enc=" } else { "/" });
        match encoders.and_then(|encoders| encoders.get(*name)?.as_u64()) {
            Some(value) => put_number(out, value),
            None => out.push('-'),
        }
    }
}

#[cfg(test)]
mod tests {
    use super::*;
    use crate::cases::sketch::encoded;

    /// The answer to a picture metadata element of so many zeros, and a frame after it.
    fn answer(length: usize) -> String {
        let label = hex_literal::hex!("060e2b34 02430101 0d010301 04010301");
        let mut bytes = [&label[..], &encoded(length as u64, 3)].concat();
        bytes.resize(19 + length, 0);
        bytes.extend([&label[..], &[0]].concat());
        let mut out = String::new();
        frames(&mut out, &bytes, bytes.len() as u64);
        out
    }

    #[test]
    fn the_longest_element_is_read_and_one_byte_more_is_over_long() {
        assert_eq!(answer(8192), "0,0,19,8192,,-;1,8211,8228,0,,-;");
        assert_eq!(answer(8193), "0,0,19,8193,o,-;1,8212,8229,0,,-;");
    }
}
