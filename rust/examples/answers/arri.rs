//! `header`, `primer`, `items`, `dynamic`, `ofdynamic`, `alexa` and `arri`: the published arri/mxf.rs.

use std::collections::BTreeSet;
use std::sync::Mutex;

use brinethimble::{Arri, Coding, Distance, Encoders, FrameValues, Primer, Refusal, TAGS, TStop, local_items, values_of};

use crate::sony::put_place;
use crate::text::{Text, offset};

/// `header`: the header part's place and length.
pub fn header(out: &mut Text, s: &[u8]) {
    out.or_dash(brinethimble::header_partition_metadata(s), |out, part| {
        out.number(offset(s, part)).put(",").number(part.len() as u64);
    });
}

/// `primer`: each tag that the search finds, in rising order, with its label. By a table that has served the cases before, and
/// starts with a number of its own at each tag, it must be the same.
pub fn primer(out: &mut Text, s: &[u8]) {
    static TABLE: Mutex<[u64; TAGS]> = Mutex::new(numbers());
    let mut table = TABLE.lock().expect("one thread");
    let tabled = Primer(s).tabled(&mut table);
    let entries = s.get(8..).unwrap_or_default().chunks(18);
    let tags: BTreeSet<u16> = entries.filter_map(|entry| entry.first_chunk()).map(|tag| u16::from_be_bytes(*tag)).collect();
    for tag in tags {
        let found = Primer(s).get(tag);
        assert_eq!((found, Primer(s).get(!tag)), (tabled.get(tag), tabled.get(!tag)));
        if let Some(label) = found {
            out.hex(&tag.to_be_bytes()).put("=").hex(label).put(";");
        }
    }
}

/// A table that was never filled: 0 to 6, over and over.
const fn numbers() -> [u64; TAGS] {
    let mut table = [0; TAGS];
    let mut tag = 0;
    while tag < TAGS {
        table[tag] = tag as u64 % 7;
        tag += 1;
    }
    table
}

/// `items`: the local items of a set.
pub fn items(out: &mut Text, s: &[u8], ber: bool) {
    for item in local_items(s, if ber { Coding::BER } else { Coding::TWO }) {
        out.hex(item.tag).put(",").number(item.value_place as u64).put(",").number(item.value.len() as u64).put(";");
    }
}

/// `dynamic`: the place of ARRI's 256 bytes.
pub fn dynamic(out: &mut Text, s: &[u8]) {
    out.or_dash(brinethimble::dynamic_metadata(s), |out, block| _ = out.number(offset(s, block)));
}

/// `ofdynamic`: the values in ARRI's 256 bytes.
pub fn of_dynamic(out: &mut Text, s: &[u8]) {
    if s.len() == 256 {
        put_values(out, &brinethimble::of_dynamic(s));
    } else {
        out.put("?");
    }
}

/// `alexa`: the values in an ALEXA 35's element.
pub fn alexa(out: &mut Text, s: &[u8]) {
    put_values(out, &brinethimble::of_alexa35(s));
}

/// `arri`: the frames with their values.
pub fn frames(out: &mut Text, s: &[u8], end: usize) -> Result<(), Refusal> {
    for frame in Arri::new(s, end)? {
        put_place(out, &frame);
        out.or_dash(values_of(s, &frame), |out, values| put_values(out, &values)).put(";");
    }
    Ok(())
}

/// Puts a frame's values.
fn put_values(out: &mut Text, v: &FrameValues) {
    out.put("fl=").or_dash(v.focal_length, put_single);
    out.put(" fd=").or_dash(v.focus_distance, put_distance);
    out.put(" ts=").or_dash(v.t_stop, put_t_stop);
    out.put(" et=").or_dash(v.exposure_time, put_double);
    out.put(" sa=").or_dash(v.shutter_angle, put_single);
    out.put(" tr=").or_dash(v.tilt_roll, put_tilt_roll);
    out.put(" ei=").or_dash(v.exposure_index, put_whole);
    out.put(" wb=").or_dash(v.white_balance, put_whole);
    out.put(" nd=").or_dash(v.nd_density, put_double);
    out.put(" efl=").or_dash(v.effective_focal_length, put_double);
    out.put(" wbf=").or_dash(v.white_balance_factors, put_factors);
    put_encoders(out, &v.encoders);
    out.put(" tint=").or_dash(v.tint, put_double);
    out.put(" fps=").or_dash(v.sensor_rate, put_double);
}

/// Puts the encoders.
fn put_encoders(out: &mut Text, e: &Encoders) {
    let all = [e.focus_lds, e.focus_motor, e.zoom_lds, e.zoom_motor, e.iris_lds, e.iris_motor];
    for (i, encoder) in all.into_iter().enumerate() {
        out.put(if i == 0 { " enc=" } else { "/" }).or_dash(encoder, |out, raw| _ = out.number(raw));
    }
}

/// Puts tilt and roll by their bits.
pub fn put_tilt_roll(out: &mut Text, (tilt, roll): (f32, f32)) {
    put_single(out, tilt);
    put_single(out.put("/"), roll);
}

/// Puts the factors on red, green and blue by their bits.
pub fn put_factors(out: &mut Text, [red, green, blue]: [f64; 3]) {
    put_double(out, red);
    put_double(out.put("/"), green);
    put_double(out.put("/"), blue);
}

/// Puts the bits of an f32.
pub fn put_single(out: &mut Text, x: f32) {
    out.hex(&x.to_bits().to_be_bytes());
}

/// Puts the bits of an f64.
pub fn put_double(out: &mut Text, x: f64) {
    out.hex(&x.to_bits().to_be_bytes());
}

/// Puts a whole number.
pub fn put_whole(out: &mut Text, n: u32) {
    out.number(n.into());
}

/// Puts a distance by its bits.
pub fn put_distance(out: &mut Text, distance: Distance) {
    match distance {
        Distance::Metres(x) => put_single(out, x),
        Distance::Infinity => put_single(out, f32::INFINITY),
    }
}

/// Puts a T-stop: an f32's bits, or a whole number.
pub fn put_t_stop(out: &mut Text, t_stop: TStop) {
    match t_stop {
        TStop::Is(x) => put_single(out, x),
        TStop::Linear(n) => put_whole(out, n),
    }
}
