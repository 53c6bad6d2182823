//! `anc`, `set` and `sony`: the published sony/mxf.rs.

use brinethimble::{Area, Descriptor, Frame, Refusal, Sony, payload_into};

use crate::arri::put_double;
use crate::text::Text;

/// The payload of an element, in room of the element's length, which no payload needs more than.
fn payload(element: &[u8]) -> Result<Vec<u8>, Refusal> {
    let mut room = vec![0; element.len()];
    let length = payload_into(element, &mut room)?;
    room.truncate(length);
    Ok(room)
}

/// `anc`: the length of an ST 436 element's payload, and the payload.
pub fn anc(out: &mut Text, s: &[u8]) -> Result<(), Refusal> {
    let payload = payload(s)?;
    out.number(payload.len() as u64).put(",").bytes(&payload);
    Ok(())
}

/// `set`: the items of a descriptor, in the order of their list.
pub fn set(out: &mut Text, s: &[u8]) -> Result<(), Refusal> {
    let d = Descriptor::parse_set(s)?;
    put_whole(out, "Duration", d.duration);
    put_whole(out, "RoundedTimecodeBase", d.timecode_base);
    put_whole(out, "StartTimecode", d.start_timecode);
    put_whole(out, "DropFrame", d.drop_frame);
    put_rate(out, "SampleRate", d.sample_rate);
    put_whole(out, "ContainerDuration", d.container_duration);
    put_whole(out, "StoredHeight", d.stored_height);
    put_whole(out, "StoredWidth", d.stored_width);
    put_area(out, ["SampledHeight", "SampledWidth", "SampledXOffset", "SampledYOffset"], &d.sampled);
    put_area(out, ["DisplayHeight", "DisplayWidth", "DisplayXOffset", "DisplayYOffset"], &d.display);
    put_rate(out, "AspectRatio", d.aspect_ratio);
    put_whole(out, "ColorRange", d.color_range);
    Ok(())
}

/// Puts an area's items.
fn put_area(out: &mut Text, names: [&str; 4], area: &Area) {
    let items = [area.height, area.width, area.x_offset, area.y_offset];
    for (name, item) in names.into_iter().zip(items) {
        put_whole(out, name, item);
    }
}

/// Puts a whole number, or nothing.
fn put_whole(out: &mut Text, name: &str, item: Option<u64>) {
    if let Some(number) = item {
        out.put(name).put("=i:").number(number).put(";");
    }
}

/// Puts a rate by its bits, or nothing.
fn put_rate(out: &mut Text, name: &str, item: Option<f64>) {
    if let Some(rate) = item {
        put_double(out.put(name).put("=f:"), rate);
        out.put(";");
    }
}

/// Puts a frame up to its values: `number,place,value,length,mark,`.
pub fn put_place(out: &mut Text, frame: &Frame) {
    let element = &frame.element;
    for number in [frame.number, element.place as u64, element.value_place as u64, element.value.len() as u64] {
        out.number(number).put(",");
    }
    out.put(if frame.overlong { "o," } else { "," });
}

/// Puts a frame with its payload.
pub fn put_frame(out: &mut Text, frame: &Frame) -> Result<(), Refusal> {
    put_place(out, frame);
    let payload = if frame.overlong { Vec::new() } else { payload(frame.element.value)? };
    out.bytes(&payload).put(";");
    Ok(())
}

/// `sony`: the frames with their payloads.
pub fn frames(out: &mut Text, s: &[u8], end: usize) -> Result<(), Refusal> {
    for frame in Sony::new(s, end)? {
        put_frame(out, &frame)?;
    }
    Ok(())
}
