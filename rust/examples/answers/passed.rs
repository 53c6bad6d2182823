//! `passed`, `passarrive`, `passfrom`, `passsony`, `passarri` and `passcanon`: the bytes passed before records and frames
//! (docs/RULES.md, "L9. The bytes that were passed").

use brinethimble::{Arri, Arriving, Canon, CanonItem, Cursor, Frame, Record, Records, Refusal, Sony, next_klv};

use crate::forms::put_form;
use crate::sony::put_place;
use crate::text::Text;
use crate::walk::put_record;

/// Puts a record with its length field and the bytes passed before it.
fn put_counted(out: &mut Text, record: &Record) {
    put_form(out, record);
    out.put(",").number(record.passed as u64);
}

/// Puts both places of a cursor behind a bar.
fn put_cursor(out: &mut Text, cursor: Cursor) {
    out.put("|").number(cursor.at as u64).put(",").number(cursor.since as u64);
}

/// `passed`: the records of the finished walk, and the last cursor.
pub fn walk(out: &mut Text, s: &[u8], end: usize) -> Result<(), Refusal> {
    let mut records = Records::before(s, end)?;
    for record in &mut records {
        put_counted(out, &record);
        out.put(";");
    }
    put_cursor(out, records.cursor());
    Ok(())
}

/// `passarrive`: the records of the arriving walk, and where it waits.
pub fn arrive(out: &mut Text, a: &[u8], limit: usize) -> Result<(), Refusal> {
    let mut upload = Arriving::new(limit);
    for record in upload.certain(a)? {
        put_counted(out, &record);
        out.put(";");
    }
    put_cursor(out, upload.cursor());
    Ok(())
}

/// `passfrom`: one step from a cursor, and the next cursor.
pub fn step(out: &mut Text, s: &[u8], end: usize, cursor: Cursor) -> Result<(), Refusal> {
    let (record, next) = next_klv(s, end, cursor)?;
    out.or_dash(record, |out, record| put_counted(out, &record));
    put_cursor(out, next);
    Ok(())
}

/// Puts a frame with the bytes passed before it.
pub fn put_frame(out: &mut Text, frame: &Frame) {
    put_place(out, frame);
    out.number(frame.element.passed as u64).put(";");
}

/// `passsony`: Sony's frames.
pub fn sony(out: &mut Text, s: &[u8], end: usize) -> Result<(), Refusal> {
    Sony::new(s, end)?.for_each(|frame| put_frame(out, &frame));
    Ok(())
}

/// `passarri`: ARRI's frames.
pub fn arri(out: &mut Text, s: &[u8], end: usize) -> Result<(), Refusal> {
    Arri::new(s, end)?.for_each(|frame| put_frame(out, &frame));
    Ok(())
}

/// `passcanon`: Canon's frames and given values.
pub fn canon(out: &mut Text, s: &[u8], end: usize) -> Result<(), Refusal> {
    for item in Canon::new(s, end)? {
        match item {
            CanonItem::Frame(frame) => put_frame(out, &frame),
            CanonItem::Given(record) => {
                put_record(out.put("-,"), &record);
                out.put(",").number(record.passed as u64).put(";");
            }
        }
    }
    Ok(())
}
