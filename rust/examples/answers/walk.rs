//! `ber`, `walk`, `step`, `arrive`, `klvs` and `tally`: the published mxf.rs, and what was added to it.

use brinethimble::{Arriving, Cursor, Length, Record, Records, Refusal, next_klv, read_ber};

use crate::text::Text;

/// Puts a record: `place,label,value,length`.
pub fn put_record(out: &mut Text, record: &Record) {
    out.number(record.place as u64).put(",").hex(record.label);
    out.put(",").number(record.value_place as u64).put(",").number(record.value.len() as u64);
}

/// Puts where a cursor stands behind a bar.
fn put_cursor(out: &mut Text, cursor: Cursor) {
    out.put("|").number(cursor.at as u64);
}

/// `ber`: the length and its bytes.
pub fn ber(out: &mut Text, s: &[u8]) {
    match read_ber(s, 0) {
        Length::Is { number, bytes, .. } => out.number(number).put(" ").number(bytes as u64),
        Length::Cut => out.put("cut"),
        Length::None => out.put("none"),
    };
}

/// `walk`: the records from 0 on, and the last cursor.
pub fn walk(out: &mut Text, s: &[u8], end: usize) -> Result<(), Refusal> {
    let mut records = Records::before(s, end)?;
    for record in &mut records {
        put_record(out, &record);
        out.put(";");
    }
    put_cursor(out, records.cursor());
    Ok(())
}

/// `step`: one step from a cursor, and the next cursor.
pub fn step(out: &mut Text, s: &[u8], end: usize, from: usize) -> Result<(), Refusal> {
    let (record, next) = next_klv(s, end, Cursor { at: from, since: from })?;
    out.or_dash(record, |out, record| put_record(out, &record));
    put_cursor(out, next);
    Ok(())
}

/// `arrive`: the records of the arriving walk from 0 on, and where it waits.
pub fn arrive(out: &mut Text, a: &[u8], limit: usize) -> Result<(), Refusal> {
    let mut upload = Arriving::new(limit);
    for record in upload.certain(a)? {
        put_record(out, &record);
        out.put(";");
    }
    put_cursor(out, upload.cursor());
    Ok(())
}

/// `klvs`: the records of a run.
pub fn klvs(out: &mut Text, s: &[u8]) {
    for record in brinethimble::klvs(s) {
        put_record(out, &record);
        out.put(";");
    }
}

/// `tally`: the groups, and the count of other.
pub fn tally(out: &mut Text, s: &[u8]) {
    let tally = brinethimble::tally(s);
    for (first, count) in tally.groups() {
        out.hex(&s[first..first + 16]).put(",").number(count as u64).put(";");
    }
    out.put("|").number(tally.other);
}
