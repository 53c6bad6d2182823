//! `form`, `forms`, `formrun` and `formitems`: how long length fields are (docs/RULES.md, "L1. How long the length field was").

use brinethimble::{Coding, Length, Record, Records, Refusal, klvs, local_items, read_ber};

use crate::text::Text;
use crate::walk::put_record;

/// Puts a record, the bytes of its length field, and 1 where they are the shortest form.
pub fn put_form(out: &mut Text, record: &Record) {
    put_record(out, record);
    out.put(",").number(record.length_bytes as u64).put(",").number(record.shortest.into());
}

/// Puts records so.
fn put_forms<'a>(out: &mut Text, records: impl Iterator<Item = Record<'a>>) {
    for record in records {
        put_form(out, &record);
        out.put(";");
    }
}

/// `form`: the length, its bytes, and 1 where they are the shortest form.
pub fn form(out: &mut Text, s: &[u8]) {
    match read_ber(s, 0) {
        Length::Is { number, bytes, shortest } => out.number(number).put(" ").number(bytes as u64).put(" ").number(shortest.into()),
        Length::Cut => out.put("cut"),
        Length::None => out.put("none"),
    };
}

/// `forms`: the records from 0 on.
pub fn forms(out: &mut Text, s: &[u8], end: usize) -> Result<(), Refusal> {
    put_forms(out, Records::before(s, end)?);
    Ok(())
}

/// `formrun`: the records of a run.
pub fn run(out: &mut Text, s: &[u8]) {
    put_forms(out, klvs(s));
}

/// `formitems`: the local items of a set with tags of so many bytes.
pub fn items(out: &mut Text, s: &[u8], tag: usize, ber: bool) {
    for item in local_items(s, Coding { tag, ber }) {
        out.hex(item.tag).put(",").number(item.value_place as u64).put(",").number(item.value.len() as u64);
        out.put(",").number(item.length_bytes as u64).put(",").number(item.shortest.into()).put(";");
    }
}
