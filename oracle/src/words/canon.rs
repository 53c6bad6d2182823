//! `packs`, `package`, `sequence` and `canon`: src/canon/mxf_packs.rs, with a `named` that gives back its code.

use std::cell::RefCell;
use std::fmt::Write;
use std::io::Cursor;

use serde_json::Value;

use super::frames::{Frames, place_of};
use super::sony::{list, walked};
use crate::InputOptions;
use crate::canon_codes::mxf_packs::{KEYS, parse_klv, reach};
use crate::line::{put_bytes, put_hex};
use crate::shims::{canon::taken, heard};
use crate::sony::mxf::parse_with_klvs;
use crate::tags_impl::{GroupedTagMap, TagDescription, TagValue};

/// The member of pack 0, which the port passes by.
const PASSED_BY: &str = "Focus_Position";

/// `packs`: the members of a Private Camera Metadata.
pub fn packs(out: &mut String, bytes: &[u8]) {
    put_members(out, &reach::packs(bytes));
}

/// `package`: of a package set, each Private Camera Metadata and its members.
pub fn package(out: &mut String, bytes: &[u8]) {
    for tag in tags_of(&KEYS[0], bytes) {
        let (raw, members) = json(&tag);
        out.push('[');
        put_bytes(out, raw);
        out.push(']');
        put_members(out, members);
    }
}

/// `sequence`: the members of a sequence info.
pub fn sequence(out: &mut String, bytes: &[u8]) {
    put_sequence(out, &reach::sequence(bytes));
}

/// `canon`: Sony's frames, and among them the values of Canon's two labels with their members.
pub fn frames(out: &mut String, bytes: &[u8], end: u64) {
    heard::listen();
    let read = RefCell::new(Vec::new());
    let frames = RefCell::new(Frames::default());
    let size = walked(bytes, end);
    let samples = parse_with_klvs(
        &mut Cursor::new(bytes),
        end,
        |share| heard::reached(share, size),
        Default::default(),
        None,
        &InputOptions::default(),
        |payload, _, _| {
            read.borrow_mut().push((heard::place(), payload.to_vec()));
            Ok(())
        },
        &KEYS,
        |label, value, _, _| frames.borrow_mut().put_value(heard::place(), value_text(bytes, label, value)),
    );
    list(out, bytes, samples, read.into_inner(), frames.into_inner());
}

/// A value of one of Canon's labels, and in brackets the members of each Private Camera Metadata or of the sequence info.
fn value_text(bytes: &[u8], label: &[u8; 16], value: &[u8]) -> String {
    let v = heard::place();
    let mut out = format!("{},", place_of(bytes, v).0);
    put_hex(&mut out, label);
    write!(out, ",{v},{};", value.len()).unwrap();
    let is_sequence = crate::mxf::same_ul(label, &KEYS[1]);
    for tag in tags_of(label, value) {
        out.push('[');
        let put = if is_sequence { put_sequence } else { put_members };
        put(&mut out, json(&tag).1);
        out.push(']');
    }
    out
}

/// The tags that the Rust makes of a value, in the order that it makes them.
fn tags_of(label: &[u8; 16], value: &[u8]) -> Vec<TagDescription> {
    taken();
    parse_klv(label, value, &InputOptions::default(), &mut GroupedTagMap::new());
    taken()
}

/// The bytes that a tag is made of and its members.
fn json(tag: &TagDescription) -> (&[u8], &Value) {
    let TagValue::Json(value) = &tag.value else { panic!("Canon's tags are objects") };
    (&value.raw_data, value.get())
}

/// Members in the order of their names' bytes.
fn put_members(out: &mut String, members: &Value) {
    for (name, value) in sorted(members) {
        if name == PASSED_BY {
            continue;
        }
        write!(out, "{name}=").unwrap();
        match value {
            Value::Object(code) => write!(out, "c:{}", code["code"]).unwrap(),
            Value::String(text) => write!(out, "s:{text}").unwrap(),
            Value::Bool(set) => write!(out, "b:{}", *set as u8).unwrap(),
            Value::Number(number) if number.is_f64() => write!(out, "f:{:016x}", number.as_f64().unwrap().to_bits()).unwrap(),
            whole => write!(out, "i:{whole}").unwrap(),
        }
        out.push(';');
    }
}

/// The members of a sequence info, whose texts are hex.
fn put_sequence(out: &mut String, members: &Value) {
    for (name, value) in sorted(members) {
        match value {
            Value::String(hex) if hex.is_empty() => write!(out, "{name}=s:-;").unwrap(),
            Value::String(hex) => write!(out, "{name}=s:{hex};").unwrap(),
            whole => write!(out, "{name}=i:{whole};").unwrap(),
        }
    }
}

/// The members of an object in the order of their names' bytes.
fn sorted(members: &Value) -> Vec<(&String, &Value)> {
    let mut members: Vec<_> = members.as_object().expect("an object").iter().collect();
    members.sort_by_key(|(name, _)| *name);
    members
}

#[cfg(test)]
mod tests {
    use super::*;
    use crate::canon::crm_packs::named;
    use crate::canon::mxf_packs::reach as published;
    use crate::cases;
    use crate::cases::sketch::encoded;
    use crate::line::parse;

    /// The answer to a package set of so many zeros.
    fn answer(length: usize) -> String {
        let mut bytes = [&KEYS[0][..], &encoded(length as u64, 5)].concat();
        bytes.resize(21 + length, 0);
        let mut out = String::new();
        frames(&mut out, &bytes, bytes.len() as u64);
        out
    }

    #[test]
    fn the_longest_value_is_given_and_one_byte_more_is_stepped_over() {
        assert_eq!(answer(1_048_576), "-,0,060e2b34024301010d01030104010203,21,1048576;");
        assert_eq!(answer(1_048_577), "");
    }

    #[test]
    fn the_codes_build_differs_from_the_published_one_in_codes_alone() {
        for index in 0..20_000 {
            let case = parse(&cases::case("packs", 1, index)).unwrap();
            let (codes, names) = (reach::packs(&case.bytes), published::packs(&case.bytes));
            for (name, value) in codes.as_object().unwrap() {
                let code = value.as_object().map(|code| code["code"].as_u64().unwrap() as u8);
                match (code, names.get(name)) {
                    (None, found) => assert_eq!(found, Some(value), "{}", case.line()),
                    (Some(255), _) => assert!(named(255, &[]).is_null()),
                    (Some(_), found) => assert!(found.is_some_and(Value::is_string), "{}", case.line()),
                }
            }
        }
    }
}
