//! L1: how many bytes a length took, and whether a shorter form would have held the same number. Places are the published
//! Rust's: a length stands between a label or tag and its value.

use std::fmt::Write;

use crate::arri::mxf::reach::items as published_items;
use crate::line::{Case, Field, Word, put_hex};
use crate::mxf::read_ber;
use crate::plain::{Length, length};
use crate::words::walk::{records, run_records};
use crate::words::{Record, offset};

pub const WORDS: &[Word] = &[
    ("form", &[Field::Bytes]),
    ("forms", &[Field::End, Field::Bytes]),
    ("formrun", &[Field::Bytes]),
    ("formitems", &[Field::Number, Field::Coding, Field::Bytes]),
];

/// The answer to a case.
pub fn put(out: &mut String, case: &Case) {
    let bytes = &case.bytes[..];
    match case.word {
        "form" => form(out, bytes),
        "forms" => put_all(out, bytes, &records(bytes, case.numbers[0])),
        "formrun" => put_all(out, bytes, &run_records(bytes)),
        _ => items(out, bytes, case.numbers[0], case.numbers[1] == 1),
    }
}

/// Whether a form of so many bytes holds a number: one byte below 80h, else the bytes behind the first.
pub fn holds(size: usize, number: u64) -> bool {
    match size {
        0 => false,
        1 => number < 0x80,
        _ => (number as u128) < 1 << (8 * (size - 1)),
    }
}

/// Whether a length's bytes are the shortest form of its number: no shorter one holds it, and they aren't 80h.
pub fn is_shortest(field: &[u8], number: u64) -> bool {
    field[0] != 0x80 && !(1..field.len()).any(|size| holds(size, number))
}

/// `form`: a length's number, its bytes and whether it is the shortest.
fn form(out: &mut String, bytes: &[u8]) {
    let mut rest = bytes;
    match read_ber(&mut rest) {
        Ok(Some(number)) => {
            let field = &bytes[..bytes.len() - rest.len()];
            write!(out, "{number} {} {}", field.len(), is_shortest(field, number) as u8).unwrap();
        }
        Ok(None) => out.push_str("none"),
        Err(_) => out.push_str("cut"),
    }
}

/// The bytes of a record's length.
pub fn field<'a>(bytes: &'a [u8], record: &Record) -> &'a [u8] {
    &bytes[record.place as usize + 16..record.value as usize]
}

/// Puts a record with the size of its length and whether that is the shortest.
pub fn put_record(out: &mut String, bytes: &[u8], record: &Record) {
    let field = field(bytes, record);
    record.put(out);
    write!(out, ",{},{}", field.len(), is_shortest(field, record.length) as u8).unwrap();
}

/// `forms`, `formrun`: each record with both facts.
fn put_all(out: &mut String, bytes: &[u8], records: &[Record]) {
    for record in records {
        put_record(out, bytes, record);
        out.push(';');
    }
}

/// `formitems`: local items with both facts; a length of two bytes has no other form.
fn items(out: &mut String, bytes: &[u8], tag: u64, ber: bool) {
    let tag = usize::try_from(tag).unwrap_or(usize::MAX);
    for (place, v, length) in local_items(bytes, tag, ber) {
        put_hex(out, &bytes[place..place + tag]);
        let field = &bytes[place + tag..v];
        let shortest = !ber || is_shortest(field, length as u64);
        write!(out, ",{v},{length},{},{};", field.len(), shortest as u8).unwrap();
    }
}

/// The places of local items' tags and values, and the values' lengths: the published ones where tags have two bytes.
pub fn local_items(bytes: &[u8], tag: usize, ber: bool) -> Vec<(usize, usize, usize)> {
    let plain: Vec<_> = std::iter::successors(item_at(bytes, 0, tag, ber), |(_, v, length)| item_at(bytes, v + length, tag, ber)).collect();
    if tag == 2 {
        let published: Vec<_> = published_items(bytes, ber).map(|(_, value)| (offset(bytes, value) as usize, value.len())).collect();
        assert_eq!(plain.iter().map(|(_, v, length)| (*v, *length)).collect::<Vec<_>>(), published, "the published items");
    }
    plain
}

/// The item whose tag is at a place, if it is whole.
fn item_at(bytes: &[u8], place: usize, tag: usize, ber: bool) -> Option<(usize, usize, usize)> {
    let after = place.checked_add(tag).filter(|after| *after < bytes.len())?;
    let (number, size) = match (ber, &bytes[after..]) {
        (true, rest) => match length(rest) {
            Length::Is(number, size) => (number, size),
            _ => return None,
        },
        (false, [high, low, ..]) => (u16::from_be_bytes([*high, *low]) as u64, 2),
        _ => return None,
    };
    let v = after + size;
    (number <= (bytes.len() - v) as u64).then_some((place, v, number as usize))
}

#[cfg(test)]
mod tests {
    use crate::asked::tests::shows;

    #[test]
    fn lengths() {
        let forms = [
            ("00", "0 1 1"),
            ("7f", "127 1 1"),
            ("80", "0 1 0"),
            ("8100", "0 2 0"),
            ("817f", "127 2 0"),
            ("8180", "128 2 1"),
            ("8200ff", "255 3 0"),
            ("820100", "256 3 1"),
            ("87ffffffffffffff", "72057594037927935 8 1"),
            ("8800ffffffffffffff", "72057594037927935 9 0"),
            ("880100000000000000", "72057594037927936 9 1"),
            ("88ffffffffffffffff", "18446744073709551615 9 1"),
            ("89", "none"),
            ("81", "cut"),
            ("-", "cut"),
        ];
        for (bytes, right) in forms {
            shows(&format!("form {bytes}"), right);
        }
    }

    #[test]
    fn a_walk_and_a_run() {
        let second = "060e2b340101010e0e15000100010000";
        shows(&format!("forms n 00K02aabb{second}8100"), &format!("1,K,18,2,1,1;20,{second},38,0,2,0;"));
        shows(&format!("formrun K80{second}8101cc00"), &format!("0,K,17,0,1,0;17,{second},35,1,2,0;"));
        shows("forms 18 K00", "refused 1");
    }

    #[test]
    fn local_items() {
        let value = "aa".repeat(16);
        shows(&format!("formitems 2 1 3c0a8110{value}"), "3c0a,4,16,2,0;");
        shows(&format!("formitems 2 1 3c0a10{value}"), "3c0a,3,16,1,1;");
        shows(&format!("formitems 2 0 3c0a0010{value}"), "3c0a,4,16,2,1;");
        shows("formitems 1 0 88000188000002ff", "88,3,1,2,1;");
        shows("formitems 1 1 88808801cc", "88,2,0,1,0;88,4,1,1,1;");
    }
}
