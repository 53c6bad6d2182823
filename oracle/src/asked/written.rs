//! L8: write what we can read. Bytes of lengths, KLVs, local items, primers, Canon packs and whole runs, each read back by the published
//! readers before it is answered.

use std::fmt::Write;

use super::forms::{field, holds, is_shortest};
use super::put_written;
use crate::arri::mxf::reach;
use crate::canon::mxf_packs::reach as canon;
use crate::line::{Case, Field, Word, digits};
use crate::mxf::{klvs, read_ber};
use crate::words::walk::run_records;

pub const WORDS: &[Word] = &[
    ("shortest", &[Field::Number]),
    ("putlength", &[Field::Number, Field::Number, Field::Room]),
    ("putklv", &[Field::Number, Field::Room, Field::Label, Field::Bytes]),
    ("putitem", &[Field::Number, Field::Room, Field::Bytes]),
    ("putprimer", &[Field::Room, Field::Bytes]),
    ("putpack", &[Field::Number, Field::Room, Field::List]),
    ("rewrite", &[Field::Room, Field::Bytes]),
];

/// The answer to a case.
pub fn put(out: &mut String, case: &Case) {
    if case.word == "shortest" {
        return write!(out, "{}", shortest(case.numbers[0])).unwrap();
    }
    match written(case) {
        None => out.push('?'),
        Some(Err(NoFit)) => out.push_str("refused 15"),
        Some(Ok(bytes)) if !reads_back(case, &bytes) => out.push_str("read otherwise than written"),
        Some(Ok(bytes)) => put_written(out, &bytes, *case.numbers.last().expect("a room")),
    }
}

/// Something doesn't fit its bits or its size: refusal 15.
#[derive(PartialEq, Eq, Debug)]
pub struct NoFit;

/// The bytes that a case's word writes, if it is a case.
pub fn written(case: &Case) -> Option<Result<Vec<u8>, NoFit>> {
    let bytes = &case.bytes[..];
    let number = case.numbers[0];
    Some(match case.word {
        "putlength" => length(number, case.numbers[1]),
        "putklv" => klv(&case.other, number, bytes),
        "putitem" => item(number, bytes),
        "putprimer" if !bytes.len().is_multiple_of(18) => return None,
        "putprimer" => primer(bytes),
        "putpack" => pack(number, &fields_of(&case.list)?),
        _ => rewritten(bytes),
    })
}

/// The size of the shortest form that holds a number.
pub fn shortest(number: u64) -> u64 {
    (1..=9).find(|size| holds(*size, number)).expect("nine bytes hold all") as u64
}

/// A length of a given size: the number alone, or 80h and the count of the bytes that hold it, then those.
fn length(number: u64, size: u64) -> Result<Vec<u8>, NoFit> {
    match size {
        1..=9 if !holds(size as usize, number) => Err(NoFit),
        1 => Ok(vec![number as u8]),
        2..=9 => Ok([vec![0x80 + (size as u8 - 1)], big_endian(number, size as usize - 1)].concat()),
        _ => Err(NoFit),
    }
}

/// A number in so many bytes, most significant first.
fn big_endian(number: u64, count: usize) -> Vec<u8> {
    (0..count).rev().map(|place| (number >> (8 * place)) as u8).collect()
}

/// A KLV with a length of a given size.
fn klv(label: &[u8], size: u64, value: &[u8]) -> Result<Vec<u8>, NoFit> {
    Ok([label, &length(value.len() as u64, size)?, value].concat())
}

/// A local item with a tag and a length of 2 bytes each.
fn item(tag: u64, value: &[u8]) -> Result<Vec<u8>, NoFit> {
    if tag > 0xffff || value.len() > 0xffff {
        return Err(NoFit);
    }
    Ok([&big_endian(tag, 2), &big_endian(value.len() as u64, 2), value].concat())
}

/// A primer: the count of its entries, their size and the entries in their order.
fn primer(entries: &[u8]) -> Result<Vec<u8>, NoFit> {
    Ok([&big_endian(entries.len() as u64 / 18, 4), &big_endian(18, 4), entries].concat())
}

/// The fields of each Canon pack from 1 on: the place of a field's lowest bit in the pack's number, and its bits.
pub const PACKS: [&[(u32, u32)]; 20] = [
    &[(16, 16), (0, 16)],
    &[(30, 2), (28, 2), (27, 1)],
    &[(16, 16), (0, 16)],
    &[(30, 2), (8, 16), (0, 8)],
    &[(16, 16), (0, 16)],
    &[(29, 3), (24, 5), (23, 1), (8, 15), (0, 8)],
    &[(31, 1), (24, 7), (16, 8), (12, 4)],
    &[(30, 2), (24, 4), (16, 1)],
    &[(0, 32)],
    &[(16, 16), (0, 16)],
    &[(31, 1), (28, 3), (16, 12), (0, 16)],
    &[(0, 32)],
    &[(0, 32)],
    &[(16, 16)],
    &[(16, 16)],
    &[(0, 32)],
    &[(0, 32)],
    &[(31, 1), (0, 16)],
    &[(0, 32)],
    &[(24, 2)],
];

/// A Canon pack: its number, then its fields in their bits, all other bits 0.
fn pack(id: u64, fields: &[u64]) -> Result<Vec<u8>, NoFit> {
    let places = usize::try_from(id).ok().and_then(|id| PACKS.get(id.checked_sub(1)?)).ok_or(NoFit)?;
    if fields.len() != places.len() || places.iter().zip(fields).any(|((_, bits), field)| *field >= 1 << bits) {
        return Err(NoFit);
    }
    let whole: u64 = places.iter().zip(fields).map(|((shift, _), field)| field << shift).sum();
    Ok([&[id as u8][..], &big_endian(whole, 4)].concat())
}

/// The fields that a list has, if it is one of numbers.
fn fields_of(list: &str) -> Option<Vec<u64>> {
    if list == "-" { Some(Vec::new()) } else { list.split(',').map(digits).collect() }
}

/// A whole run in shortest form.
fn rewritten(bytes: &[u8]) -> Result<Vec<u8>, NoFit> {
    let klv = |record: crate::words::Record| {
        let value = &bytes[record.value as usize..record.end() as usize];
        klv(&record.label, shortest(record.length), value)
    };
    Ok(run_records(bytes).into_iter().map(klv).collect::<Result<Vec<_>, _>>()?.concat())
}

/// Whether the published readers read the bytes that a word wrote as what was given: of a pack, as a pack with the same fields and
/// all other bits set, which are 0 in it.
fn reads_back(case: &Case, bytes: &[u8]) -> bool {
    let mut rest = bytes;
    match case.word {
        "putlength" => read_ber(&mut rest).unwrap() == Some(case.numbers[0]) && rest.is_empty(),
        "putklv" => klvs(bytes).map(|(label, value)| (&label[..], value)).eq([(&case.other[..], &case.bytes[..])]),
        "putitem" => reach::items(bytes, false).eq([(case.numbers[0] as u16, &case.bytes[..])]),
        "putprimer" => {
            let last = |tag: &u16| case.bytes.chunks(18).rfind(|entry| entry[..2] == tag.to_be_bytes()).map(|entry| entry[2..].to_vec());
            let read = reach::primer(bytes);
            case.bytes.chunks(18).all(|entry| read.contains_key(&u16::from_be_bytes([entry[0], entry[1]])))
                && read.iter().all(|(tag, label)| last(tag) == Some(label.to_vec()))
        }
        "rewrite" => {
            let of = |run: &[u8]| klvs(run).map(|(label, value)| (*label, value.to_vec())).collect::<Vec<_>>();
            let records = run_records(&case.bytes);
            let shortest = records.iter().all(|record| is_shortest(field(&case.bytes, record), record.length));
            let end = records.last().map_or(0, |last| last.end() as usize);
            of(bytes) == of(&case.bytes) && (bytes == &case.bytes[..end]) == shortest
        }
        _ => {
            let fields = PACKS[case.numbers[0] as usize - 1].iter();
            let others = !fields.map(|(shift, bits)| ((1u64 << bits) - 1) << shift).sum::<u64>() as u32;
            let number = u32::from_be_bytes(bytes[1..].try_into().expect("four bytes behind the id"));
            let all = [&bytes[..1], &(number | others).to_be_bytes()].concat();
            number & others == 0 && read_pack(bytes) == read_pack(&all)
        }
    }
}

/// What the published reader answers for a pack.
fn read_pack(pack: &[u8]) -> serde_json::Value {
    canon::packs(&[&[1], pack].concat())
}

#[cfg(test)]
mod tests {
    use super::*;
    use crate::asked::tests::shows;
    use crate::cases;
    use crate::cases::random::Random;
    use crate::line::parse;

    #[test]
    fn lengths() {
        let zeros = "00".repeat(8);
        for (case, right) in [
            ("0 1 9", "00"),
            ("127 1 1", "7f"),
            ("128 2 2", "8180"),
            ("256 3 9", "820100"),
            ("72057594037927936 9 9", "880100000000000000"),
            ("5 3 3", "820005"),
            ("0 9 9", &format!("88{zeros}")),
            ("128 1 9", "refused 15"),
            ("0 0 0", "refused 15"),
            ("0 10 0", "refused 15"),
            ("5 3 2", "refused 3 3"),
            ("18446744073709551615 8 9", "refused 15"),
        ] {
            shows(&format!("putlength {case}"), right);
        }
        for (number, size) in [("0", "1"), ("127", "1"), ("128", "2"), ("256", "3"), ("72057594037927935", "8"), ("72057594037927936", "9")]
        {
            shows(&format!("shortest {number}"), size);
        }
    }

    #[test]
    fn klvs_items_and_primers() {
        let second = "060e2b340101010e0e15000100010000";
        shows("putklv 1 19 K aabb", "K02aabb");
        shows("putklv 1 18 K aabb", "refused 3 19");
        shows("putklv 0 18 K aabb", "refused 15");
        shows(&format!("rewrite 99 K80{second}8101cc"), &format!("K00{second}01cc"));
        shows(&format!("rewrite 99 K00{second}01cc"), &format!("K00{second}01cc"));
        shows("rewrite 0 00", "-");
        shows("putitem 15370 6 aabb", "3c0a0002aabb");
        shows("putitem 65536 0 -", "refused 15");
        let entries = format!("3c0aK0102{second}3c0a{second}");
        shows(&format!("putprimer 62 {entries}"), &format!("0000000300000012{entries}"));
        shows("putprimer 7 -", "refused 3 8");
        shows("putprimer 99 00", "?");
    }

    #[test]
    fn packs() {
        for (case, right) in [
            ("6 5 3,31,1,5600,128", "067f95e080"),
            ("11 5 1,2,291,4", "0ba1230004"),
            ("2 5 1,3,1", "0278000000"),
            ("18 5 1,32769", "1280008001"),
            ("2 5 4,0,0", "refused 15"),
            ("0 5 0", "refused 15"),
            ("21 5 0", "refused 15"),
            ("2 4 1,3,1", "refused 3 5"),
            ("2 5 1,3", "refused 15"),
            ("2 5 -", "refused 15"),
            ("2 5 1,a,1", "?"),
        ] {
            shows(&format!("putpack {case}"), right);
        }
    }

    #[test]
    fn the_published_readers_read_what_was_written() {
        for word in ["putlength", "putklv", "putitem", "putprimer", "putpack", "rewrite"] {
            let mut good = 0;
            for index in 0..3000 {
                let case = parse(&cases::case(word, 9, index)).unwrap();
                if let Some(Ok(bytes)) = written(&case) {
                    assert!(reads_back(&case, &bytes), "{}", case.line());
                    good += 1;
                }
            }
            assert!(good > 1000, "{word} {good}");
        }
    }

    #[test]
    fn the_published_reader_goes_by_the_fields_alone() {
        let mut random = Random::of("packs", 10, 0);
        for turn in 0..40_000 {
            let (id, whole) = (1 + turn % 20, random.draw() as u32);
            let fields: Vec<u64> = PACKS[id - 1].iter().map(|(shift, bits)| (whole as u64 >> shift) & ((1 << bits) - 1)).collect();
            let written = pack(id as u64, &fields).unwrap();
            assert_eq!(read_pack(&written), read_pack(&[&[id as u8][..], &whole.to_be_bytes()].concat()), "{id} {whole:08x}");
        }
    }
}
