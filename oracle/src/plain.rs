//! No Rust to compare with: the rules (docs/RULES.md) read plainly. The arriving walk, and the finished walk that it speaks of, as its
//! sentences say them and as slowly as they say it.

use crate::words::{Record, put_number};

const START: [u8; 4] = [0x06, 0x0e, 0x2b, 0x34];

/// A length: its number and its bytes, or that it is none, or that bytes of it are missing.
#[derive(Clone, Copy, PartialEq, Eq, Debug)]
pub enum Length {
    Is(u64, usize),
    None,
    Cut,
}

/// The length that bytes begin with.
pub fn length(bytes: &[u8]) -> Length {
    let Some(first) = bytes.first() else { return Length::Cut };
    let more = match first {
        0..0x80 => return Length::Is(*first as u64, 1),
        0x80 => return Length::Is(0, 1),
        0x81..=0x88 => (first - 0x80) as usize,
        _ => return Length::None,
    };
    match bytes.get(1..1 + more) {
        Some(digits) => Length::Is(digits.iter().fold(0, |number, digit| number * 256 + *digit as u64), 1 + more),
        None => Length::Cut,
    }
}

/// Whether the key start stands at a place, wholly before an end.
fn starts(bytes: &[u8], place: usize, end: usize) -> bool {
    place + 4 <= end && bytes[place..place + 4] == START
}

/// The record with a label at `p`, a value at `v` and a length.
fn record(bytes: &[u8], p: usize, v: usize, length: u64) -> Record {
    Record { place: p as u64, label: bytes[p..p + 16].try_into().unwrap(), value: v as u64, length }
}

/// Where a search of the finished walk goes: to the first key from a place on, else to the end, if that isn't before it.
pub fn search(bytes: &[u8], from: usize, e: usize) -> usize {
    (from..e).find(|place| starts(bytes, *place, e)).unwrap_or(from.max(e))
}

/// A step of the finished walk from `p`: its record, or the cursor where the walk is over.
pub fn finished_step(bytes: &[u8], e: usize, mut p: usize) -> Result<Record, usize> {
    while p + 17 <= e {
        if !starts(bytes, p, bytes.len()) {
            p = search(bytes, p + 1, e);
            continue;
        }
        match length(&bytes[p + 16..]) {
            Length::Cut => break,
            Length::None => p = search(bytes, p + 17, e),
            Length::Is(number, size) => {
                let v = p + 16 + size;
                if number <= e.saturating_sub(v) as u64 {
                    return Ok(record(bytes, p, v, number));
                }
                p = search(bytes, v, e);
            }
        }
    }
    Err(p)
}

/// Where a search of the arriving walk goes: to the first key from a place on, else to the first place from which all bytes
/// are a beginning of one.
pub fn arriving_search(bytes: &[u8], from: usize) -> Result<usize, usize> {
    let e = bytes.len();
    let begun = || (from..=e).find(|place| START.starts_with(&bytes[*place..])).expect("the end at least");
    (from..e).find(|place| starts(bytes, *place, e)).ok_or_else(begun)
}

/// A step of the arriving walk from `p`: its record, or the place where it waits.
pub fn arriving_step(bytes: &[u8], limit: u64, mut p: usize) -> Result<Record, usize> {
    let e = bytes.len();
    loop {
        if p + 17 > e {
            return Err(p);
        }
        let from = if !starts(bytes, p, e) {
            p + 1
        } else {
            match length(&bytes[p + 16..]) {
                Length::Cut => return Err(p),
                Length::None => p + 17,
                Length::Is(number, size) => {
                    let v = p + 16 + size;
                    if number <= (e - v) as u64 {
                        return Ok(record(bytes, p, v, number));
                    }
                    if v as u128 + number as u128 <= limit as u128 {
                        return Err(p);
                    }
                    v
                }
            }
        };
        p = arriving_search(bytes, from)?;
    }
}

/// The records of a walk from 0 on by its step, and its last cursor.
fn walked(step: impl Fn(usize) -> Result<Record, usize>) -> (Vec<Record>, u64) {
    let mut records = Vec::new();
    let mut p = 0;
    loop {
        match step(p) {
            Ok(record) => {
                p = record.end() as usize;
                records.push(record);
            }
            Err(cursor) => return (records, cursor as u64),
        }
    }
}

/// The finished walk over bytes up to an end: its records, and its last cursor.
pub fn finished(bytes: &[u8], e: usize) -> (Vec<Record>, u64) {
    walked(|p| finished_step(bytes, e, p))
}

/// The arriving walk over bytes within a limit: its records, and the place where it waits.
pub fn arriving(bytes: &[u8], limit: u64) -> (Vec<Record>, u64) {
    walked(|p| arriving_step(bytes, limit, p))
}

/// `arrive`: the records of the arriving walk and the place where it waits, or refusal 2.
pub fn arrive(out: &mut String, bytes: &[u8], limit: u64) {
    if bytes.len() as u64 > limit {
        out.push_str("refused 2");
        return;
    }
    let (records, place) = arriving(bytes, limit);
    for record in records {
        record.put(out);
        out.push(';');
    }
    out.push('|');
    put_number(out, place);
}

#[cfg(test)]
mod tests {
    use super::*;
    use crate::cases;
    use crate::line::parse;
    use crate::words;

    #[test]
    fn the_plain_walk_is_the_published_walk() {
        for index in 0..20_000 {
            let case = parse(&cases::case("walk", 2, index)).unwrap();
            let end = case.numbers[0];
            if end > case.bytes.len() as u64 {
                continue;
            }
            let (records, cursor) = finished(&case.bytes, end as usize);
            let mut plain = String::new();
            for record in records {
                record.put(&mut plain);
                plain.push(';');
            }
            plain += &format!("|{cursor}");
            let mut published = String::new();
            words::walk::walk(&mut published, &case.bytes, end);
            assert_eq!(plain, published, "{}", case.line());
        }
    }

    #[test]
    fn the_numbers_on_both_sides() {
        assert_eq!(length(&[0x88, 255, 255, 255, 255, 255, 255, 255, 255]), Length::Is(u64::MAX, 9));
        let mut key = START.to_vec();
        key.resize(16, 0);
        assert_eq!(finished(&key, 16).0, []);
        key.push(1);
        assert_eq!(finished(&key, 17).0, []);
        assert_eq!(arriving(&key, 18), (vec![], 0));
        assert_eq!(arriving(&key, 17), (vec![], 17));
        key[16] = 0;
        assert_eq!(finished(&key, 17).0.len(), 1);
    }
}
