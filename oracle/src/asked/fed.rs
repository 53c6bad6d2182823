//! L2: a walker fed from the socket. Whatever the cutting, its list is the arriving list of what is in, and the finished list
//! once a known end is reached.

use std::fmt::Write;

use super::passed::put_records;
use crate::line::{Case, Field, Word};
use crate::plain::{Length, arriving, length};

pub const WORDS: &[Word] = &[("fed", &[Field::Number, Field::Cut, Field::Bytes]), ("fedend", &[Field::End, Field::Cut, Field::Bytes])];

/// The answer to a case.
pub fn put(out: &mut String, case: &Case) {
    let most = case.numbers[0];
    let (taken, refused) = taken(case, most);
    let (records, at) = arriving(taken, most);
    put_records(out, taken, &records);
    out.push('|');
    match refused {
        true => out.push_str("refused 2"),
        false if case.word == "fedend" && (taken.len() as u64) < most => out.push_str("refused 5"),
        false => put_ending(out, taken, most, at),
    }
}

/// The bytes that a case's pieces bring in, and whether a piece was refused: one that would pass what is the most.
pub fn taken(case: &Case, most: u64) -> (&[u8], bool) {
    let mut taken = 0;
    for piece in pieces(&case.list, case.bytes.len()) {
        if (taken + piece) as u64 > most {
            return (&case.bytes[..taken], true);
        }
        taken += piece;
    }
    (&case.bytes, false)
}

/// The sizes of the pieces that a cut's digits make of so many bytes, in turn and again from the first; all 0 is one piece.
pub fn pieces(cut: &str, count: usize) -> Vec<usize> {
    let sizes: Vec<usize> = cut.bytes().map(|digit| (digit - b'0') as usize).collect();
    if sizes.iter().all(|size| *size == 0) {
        return vec![count];
    }
    let mut left = count;
    let piece = |size: usize| {
        let piece = size.min(left);
        left -= piece;
        piece
    };
    let enough = count * sizes.len();
    let mut all: Vec<usize> = sizes.into_iter().cycle().take(enough).map(piece).collect();
    all.truncate(all.iter().rposition(|piece| *piece > 0).map_or(0, |last| last + 1));
    all
}

/// Puts what closing says of bytes whose walk waits at a place: clean, or where the last key's value isn't complete and fits
/// the limit, the value's start and the rest from there.
pub fn put_ending(out: &mut String, bytes: &[u8], limit: u64, at: u64) {
    match waited_value(bytes, limit, at as usize) {
        Some(v) => write!(out, "again {v} {}", bytes.len() - v).unwrap(),
        None => out.push_str("clean"),
    }
}

/// The start of the value that the key at a place says, if it isn't complete and fits the limit.
fn waited_value(bytes: &[u8], limit: u64, at: usize) -> Option<usize> {
    let key = bytes.get(at..).filter(|rest| rest.len() >= 17 && rest.starts_with(&crate::mxf::KEY_START.to_be_bytes()))?;
    let Length::Is(number, size) = length(&key[16..]) else { return None };
    let end = (at + 16 + size) as u128 + number as u128;
    (end > bytes.len() as u128 && end <= limit as u128).then_some(at + 16 + size)
}

#[cfg(test)]
mod tests {
    use super::*;
    use crate::asked::tests::shows;
    use crate::cases;
    use crate::line::parse;
    use crate::words::Record;
    use crate::words::walk::records;

    #[test]
    fn what_closing_says() {
        shows("fed 100 9 K05aabb", "|again 17 2");
        shows("fed 22 9 K05aabb", "|again 17 2");
        shows("fed 21 3 K05aabb", "|clean");
        shows("fedend 22 1 K05aabb", "|refused 5");
        shows("fedend 19 1 K05aabb", "|clean");
        shows("fedend 22 7 K05aabbccddee", "0,K,17,5,1,1,0;|clean");
        shows("fed 100 9 K820020000000K00", "|again 19 20");
        shows("fed 99 0 K05", "|again 17 0");
        shows("fed 99 0 K82", "|clean");
    }

    #[test]
    fn records_in_any_cutting() {
        for cut in ["0", "1", "9", "352", "010"] {
            shows(&format!("fed 100 {cut} K02aabb0000000000"), "0,K,17,2,1,1,0;|clean");
            shows(&format!("fed 100 {cut} 060e2bK00"), "3,K,20,0,1,1,3;|clean");
        }
    }

    #[test]
    fn a_piece_past_the_most_is_refused_whole() {
        shows("fed 10 0 0000000000000000000000", "|refused 2");
        shows("fed 17 9 K0000", "|refused 2");
        shows("fed 17 1 K0000", "0,K,17,0,1,1,0;|refused 2");
        shows("fed 0 0 -", "|clean");
        shows("fedend 0 3 -", "|clean");
        shows("fedend 0 3 00", "|refused 2");
    }

    #[test]
    fn pieces_are_as_long_as_the_digits_say() {
        assert_eq!(pieces("03", 7), [0, 3, 0, 3, 0, 1]);
        assert_eq!(pieces("00", 7), [7]);
        assert_eq!(pieces("9", 0), [0; 0]);
        assert_eq!(pieces("12", 3), [1, 2]);
    }

    /// The engine as 02 says it: a call takes the piece up to the byte that completes a record, else all of it.
    #[test]
    fn a_record_is_answered_at_the_byte_that_completes_it() {
        for index in 0..1500 {
            let case = parse(&cases::case("fed", 6, index)).unwrap();
            let limit = case.numbers[0];
            let bytes = &case.bytes[..case.bytes.len().min(limit as usize).min(200)];
            let mut answered: Vec<Record> = Vec::new();
            for count in 0..=bytes.len() {
                let list = arriving(&bytes[..count], limit).0;
                assert!(list.len() <= answered.len() + 1 && list.starts_with(&answered), "{}", case.line());
                assert!(list.len() == answered.len() || list.last().unwrap().end() == count as u64, "{}", case.line());
                answered = list;
            }
        }
    }

    /// The finished list is out where closing is clean; else the new walk's list, moved, is the rest of it.
    #[test]
    fn closing_tells_what_the_finished_list_lacks() {
        for index in 0..20_000 {
            let case = parse(&cases::case("fed", 7, index)).unwrap();
            let limit = case.numbers[0];
            let (bytes, _) = taken(&case, limit);
            let (mut list, at) = arriving(bytes, limit);
            if let Some(v) = waited_value(bytes, limit, at as usize) {
                let moved = |record: Record| Record { place: record.place + v as u64, value: record.value + v as u64, ..record };
                list.extend(records(&bytes[v..], (bytes.len() - v) as u64).into_iter().map(moved));
            }
            assert_eq!(list, records(bytes, bytes.len() as u64), "{}", case.line());
        }
    }
}
