//! L7: a strict gate. It accepts the files where records follow each other from 0 to the end with no byte passed and no
//! length that starts with 80h.

use std::fmt::Write;

use crate::line::{Case, Field, Word};
use crate::mxf::{KEY_START, read_ber};

pub const WORDS: &[Word] = &[("strict", &[Field::End, Field::Bytes])];

/// The answer to a case.
pub fn put(out: &mut String, case: &Case) {
    match refusal(&case.bytes[..case.numbers[0] as usize]) {
        Some((number, place)) => write!(out, "refused {number} {place}").unwrap(),
        None => out.push_str("accepted"),
    }
}

/// The refusal of a file that ends where it ends, with the place of the first step where it breaks.
fn refusal(file: &[u8]) -> Option<(u64, usize)> {
    let mut p = 0;
    while p < file.len() {
        match size_of_record(&file[p..]) {
            Ok(size) => p += size,
            Err(number) => return Some((number, p)),
        }
    }
    None
}

/// The size of the record that the rest of a file begins with, or the number of its refusal.
fn size_of_record(rest: &[u8]) -> Result<usize, u64> {
    if rest.len() < 17 {
        return Err(10);
    }
    if rest[..4] != KEY_START.to_be_bytes() {
        return Err(11);
    }
    match rest[16] {
        0x89.. => return Err(12),
        0x80 => return Err(13),
        _ => {}
    }
    let mut after = &rest[16..];
    let length = read_ber(&mut after).map_err(|_| 14u64)?.expect("a length below 89h");
    if length > after.len() as u64 {
        return Err(14);
    }
    Ok(rest.len() - after.len() + length as usize)
}

#[cfg(test)]
mod tests {
    use crate::answer::answer;
    use crate::asked::forms::field;
    use crate::asked::tests::{KEY, shows};
    use crate::cases;
    use crate::line::parse;
    use crate::words::walk::records;

    #[test]
    fn each_refusal_and_its_place() {
        let cases = [
            ("n -", "accepted"),
            ("n K00", "accepted"),
            ("17 K0078", "accepted"),
            ("n 00K00", "refused 11 0"),
            ("n K", "refused 10 0"),
            ("n 0000000000000000000000000000000000", "refused 11 0"),
            ("n K000000000000", "refused 10 17"),
            ("n K89", "refused 12 0"),
            ("n K80", "refused 13 0"),
            ("n K8100", "accepted"),
            ("17 K8100", "refused 14 0"),
            ("n K01", "refused 14 0"),
            ("n K8201", "refused 14 0"),
            ("n K88ffffffffffffffff", "refused 14 0"),
            ("n K00K80", "refused 13 17"),
            ("n 00000000000000000000000000000000", "refused 10 0"),
            ("17 00000000000000000000000000000000", "refused 1"),
        ];
        for (case, right) in cases {
            shows(&format!("strict {case}"), right);
        }
    }

    /// Whether the published walk passes no byte of a file, and no length is 80h.
    fn followed(file: &[u8]) -> bool {
        let records = records(file, file.len() as u64);
        let mut at = 0;
        records.iter().all(|record| {
            let follows = record.place == at && field(file, record) != [0x80];
            at = record.end();
            follows
        }) && at == file.len() as u64
    }

    #[test]
    fn accepted_are_the_files_that_the_walk_takes_whole() {
        let mut accepted = 0;
        for index in 0..20_000 {
            let case = parse(&cases::case("strict", 5, index)).unwrap();
            let text = answer(&case.line());
            if text != "refused 1" {
                assert_eq!(text == "accepted", followed(&case.bytes[..case.numbers[0] as usize]), "{}", case.line());
                accepted += (text == "accepted") as u64;
            }
        }
        assert!(accepted > 2000);
        assert_eq!(answer(&format!("strict n {KEY}00")), "accepted");
    }
}
