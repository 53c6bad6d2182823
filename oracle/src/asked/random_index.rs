//! L6: the random index pack of ST 377-1, found from the file's last four bytes: pairs of a body stream's number and an
//! offset, then the pack's whole size.

use std::fmt::Write;

use crate::line::{Case, Field, Word};
use crate::mxf::{PARTITION_PREFIX, read_ber, same_ul};

pub const WORDS: &[Word] = &[("rip", &[Field::Bytes])];

/// The standard's key.
pub const KEY: [u8; 16] = hex_literal::hex!("060e2b34 02050101 0d010201 01110100");

/// The fewest bytes of a pack: a key, a length of 1 byte and a size.
const LEAST: u64 = 21;

/// The answer to a case.
pub fn put(out: &mut String, case: &Case) {
    let file = &case.bytes[..];
    match pairs(file) {
        Ok([]) => out.push('-'),
        Ok(pairs) => pairs.chunks(12).for_each(|pair| put_pair(out, file, pair)),
        Err(number) => write!(out, "refused {number}").unwrap(),
    }
}

/// The bytes of a file's pairs, or the number of its refusal.
fn pairs(file: &[u8]) -> Result<&[u8], u64> {
    let count = file.len() as u64;
    if count < LEAST {
        return Err(7);
    }
    let size = number(&file[file.len() - 4..]);
    if size < LEAST || size > count {
        return Err(7);
    }
    let pack = &file[(count - size) as usize..];
    if !same_ul(&pack[..16], &KEY) {
        return Err(8);
    }
    let mut value = &pack[16..];
    let length = read_ber(&mut value).ok().flatten().ok_or(9u64)?;
    if length % 12 != 4 || length != value.len() as u64 {
        return Err(9);
    }
    Ok(&value[..value.len() - 4])
}

/// Puts a pair, and whether a partition pack's label stands at its offset.
fn put_pair(out: &mut String, file: &[u8], pair: &[u8]) {
    let (stream, offset) = (number(&pair[..4]), number(&pair[4..]));
    write!(out, "{stream},{offset},{};", is_partition(file, offset) as u8).unwrap();
}

/// Whether the 13 bytes of a partition pack's label and a kind of 2, 3 or 4 stand at a place, all inside the file.
fn is_partition(file: &[u8], place: u64) -> bool {
    let label = usize::try_from(place).ok().and_then(|place| file.get(place..)?.first_chunk::<14>());
    label.is_some_and(|label| label[..13] == PARTITION_PREFIX && matches!(label[13], 2..=4))
}

/// The number that bytes are, most significant first.
fn number(bytes: &[u8]) -> u64 {
    bytes.iter().fold(0, |number, byte| number << 8 | *byte as u64)
}

#[cfg(test)]
mod tests {
    use std::path::Path;

    use super::*;
    use crate::asked::tests::shows;

    const RIP: &str = "060e2b34020501010d01020101110100";
    const HEADER: &str = "060e2b34020501010d01020101020400";

    #[test]
    fn packs_that_are_accepted() {
        shows(&format!("rip {RIP}0400000015"), "-");
        shows(&format!("rip {}0400000015", RIP.replace("02050101", "02050109")), "-");
        let pairs = "00000000000000000000000000000001ffffffffffffffff";
        shows(&format!("rip {HEADER}00{RIP}1c{pairs}0000002d"), "0,0,1;1,18446744073709551615,0;");
        shows(&format!("rip {RIP}830000040000001800"), "refused 7");
        shows(&format!("rip {RIP}8300000400000018"), "-");
    }

    #[test]
    fn refusals_in_their_order() {
        let pairs = "00000000000000000000000000000001ffffffffffffffff";
        let with = |size: &str| format!("rip {HEADER}00{RIP}1c{pairs}{size}");
        for (case, right) in [
            (format!("rip {}", "00".repeat(20)), 7),
            (format!("rip {}", "00".repeat(21)), 7),
            (with("00000014"), 7),
            (with("000000ff"), 7),
            (with("0000002c"), 8),
            (with("0000002e"), 8),
            (format!("rip {}00000015", "00".repeat(17)), 8),
            (format!("rip {}0400000015", RIP.replace("110100", "110101")), 8),
            (format!("rip {RIP}8000000015"), 9),
            (format!("rip {RIP}050000000016"), 9),
            (format!("rip {RIP}8900000015"), 9),
            (format!("rip {RIP}8800000015"), 9),
            (format!("rip {RIP}040000000016"), 9),
        ] {
            shows(&case, &format!("refused {right}"));
        }
    }

    #[test]
    fn a_label_must_lie_inside_the_file() {
        let pack = |offset: u64| format!("{RIP}10000000{:02x}{offset:016x}00000021", 0);
        for (offset, right) in [(0, "0,0,0;"), (1, "0,1,0;"), (20, "0,20,0;"), (u64::MAX - 13, "0,18446744073709551602,0;")] {
            shows(&format!("rip {}", pack(offset)), right);
        }
        shows(&format!("rip {}{}", &HEADER[..28], pack(0)), "0,0,1;");
        shows(&format!("rip {}{}", HEADER.replace("01020400", "01050400"), pack(0)), "0,0,0;");
    }

    #[test]
    fn packs_of_real_files() {
        let files = Path::new(env!("CARGO_MANIFEST_DIR")).join("../tests/files");
        for (name, first) in [("gst_m2v", "0,0,1;1,3646,1;0,9221,1;"), ("ff5_op1a_m2v_aud_tc", ""), ("ff9_anc_rdd18_n01", "")] {
            let file = std::fs::read(files.join(name).with_extension("mxf")).unwrap();
            let mut pairs = String::new();
            put(&mut pairs, &Case { bytes: file, ..Case::default() });
            assert!(pairs.starts_with(first) && pairs.matches(';').count() > 1, "{name} {pairs}");
            assert!(pairs.split_terminator(';').all(|pair| pair.ends_with(",1")), "{name} {pairs}");
        }
    }
}
