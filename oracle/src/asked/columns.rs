//! L12: columns instead of rows. One column of all starts, 6 bytes for each entry of room, behind it one of the rest, 10 bytes
//! each, and last what is left of the buffer.

use super::put_written;
use crate::line::{Case, Field, Word};

pub const WORDS: &[Word] = &[("turn", &[Field::Coding, Field::Room, Field::Bytes])];

/// The answer to a case: rows turned into columns or columns into rows.
pub fn put(out: &mut String, case: &Case) {
    let turned = if case.numbers[0] == 1 { columns_of(&case.bytes) } else { rows_of(&case.bytes) };
    put_written(out, &turned, case.numbers[1]);
}

/// The columns of rows.
pub fn columns_of(rows: &[u8]) -> Vec<u8> {
    let entries = rows.chunks_exact(16);
    let tail = entries.remainder();
    let starts = entries.clone().flat_map(|entry| &entry[..6]);
    let rests = entries.flat_map(|entry| &entry[6..]);
    starts.chain(rests).chain(tail).copied().collect()
}

/// The rows of columns.
fn rows_of(columns: &[u8]) -> Vec<u8> {
    let room = columns.len() / 16;
    let (starts, behind) = columns.split_at(6 * room);
    let (rests, tail) = behind.split_at(10 * room);
    let entries = starts.chunks(6).zip(rests.chunks(10)).flat_map(|(start, rest)| start.iter().chain(rest));
    entries.chain(tail).copied().collect()
}

#[cfg(test)]
mod tests {
    use super::*;
    use crate::asked::tests::shows;
    use crate::cases;
    use crate::line::parse;

    const ROWS: &str = "0000000000011000000000000000000200000000001420000000000000000000";
    const COLUMNS: &str = "0000000000010000000000141000000000000000000220000000000000000000";

    #[test]
    fn rows_become_columns_and_columns_rows() {
        shows(&format!("turn 1 33 {ROWS}77"), &format!("{COLUMNS}77"));
        shows(&format!("turn 0 33 {COLUMNS}77"), &format!("{ROWS}77"));
        shows(&format!("turn 1 32 {ROWS}77"), "refused 3 33");
        shows("turn 1 0 -", "-");
    }

    #[test]
    fn calls_answer_as_on_rows() {
        shows("index 1 32 a:1:1:0:2,a:20:2:0:0,f:19", &format!("ok;ok;0:1:1:0:2;|{COLUMNS}"));
        shows("index 1 33 a:1:1:0:2", "ok;|000000000001000000000000100000000000000000020000000000000000000000");
    }

    #[test]
    fn back_and_forth_is_the_same() {
        for index in 0..3000 {
            let bytes = parse(&cases::case("turn", 12, index)).unwrap().bytes;
            assert_eq!(rows_of(&columns_of(&bytes)), bytes);
            assert_eq!(columns_of(&rows_of(&bytes)), bytes);
        }
    }
}
