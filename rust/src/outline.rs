//! The outline of a file: what it is made of, without its values.
//!
//! Each item is a line: its level, its label or tag in hex, its length. Its own items come after it. Sets open, and so do the runs
//! in them, down to a depth; all other values are leaves, and two files that differ only in leaf values of the first have the same
//! outline.
//!
//! ```
//! let set = b"\x06\x0e\x2b\x34\x02\x53\x01\x01\x0d\x01\x01\x01\x01\x01\x2f\x00";
//! let mut file = [&set[..], &[12], b"\x3c\x0a\x00\x02ab", b"\x01\x02\x00\x00", b"xy"].concat();
//! let (mut room, mut other) = ([0; 100], [0; 100]);
//! let outline = brinethimble::outline_into(&file, file.len(), 2, &mut room)?;
//! assert_eq!(outline, "1 060e2b34025301010d01010101012f00 12\n2 3c0a 2\n2 0102 0\n2 rest 2\n");
//!
//! file[21..23].copy_from_slice(b"cd"); // the value of 3c0a
//! assert_eq!(brinethimble::outline_into(&file, file.len(), 2, &mut other)?, outline);
//! # Ok::<(), brinethimble::Refusal>(())
//! ```

use crate::boundary;
use crate::record::Refusal;

/// Puts the outline of a file with an end, to a depth of 1 to 8, at the start of lent room, and answers the text there. Bytes past
/// it keep their contents.
///
/// ```
/// use brinethimble::{Refusal, outline_into};
///
/// let label = b"\x06\x0e\x2b\x34\x01\x01\x01\x0d\x0e\x15\x00\x01\x00\x01\x00\x00";
/// let file = [&label[..], &[2, 0xaa, 0xbb]].concat();
/// let mut room = [b'-'; 40];
/// assert_eq!(outline_into(&file, 19, 8, &mut room), Ok("1 060e2b340101010d0e15000100010000 2\n"));
/// assert_eq!(outline_into(&file, 19, 8, &mut room[..36]), Err(Refusal::NoRoom { needed: 37 }));
/// assert_eq!(outline_into(&file, 19, 9, &mut []), Err(Refusal::Depth));
/// assert_eq!(outline_into(&file, 20, 9, &mut []), Err(Refusal::EndPastBuffer));
/// ```
pub fn outline_into<'a>(file: &[u8], end: usize, depth: usize, room: &'a mut [u8]) -> Result<&'a str, Refusal> {
    let length = boundary::outline(file, end, depth, room)?;
    Ok(str::from_utf8(&room[..length]).expect("digits, letters and spaces"))
}

#[cfg(test)]
mod tests {
    use super::*;

    /// A 43h set with an 88h item, a run in it, a 53h set in that with an empty item, and a byte behind the run's last item.
    const NESTED: &[u8] = b"\x06\x0e\x2b\x34\x02\x43\x01\x01\x0d\x01\x03\x01\x04\x01\x03\x01\x19\x88\x00\x16\
        \x06\x0e\x2b\x34\x02\x53\x01\x01\x0d\x01\x01\x01\x01\x01\x2f\x00\x04\x82\x00\x00\x00\x00";

    /// The lines of an outline.
    fn lines(file: &[u8], depth: usize) -> Vec<String> {
        let mut room = vec![0; 6 * file.len()];
        outline_into(file, file.len(), depth, &mut room).unwrap().lines().map(String::from).collect()
    }

    #[test]
    fn a_run_in_a_set_opens_as_deep_as_is_asked() {
        let all = ["1 060e2b34024301010d01030104010301 25", "2 88 22", "3 060e2b34025301010d01010101012f00 4", "4 8200 0", "3 rest 1"];
        assert_eq!(lines(NESTED, 1), all[..1]);
        assert_eq!(lines(NESTED, 2), all[..2]);
        assert_eq!(lines(NESTED, 3), [all[0], all[1], all[2], all[4]]);
        assert_eq!(lines(NESTED, 4), all);
        assert_eq!(lines(NESTED, 8), all);
    }

    #[test]
    fn an_empty_file_has_an_empty_outline() {
        assert_eq!(outline_into(&[], 0, 8, &mut []), Ok(""));
        assert_eq!(outline_into(&[6; 40], 40, 8, &mut []), Ok(""));
    }

    #[test]
    fn a_refusal_leaves_the_room() {
        let mut room = [7; 101];
        for (end, depth, room_len, refusal) in [
            (42, 4, 100, Refusal::NoRoom { needed: 101 }),
            (42, 1, 0, Refusal::NoRoom { needed: 38 }),
            (43, 9, 0, Refusal::EndPastBuffer),
            (42, 9, 0, Refusal::Depth),
            (42, 0, 101, Refusal::Depth),
            (42, usize::MAX, 101, Refusal::Depth),
        ] {
            assert_eq!(outline_into(NESTED, end, depth, &mut room[..room_len]), Err(refusal));
        }
        assert_eq!(room, [7; 101]);
        assert!(outline_into(NESTED, 42, 4, &mut room).is_ok());
    }

    #[test]
    fn sets_in_sets_open_to_level_8_and_no_deeper() {
        let label = |coding| [0x06, 0x0e, 0x2b, 0x34, 2, coding, 1, 1, 1, 1, 1, 1, 1, 1, 1, 1];
        let mut file = Vec::new();
        for _ in 0..6 {
            let item = [&[0x88][..], &(file.len() as u16).to_be_bytes(), &file].concat();
            file = [&label(0x43)[..], &[0x82], &(item.len() as u16).to_be_bytes(), &item].concat();
        }
        for depth in 1..=8 {
            assert_eq!(lines(&file, depth).len(), depth);
        }
    }
}
