//! `outline`: what a file is made of (docs/RULES.md, "L4. An outline").

use brinethimble::{Refusal, outline_into};

use crate::text::Text;

/// Room that holds the outline of every case: six bytes for each of the at most 32,767 of a case.
const MOST: usize = 6 * 32_767;

/// `outline`: its text, with `;` for each line's end.
pub fn outline(out: &mut Text, s: &[u8], end: usize, depth: usize, room: usize) -> Result<(), Refusal> {
    let mut room = vec![0; room.min(MOST)];
    match outline_into(s, end, depth, &mut room)? {
        "" => out.put("-"),
        text => out.put(&text.replace('\n', ";")),
    };
    Ok(())
}
