//! The writers' words (docs/RULES.md, "L8. Writers"): what was written, in hex. All but a rewritten run are written at a place of
//! painted room, and an answer says so where a byte of it was written elsewhere, or on a refusal.

use brinethimble::{Refusal, write};

use crate::text::Text;

/// Room that holds what every case writes, of at most 32,767 bytes and a head.
const MOST: usize = 1 << 16;
/// The place at which it is written, and what the room is painted with.
const PLACE: usize = 7;
const PAINT: u8 = 0xa5;

/// `shortest`: how many bytes the shortest form takes.
pub fn shortest(out: &mut Text, n: usize) {
    out.number(write::shortest(n as u64) as u64);
}

/// `putlength`.
pub fn length(out: &mut Text, n: usize, size: usize, room: usize) -> Result<(), Refusal> {
    put(out, room, PLACE, |room| write::put_length(n as u64, size, room, PLACE))
}

/// `putklv`.
pub fn klv(out: &mut Text, label: &[u8; 16], size: usize, value: &[u8], room: usize) -> Result<(), Refusal> {
    put(out, room, PLACE, |room| write::put_klv(label, size, value, room, PLACE))
}

/// `putitem`.
pub fn item(out: &mut Text, tag: usize, value: &[u8], room: usize) -> Result<(), Refusal> {
    put(out, room, PLACE, |room| write::put_item(tag as u64, value, room, PLACE))
}

/// `putprimer`: its entries are 18 bytes each, or it is no case.
pub fn primer(out: &mut Text, entries: &[u8], room: usize) -> Result<(), Refusal> {
    let (entries, rest) = entries.as_chunks::<18>();
    if !rest.is_empty() {
        out.put("?");
        return Ok(());
    }
    let tags: Vec<u64> = entries.iter().map(|entry| u64::from(u16::from_be_bytes([entry[0], entry[1]]))).collect();
    let labels: Vec<[u8; 16]> = entries.iter().map(|entry| entry[2..].try_into().expect("16 bytes of label")).collect();
    put(out, room, PLACE, |room| write::put_primer(&tags, &labels, room, PLACE))
}

/// `putpack`.
pub fn pack(out: &mut Text, id: usize, fields: &[u64], room: usize) -> Result<(), Refusal> {
    put(out, room, PLACE, |room| write::put_pack(id as u64, fields, room, PLACE))
}

/// `rewrite`.
pub fn rewrite(out: &mut Text, run: &[u8], room: usize) -> Result<(), Refusal> {
    put(out, room, 0, |room| write::rewrite(run, room).map(<[u8]>::len))
}

/// Puts what a writer writes at a place of lent room.
fn put(out: &mut Text, room: usize, place: usize, write: impl FnOnce(&mut [u8]) -> Result<usize, Refusal>) -> Result<(), Refusal> {
    let mut lent = vec![PAINT; place + room.min(MOST)];
    let answer = write(&mut lent);
    let end = answer.unwrap_or(place);
    if lent[..place].iter().chain(&lent[end..]).any(|byte| *byte != PAINT) {
        out.put("written elsewhere");
        return Ok(());
    }
    out.bytes(&lent[place..answer?]);
    Ok(())
}
