//! `fed` and `fedend`: a walk that is fed in pieces (docs/RULES.md, "L2. A walker fed from the socket").

use brinethimble::{Ending, FedRecord, Feeding, Refusal};

use crate::text::Text;

/// The pieces that a cut makes of bytes: as long as its numbers say, in turn and again from the first; all 0 is one piece.
pub fn pieces<'a>(cut: &[u64], bytes: &'a [u8]) -> Vec<&'a [u8]> {
    if cut.iter().all(|size| *size == 0) {
        return vec![bytes];
    }
    let (mut pieces, mut rest) = (Vec::new(), bytes);
    for size in cut.iter().cycle() {
        if rest.is_empty() {
            break;
        }
        let (piece, left) = rest.split_at(rest.len().min(*size as usize));
        pieces.push(piece);
        rest = left;
    }
    pieces
}

/// The records of a piece, put into lent room that holds three.
fn filled(walk: &mut Feeding, piece: &[u8]) -> Result<Vec<FedRecord>, Refusal> {
    let (mut list, mut rest) = (Vec::new(), piece);
    loop {
        let (mut room, mut labels) = ([[0; 6]; 3], [[0; 16]; 4]);
        let (put, taken) = walk.feed_into(rest, &mut room, &mut labels)?;
        list.extend(room.iter().zip(labels).take(put).map(|(places, label)| {
            let [place, value_place, value_length, length_bytes, shortest, passed] = places.map(|place| place as usize);
            FedRecord { place, label, value_place, value_length, length_bytes, shortest: shortest == 1, passed }
        }));
        rest = &rest[taken..];
        if put < room.len() {
            return Ok(list);
        }
    }
}

/// `fed`, `fedend`: the records, and what closing says; a refused piece ends it. Records one by one and many a call must be the same.
pub fn fed(out: &mut Text, mut walk: Feeding, cut: &[u64], bytes: &[u8]) {
    let mut many = walk.clone();
    for piece in pieces(cut, bytes) {
        let list = walk.piece(piece).map(Iterator::collect::<Vec<_>>);
        assert_eq!(list, filled(&mut many, piece));
        match list {
            Ok(list) => list.iter().for_each(|record| put_record(out, record)),
            Err(refusal) => {
                out.put("|refused ").number(refusal.number().into());
                return;
            }
        }
    }
    assert_eq!(many.close(), walk.clone().close());
    match walk.close() {
        Ok(Ending::Clean) => out.put("|clean"),
        Ok(Ending::Again { from, rest }) => out.put("|again ").number(from as u64).put(" ").number(rest as u64),
        Err(refusal) => out.put("|refused ").number(refusal.number().into()),
    };
}

/// Puts a record with its length field and the bytes passed before it.
fn put_record(out: &mut Text, record: &FedRecord) {
    out.number(record.place as u64).put(",").hex(&record.label).put(",").number(record.value_place as u64);
    out.put(",").number(record.value_length as u64).put(",").number(record.length_bytes as u64);
    out.put(",").number(record.shortest.into()).put(",").number(record.passed as u64).put(";");
}
