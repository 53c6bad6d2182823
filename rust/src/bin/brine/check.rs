//! `check`: the strict gate, over a file of any size. A fed walk gives the records; where they break off, the gate itself is asked about
//! the bytes there.

use brinethimble::{Feeding, Refusal, strict};

use crate::say::Out;
use crate::source::Source;
use crate::words::Asked;
use crate::{Done, Found, Trouble};

/// The most bytes of a label and a length.
const HEAD: usize = 25;

/// How far records have followed each other, and the first bytes from there on, as many of them as have come.
#[derive(Default)]
struct Gate {
    end: usize,
    head: Vec<u8>,
}

impl Gate {
    /// Takes bytes of a piece that starts at a place.
    fn take(&mut self, piece: &[u8], at: usize) {
        let from = self.end + self.head.len();
        let rest = piece.get(from.wrapping_sub(at)..).unwrap_or_default();
        self.head.extend(&rest[..rest.len().min(HEAD - self.head.len())]);
    }

    /// Records go on at a place.
    fn goes_on(&mut self, end: usize) {
        self.end = end;
        self.head.clear();
    }

    /// Why no record can start here, by its label and length alone.
    fn refusal(&self) -> Option<Refusal> {
        let place = self.end;
        match strict(&self.head, self.head.len()) {
            Err(Refusal::TooShort { place: 0 }) => Some(Refusal::TooShort { place }),
            Err(Refusal::NoKey { place: 0 }) => Some(Refusal::NoKey { place }),
            Err(Refusal::NoLength { place: 0 }) => Some(Refusal::NoLength { place }),
            Err(Refusal::Indefinite { place: 0 }) => Some(Refusal::Indefinite { place }),
            _ => None,
        }
    }
}

/// The refusal of a source, if it is refused. Reading stops where it is known.
pub fn refusal(source: &mut Source) -> Result<Option<Refusal>, Trouble> {
    let mut walk = source.length().map_or_else(|| Feeding::limit(usize::MAX), Feeding::end);
    let (mut gate, mut at) = (Gate::default(), 0);
    loop {
        let piece = source.piece(at)?;
        if piece.is_empty() {
            break;
        }
        gate.take(piece, at);
        if gate.head.len() == HEAD && gate.refusal().is_some() {
            return Ok(gate.refusal());
        }
        let fed = walk.feed(piece)?;
        if let Some(record) = fed.record {
            if record.place != gate.end {
                return Ok(gate.refusal().or(Some(Refusal::PastEnd { place: gate.end })));
            }
            if record.length_bytes == 1 && !record.shortest {
                return Ok(Some(Refusal::Indefinite { place: record.place }));
            }
            gate.goes_on(record.value_place + record.value_length);
        }
        at += fed.taken;
    }
    Ok(if gate.end == at { None } else { gate.refusal().or(Some(Refusal::PastEnd { place: gate.end })) })
}

pub fn run(asked: &Asked, out: &mut Out) -> Done {
    let refusal = refusal(&mut Source::open(asked.file(0), 0)?)?;
    let Some(why) = refusal else {
        out.say(out.line("accepted").only_json("accepted", true))?;
        return Ok(Found::Right);
    };
    let line = out.line("refused").only_json("accepted", false).word("refused", why.number()).word("place", why.place().unwrap_or(0));
    out.say(line.text("why", &why.to_string()))?;
    Ok(Found::Wanting)
}
