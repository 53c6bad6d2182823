//! `partitions`: the pairs of the random index pack, from a file's last bytes, and whether a partition stands at each offset.

use brinethimble::{Pair, RandomIndex, Refusal};

use crate::say::Out;
use crate::source::Source;
use crate::words::Asked;
use crate::{Done, Found, Trouble};

/// The longest pack that is read.
const LONGEST: usize = 1 << 24;
/// A pack with one pair, which names the file's first byte.
const ONE: &[u8] = b"\x06\x0e\x2b\x34\x02\x05\x01\x01\x0d\x01\x02\x01\x01\x11\x01\x00\x10\0\0\0\0\0\0\0\0\0\0\0\0\0\0\0\x21";

/// The last bytes of a file, as many as its last four say that its pack has; a file with none is refused by these four alone.
fn pack(source: &mut Source, length: usize) -> Result<Vec<u8>, Trouble> {
    let last = source.bytes(length - length.min(4), length.min(4))?;
    let size = last.first_chunk().map_or(0, |size| u32::from_be_bytes(*size)) as usize;
    if size < 21 || size > length {
        return Ok(last);
    }
    if size > LONGEST {
        return Err(Trouble::Said(format!("the random index pack has {size} bytes, more than the {LONGEST} that are read")));
    }
    source.bytes(length - size, size)
}

/// Whether a partition stands at an offset: the library says so of the bytes there with a pack behind them that names them.
fn partition(source: &mut Source, length: usize, offset: u64) -> Result<bool, Trouble> {
    let Some(rest) = usize::try_from(offset).ok().and_then(|offset| length.checked_sub(offset)).filter(|rest| *rest >= 14) else {
        return Ok(false);
    };
    let mut made = source.bytes(length - rest, rest.min(16))?;
    made.extend(ONE);
    Ok(RandomIndex::of(&made)?.any(|pair| pair.partition))
}

pub fn run(asked: &Asked, out: &mut Out) -> Done {
    let mut source = Source::open(asked.file(0), 0)?;
    let length = source.length().ok_or(Trouble::Said("partitions are found from a file's end: name a file".into()))?;
    let pack = pack(&mut source, length)?;
    let pairs = match RandomIndex::of(&pack) {
        Ok(pairs) => pairs,
        Err(why) => return refused(out, why),
    };
    for Pair { stream, offset, .. } in pairs {
        let partition = partition(&mut source, length, offset)?;
        let line = out.line("").word("stream", stream).word("offset", offset);
        out.say(line.only_text(if partition { "partition" } else { "-" }).only_json("partition", partition))?;
        if out.gone() {
            break;
        }
    }
    Ok(Found::Right)
}

/// Says why there is no pack.
fn refused(out: &mut Out, why: Refusal) -> Done {
    out.say(out.line("refused").word("refused", why.number()).text("why", &why.to_string()))?;
    Ok(Found::Wanting)
}
