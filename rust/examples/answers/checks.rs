//! `strict` and `rip`: of a whole file (docs/RULES.md, "L7. A strict gate", and "L6. The random index pack").

use brinethimble::{RandomIndex, Refusal};

use crate::text::Text;

/// `strict`: accepted, or a refusal.
pub fn strict(out: &mut Text, s: &[u8], end: usize) -> Result<(), Refusal> {
    brinethimble::strict(s, end)?;
    out.put("accepted");
    Ok(())
}

/// `rip`: the pairs of the random index pack, `-` for none.
pub fn random_index(out: &mut Text, s: &[u8]) -> Result<(), Refusal> {
    for pair in RandomIndex::of(s)? {
        out.number(pair.stream.into()).put(",").number(pair.offset).put(",").number(pair.partition.into()).put(";");
    }
    if out.0.is_empty() {
        out.put("-");
    }
    Ok(())
}
