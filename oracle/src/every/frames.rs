//! Every buffer of `sony`, `arri` and `canon`: labels, lengths and whole elements, for every end.

use super::pieces::{Alphabet, Buffers, hex, sequences};

/// A label that is no frame's, lengths of several kinds, and a key start.
const OTHERS: &str = "060e2b34aaaaaaaaaaaaaaaaaaaaaaaa 060e2b34 00 02 11 81 89";

/// An ST 436 element's label, one that differs in the byte at 7, and an element's length and value with a payload.
const SONY: &str = "060e2b34010201010d01030117010201 060e2b34010201020d01030117010201 160001001304010006000000060000000143050102aabb";

/// ARRI's two labels, and ones that differ in bytes that are free or not.
const ARRI: &str = "060e2b34024301010d01030104010301 060e2b340243010f0d01030104010301 060e2b34010201010d01030117010f00 \
    060e2b34010201ff0d01030117ff0fff 060e2b34010201010d01030117010e00";

/// Canon's two labels and Sony's, and the lengths and values of a package set and of a sequence info.
const CANON: &str = "060e2b34024301010d01030104010203 060e2b340101010d0e15000000010000 060e2b34010201010d01030117010201 \
    1a880017060e2b340101010d0e1500010001000006011300000001 0c150100080000000000000001";

/// ST 436 elements among others.
pub fn sony() -> Buffers {
    Box::new(sequences(with_others(SONY), 0..=5))
}

/// ARRI's elements among others, short ones.
pub fn arri() -> Buffers {
    Box::new(sequences(with_others(ARRI), 0..=5))
}

/// A few of ST 436 elements among others.
pub fn few_sony() -> Buffers {
    Box::new(sequences(with_others(SONY), 0..=3))
}

/// A few of ARRI's elements among others, and an over-long one.
pub fn few_arri() -> Buffers {
    Box::new(sequences(with_others(ARRI), 0..=3).chain(over_long()))
}

/// An over-long element of ARRI's with a frame in it and one behind it, cut at both ends of these.
pub fn over_long() -> Buffers {
    let label = hex("060e2b34010201010d01030117010f00").remove(0);
    let frame = [&label[..], &[0]].concat();
    let inside = [&[0; 81][..], &frame, &[0; 8193 - 81 - 17]].concat();
    let file = [&label[..], &[0x82, 0x20, 0x01], &inside, &frame].concat();
    let ends = [18, 19, 99, 100, 116, 117, 118, 8210, 8211, 8212, 8213, 8228, 8229];
    Box::new(ends.into_iter().map(move |end| file[..end].to_vec()))
}

/// Canon's values and ST 436 elements among others.
pub fn canon() -> Buffers {
    Box::new(sequences(with_others(CANON), 0..=5))
}

/// The pieces of a walk and the others.
fn with_others(pieces: &str) -> Alphabet {
    [hex(pieces), hex(OTHERS)].concat()
}
