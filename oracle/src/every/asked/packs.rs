//! Every buffer of `rip` and `outline`.

use crate::every::pieces::{Buffers, cut, hex, one_of_each, sequences};

/// Random index packs behind partition labels: their keys, lengths and sizes right or near it, some cut at every place.
pub fn random_indexes() -> Buffers {
    const BEFORE: &str = "060e2b34020501010d01020101020400 060e2b34020501010d010201010204 060e2b34020501010d01020101050400 \
        060e2b34020501010d0102010102 060e2b34020501010d01020101 00";
    const KEYS: &str = "060e2b34020501010d01020101110100 060e2b34020501ff0d01020101110100 060e2b34020501010d01020101110101";
    let lengths = || hex("00 03 04 05 10 1c 80 8104 8110 820010 83000010 880000000000000010 89 8f");
    let pairs = || hex("000000000000000000000000 000000010000000000000001 00000002000000000000000e ffffffffffffffffffffffff");
    let sizes = || (0..=64).map(|size: u32| size.to_be_bytes().to_vec()).chain(hex("7fffffff ffffffff 15000000")).collect();
    let before = || [vec![vec![]], hex(BEFORE)].concat();
    let all = one_of_each(vec![before(), hex(KEYS), lengths(), sequences(pairs(), 0..=2).collect(), sizes()]);
    let few = one_of_each(vec![
        hex(BEFORE)[..1].to_vec(),
        hex(KEYS)[..1].to_vec(),
        hex("04 10 1c"),
        sequences(pairs(), 0..=2).collect(),
        sizes(),
    ]);
    Box::new(all.chain(cut(few)))
}

/// Sets of each coding around items, runs and sets, their lengths right or not.
pub fn nested_sets() -> Buffers {
    const PIECES: &str = "060e2b34025301010d01010101012f00 060e2b34021301010d01010101012f00 060e2b34024301010d01030104010301 \
        060e2b34026301010d01010101012f00 00 04 15 14880011 880011 88 0002 ff";
    Box::new(sequences(hex(PIECES), 0..=5))
}
