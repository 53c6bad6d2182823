//! Every buffer of `items`, `header`, `primer`, `set`, `anc`, `packs`, `sequence` and `package`.

use super::arri::numbers;
use super::pieces::{Alphabet, Buffers, cut, hex, one_of_each, sequences};

/// Local items: tags and lengths of both codings, and zeros with which a length of 8 bytes is whole.
pub fn items() -> Buffers {
    let all = sequences(hex("00 01 02 80 81 82 88 89 ff 00000000000000"), 0..=6);
    Box::new(all.chain(sequences(hex("00 01 02 81"), 7..=11)))
}

/// Header partition packs with counts on both sides of what follows them, cut at every place.
pub fn headers() -> Buffers {
    const LABELS: &str = "060e2b34020501010d01020101020400 060e2b34020501010d01020101030400 060e2b34020501020d01020101020400 \
        060e2b34020501010d010201010200ff 060e2b34020501010d01020102020400";
    let lengths = hex("28 27 29 8128 820028 84ffffffff 880000000000000028 80 7f 89 880000000000000029");
    let alignments = hex("00000000 00000001 00000002 00000003 00000005 00000100 7fffffff ffffffff");
    let counts = hex("0000000000000000 0000000000000001 0000000000000002 0000000000000003 0000000000000006 0000000000000100 \
        00000000ffffffff 7fffffffffffffff ffffffff00000000 ffffffffffffffff fffffffffffffffe");
    let after = (0..=7).map(|count| vec![0x77; count]).collect();
    let pack = vec![hex(LABELS), lengths, hex("00010002"), alignments, vec![vec![0x33; 24]], counts, after];
    Box::new(cut(one_of_each(pack)))
}

/// Primers of up to 4 entries, whose count is not to be trusted, cut at every place; and short buffers.
pub fn primers() -> Buffers {
    let counts = hex("00000000 00000001 00000003 ffffffff");
    let sizes = hex("00000012 00000000 00000011 00000013 00001200 12000000");
    let entries: Alphabet = one_of_each(vec![hex("0000 8001 8002 ffff"), vec![vec![0xaa; 16], vec![0xbb; 16]]]).collect();
    let packs = one_of_each(vec![counts, sizes, sequences(entries, 0..=4).collect()]);
    Box::new(cut(packs).chain(sequences(hex("00 01 12"), 0..=13)))
}

/// Descriptor sets: short buffers, every pair of items, three and four rates in turn, and pairs cut at every place.
pub fn sets() -> Buffers {
    const TAGS: &str = "0202 1502 1501 1503 3001 3002 3202 3203 3204 3205 3206 3207 3208 3209 320a 320b 320e 3306 3200";
    let short = sequences(hex("00 01 02 30 32"), 0..=9);
    let pairs = sequences(valued(TAGS, &[0, 1, 2, 3, 4, 5, 7, 8, 9]), 1..=2);
    let rates = sequences(valued("3001 320e", &[0, 4, 7, 8, 9]), 3..=4);
    let broken = cut(sequences(valued(TAGS, &[0, 4, 8, 9]), 2..=2));
    Box::new(short.chain(pairs).chain(rates).chain(broken))
}

/// Sequence infos: short buffers, up to three items in turn, and two cut at every place.
pub fn sequence_infos() -> Buffers {
    let items = valued("1501 1201 3c0a 4401 1502", &[0, 1, 7, 8, 9]);
    let short = sequences(hex("00 01 12 15 44 3c 0a"), 0..=7);
    Box::new(short.chain(sequences(items.clone(), 1..=3)).chain(cut(sequences(items, 2..=2))))
}

/// Items with each of some tags of 2 bytes, each of some lengths, and each of a few values.
fn valued(tags: &str, lengths: &[u16]) -> Alphabet {
    let values = hex("000000000000000000 ffffffffffffffffff 000000010000000000 000000000000000100 800102037f05060708");
    let item = |tag: &[u8], length: u16, value: &[u8]| [tag, &length.to_be_bytes(), &value[..length as usize]].concat();
    let mut items = Alphabet::new();
    for tag in hex(tags) {
        for length in lengths {
            items.extend(values.iter().map(|value| item(&tag, *length, value)));
        }
    }
    items.sort();
    items.dedup();
    items
}

/// ST 436 elements: one line of every kind cut at every place, two lines of many kinds, and two of a few cut at every place.
pub fn ancillary() -> Buffers {
    let counts = || hex("0000 0001 0002 0003 ffff");
    let every = lines("0000 0003 0004 0005 0006 0007 ffff", "00000000 00000001 00000003 00000004 00000005 00000006 00000007 ffffffff", 1);
    let many = |payload| lines("0000 0004 0005 0006 ffff", "00000000 00000004 00000005 00000006", payload);
    let few = |payload| lines("0004 0006", "00000000 00000005 00000006", payload);
    let one = cut(one_of_each(vec![counts(), every]));
    let two = one_of_each(vec![counts(), many(1), many(3)]);
    let broken = cut(one_of_each(vec![hex("0001 0002"), few(1), few(3)]));
    Box::new(one.chain(two).chain(broken))
}

/// Lines with each of some sample counts and array counts, with arrays of 0 to 6 bytes that begin as they are to or not and
/// a payload that rises from a byte.
fn lines(samples: &str, counts: &str, payload: u8) -> Alphabet {
    let begun = |first: u8, second: u8| vec![first, second, 0x53, 0x48, payload, payload + 1];
    let mut arrays: Alphabet = (0..=6).map(|count| begun(0x43, 0x05)[..count].to_vec()).collect();
    arrays.extend([begun(0x43, 0x06), begun(0x44, 0x05)]);
    let lengths = hex("00000000 00000001 00000002 01000000");
    one_of_each(vec![hex("00130401"), hex(samples), hex(counts), lengths, arrays]).collect()
}

/// Private Camera Metadata: of each pack every number in either half, and two packs of a few numbers cut at every place.
pub fn packs() -> Buffers {
    let ids = || (0..=21).map(|id| vec![id]).collect::<Alphabet>();
    let first = one_of_each(vec![hex("01"), ids(), numbers(), hex("0000 0001 8000 ffff")]);
    let last = one_of_each(vec![hex("01"), ids(), hex("0000 0002 7fff fffe"), numbers()]);
    let some: Alphabet = one_of_each(vec![ids(), hex("00000000 ffffffff 40004001 c0ff7fff 20803001 fffefffe")]).collect();
    let two = cut(one_of_each(vec![hex("00 01 02 03 ff"), some.clone(), some]));
    Box::new(first.chain(last).chain(two))
}

/// Package sets: pieces of items and runs in every order, and every pair of items around runs.
pub fn packages() -> Buffers {
    const PIECES: &str = "060e2b340101010d0e15000100010000 060e2b34010101ff0e15000100010000 060e2b340101010d0e15000100010001 \
        011300000001 8800 88 00 01 06 11 12 17 81";
    let runs = || sequences(private_metadata(), 0..=1);
    let outer: Alphabet = runs().flat_map(|run| [0x88, 0x87].into_iter().flat_map(move |tag| wrapped(tag, &run))).collect();
    let two = sequences(outer.clone(), 2..=2);
    let inner = sequences(private_metadata(), 2..=2).flat_map(|run| wrapped(0x88, &run));
    Box::new(sequences(hex(PIECES), 0..=6).chain(cut(outer.into_iter())).chain(two).chain(cut(inner)))
}

/// Items of a tag around a run, with its length and with those on both sides of it.
fn wrapped(tag: u8, run: &[u8]) -> Alphabet {
    let length = run.len() as u16;
    let lengths = [length, length + 1, length.saturating_sub(1)];
    lengths.iter().map(|length| [&[tag][..], &length.to_be_bytes(), run].concat()).collect()
}

/// Records of runs with the label of a Private Camera Metadata, the same label or another, with lengths near their values'.
fn private_metadata() -> Alphabet {
    let labels = hex("060e2b340101010d0e15000100010000 060e2b34010101ff0e15000100010000 060e2b340101010d0e15000100010001");
    let values = hex("00 011300000001 02138000000014");
    let mut records = Alphabet::new();
    for label in labels {
        records.push([&label[..], &[0]].concat());
        for value in &values {
            let size = value.len() as u8;
            let lengths = [vec![size], vec![size + 1], vec![size - 1], vec![0x82, 0, size], vec![0x80], vec![0x89]];
            records.extend(lengths.iter().map(|length| [&label[..], length, value].concat()));
        }
    }
    records
}
