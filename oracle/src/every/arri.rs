//! Every buffer of `dynamic`, `ofdynamic` and `alexa`.

use super::pieces::{Alphabet, Buffers, cut, hex, one_of_each, sequences};

/// Elements around ARRI's 256 bytes, one cut at every place and two in turn.
pub fn elements() -> Buffers {
    let labels = hex("060e2b34025301010c02010101010000 060e2b34025301ff0c02010101010000 060e2b34025301010c02010101010001");
    let runs = labels.iter().flat_map(|label| sets().into_iter().flat_map(move |set| near(label, &set, 3)));
    let elements: Alphabet = runs.flat_map(|run| [near(&[0x88], &run, 2), near(&[0x87], &run, 2)].concat()).collect();
    Box::new(cut(elements.clone().into_iter()).chain(sequences(elements, 2..=2)))
}

/// Sets whose item 8200h is too short, long enough, after another, a second one, or not there.
fn sets() -> Alphabet {
    let item = |tag: [u8; 2], count: u16| [&tag[..], &count.to_be_bytes(), &vec![0x5a; count as usize]].concat();
    let wanted = |count: u16| item([0x82, 0x00], count);
    let other = item([0x82, 0x01], 2);
    vec![wanted(255), wanted(256), wanted(257), [other.clone(), wanted(256)].concat(), [wanted(0), wanted(256)].concat(), other]
}

/// A value after a tag and its length, or after one of the lengths on both sides of it, in so many bytes: a BER length in 3.
fn near(tag: &[u8], value: &[u8], size: usize) -> Alphabet {
    let form: &[u8] = if size == 3 { &[0x82] } else { &[] };
    let length = value.len() as u16;
    [length - 1, length, length + 1].iter().map(|length| [tag, form, &length.to_be_bytes(), value].concat()).collect()
}

/// ARRI's 256 bytes, all zeros but for every number in each pair of bytes.
pub fn blocks() -> Buffers {
    let zeros = |count: usize| vec![vec![0; count]];
    Box::new((0..256).step_by(2).flat_map(move |place| one_of_each(vec![zeros(place), numbers(), zeros(254 - place)])))
}

/// Every number of 2 bytes.
pub fn numbers() -> Alphabet {
    (0..=u16::MAX).map(|number| number.to_be_bytes().to_vec()).collect()
}

/// An ALEXA 35's elements: each item with every number in its first two bytes, and every two items cut at every place.
pub fn alexa() -> Buffers {
    let values = hex("00 0102 00000000 00000001 ffffffff 7f800000 80000001 41200000 41200001 0000000100000000 0000000100000003 \
        ffffffffffffffff 000000000000000001");
    let values: Alphabet = [vec![vec![]], values].concat();
    let key = |id: &Vec<u8>| [&[0x06, 0x0e, 0x2b, 0x34, 0x01, 0x01, 0x01, 0x0e, 0x0e, 0x17, 0x01, 0x02][..], id, &[0, 0]].concat();
    let keys: Alphabet =
        hex("0c03 0c04 0d01 0d02 0d03 0d05 0d06 0d07 0d0c 0d0d 0e01 0e03 0e05 0e06 0e07 0e08 0e09").iter().map(key).collect();
    let items: Alphabet = keys.iter().flat_map(|key| values.iter().map(|value| short(key, value))).collect();
    let numbered = one_of_each(vec![keys, hex("04"), numbers(), hex("0000 0001 ffff")]);
    let sets = numbered.map(|item| short(&[0; 16], &item));
    let two = sequences(items, 2..=2).map(|items| short(&[0; 16], &items));
    Box::new(sets.chain(cut(two)))
}

/// A label, a length of 1 byte and a value.
fn short(label: &[u8], value: &[u8]) -> Vec<u8> {
    [label, &[value.len() as u8], value].concat()
}
