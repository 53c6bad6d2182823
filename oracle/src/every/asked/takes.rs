//! Every two small recordings.

use crate::every::Cases;
use crate::every::pieces::{Alphabet, hex, sequences};
use crate::line::Case;

/// Every two files of up to 2 of few elements, or of one that is over-long.
pub fn pairs(word: &'static str) -> Cases {
    let files = files();
    Box::new(files.clone().into_iter().map(move |bytes| {
        let case = |other: &Vec<u8>| Case {
            word,
            numbers: vec![bytes.len() as u64, other.len() as u64],
            bytes: bytes.clone(),
            other: other.clone(),
            ..Case::default()
        };
        let past = |case: &Case, at: usize| {
            let mut case = case.clone();
            case.numbers[at] += 1;
            case
        };
        let whole: Vec<Case> = files.iter().map(case).collect();
        let refused: Vec<Case> = whole.iter().take(3).flat_map(|case| [past(case, 0), past(case, 1)]).collect();
        [whole, refused].concat()
    }))
}

/// The files: elements of an ALEXA 35 with one item, without values, and over-long.
fn files() -> Alphabet {
    const ITEMS: &str =
        "0e030400000320 0e030400000000 0e060400000000 0e060480000000 0d0104ffffffff 0d0104000003e8 0d010400000000 0d050400000320";
    let label = hex("060e2b34010201010d01030117010f00").remove(0);
    let mut elements: Alphabet = hex(ITEMS).iter().map(|item| [&label[..], &element(item)].concat()).collect();
    elements.extend(hex("060e2b34024301010d010301040103010100 060e2b34010201010d01030117010f0000"));
    let mut files: Alphabet = sequences(elements, 0..=2).collect();
    files.push([&label[..], &[0x82, 0x20, 0x01], &[0; 8193]].concat());
    files
}

/// The length and value of an element whose set has one item.
fn element(item: &[u8]) -> Vec<u8> {
    let (id, rest) = item.split_at(2);
    let item = [&hex("060e2b340101010e0e170102")[0][..], id, &[0, 0], rest].concat();
    let set = [&[0; 16][..], &[item.len() as u8], &item].concat();
    [&[set.len() as u8][..], &set].concat()
}
