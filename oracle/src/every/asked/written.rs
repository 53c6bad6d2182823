//! Every small case of the writers.

use crate::asked::written::PACKS;
use crate::every::Cases;
use crate::every::pieces::{hex, one_of_each, sequences};
use crate::every::walk::{boundary_numbers, runs};
use crate::line::Case;

/// Every case of a writer.
pub fn cases(word: &'static str) -> Cases {
    match word {
        "shortest" => Box::new(boundary_numbers().into_iter().map(move |number| vec![numbered(word, &[number])])),
        "putlength" => Box::new(boundary_numbers().into_iter().map(move |number| lengths(word, number))),
        "putpack" => Box::new((0..=21).map(move |id| packs(word, id))),
        "putklv" => Box::new((0..=300).map(move |count| klvs(word, count))),
        "putitem" => Box::new((0..=300).map(move |count| items(word, count))),
        "putprimer" => {
            let entries = one_of_each(vec![hex("3c0a 0102"), vec![vec![0xaa; 16], vec![0xbb; 16]]]).collect();
            Box::new(sequences(entries, 0..=4).map(move |bytes| roomed(word, &[], bytes.len() + 8, bytes)))
        }
        _ => Box::new(runs().map(move |bytes| roomed(word, &[], bytes.len(), bytes))),
    }
}

/// A case of numbers.
fn numbered(word: &'static str, numbers: &[u64]) -> Case {
    Case { word, numbers: numbers.to_vec(), ..Case::default() }
}

/// The cases with rooms on both sides of a size, and none.
fn roomed(word: &'static str, numbers: &[u64], size: usize, bytes: Vec<u8>) -> Vec<Case> {
    let rooms = [0, size.saturating_sub(1), size, size + 1].map(|room| room as u64);
    rooms.map(|room| Case { bytes: bytes.clone(), ..numbered(word, &[numbers, &[room]].concat()) }).to_vec()
}

/// A number in every size from 0 to 10, with every room to 10.
fn lengths(word: &'static str, number: u64) -> Vec<Case> {
    (0..=10).flat_map(|size| (0..=10).map(move |room| numbered(word, &[number, size, room]))).collect()
}

/// A pack with every pair of fields at values where something changes.
fn packs(word: &'static str, id: u64) -> Vec<Case> {
    let places = PACKS.get(id.wrapping_sub(1) as usize).unwrap_or(&PACKS[0]);
    let edges = |bits: u32| [0, 1, (1 << (bits - 1)), (1 << bits) - 1, 1u64 << bits];
    let mut all = Vec::new();
    for choice in 0..5usize.pow(places.len() as u32) {
        let field = |(at, (_, bits)): (usize, &(u32, u32))| edges(*bits)[choice / 5usize.pow(at as u32) % 5].to_string();
        let list = places.iter().enumerate().map(field).collect::<Vec<_>>().join(",");
        all.extend([4, 5].map(|room| Case { list: list.clone(), ..numbered(word, &[id, room]) }));
    }
    all
}

/// A KLV of so many bytes in every size from 0 to 10.
fn klvs(word: &'static str, count: usize) -> Vec<Case> {
    let label = hex("060e2b340101010d0e15000100010000").remove(0);
    let sized = |size: u64| roomed(word, &[size], 16 + size as usize + count, vec![0x77; count]);
    (0..=10).flat_map(sized).map(|case| Case { other: label.clone(), ..case }).collect()
}

/// An item of so many bytes with tags on both sides of what fits.
fn items(word: &'static str, count: usize) -> Vec<Case> {
    [0, 1, 0xff, 0x100, 0xfffe, 0xffff, 0x1_0000, u64::MAX]
        .iter()
        .flat_map(|tag| roomed(word, &[*tag], 4 + count, vec![0x77; count]))
        .collect()
}
