//! Look-ups in a primer by a search each, by a table and by the Rust's map: which is the least for how many.

use std::cell::RefCell;
use std::time::Instant;

use oracle::arri::mxf::reach as arri;

use crate::inputs::Random;
use crate::measure::{Pass, least};
use crate::port;
use crate::rows::kept;

/// A primer pack of so many entries: tag i is 8000h + i, past FFFFh from 0 on.
pub fn primer(entries: u16) -> Vec<u8> {
    let mut random = Random::new();
    let mut bytes = [(entries as u32).to_be_bytes(), 18u32.to_be_bytes()].concat();
    for i in 0..entries {
        bytes.extend(0x8000u16.wrapping_add(i).to_be_bytes());
        bytes.extend(random.bytes(16));
    }
    bytes
}

/// What stands for a look-up: the last byte of the label, 256 for none.
fn number(label: Option<&[u8]>) -> u64 {
    label.map_or(256, |label| label[15] as u64)
}

/// The label that a look-up of the port found.
fn label(s: &[u8], [found, place]: [u64; 2]) -> Option<&[u8]> {
    (found == 1).then(|| &s[place as usize..][..16])
}

/// Tags looked up by a search each.
pub fn searched(s: &[u8], tags: impl Iterator<Item = u16>) -> u64 {
    tags.map(|tag| number(label(s, port::primer(s, tag as u64)))).sum()
}

/// Tags looked up in the Rust's map, which is made for it.
pub fn mapped(s: &[u8], tags: impl Iterator<Item = u16>) -> u64 {
    let map = arri::primer(s);
    tags.map(|tag| number(map.get(&tag).map(|label| &label[..]))).sum()
}

/// A table that is lent for one primer after the other.
pub struct Table(RefCell<Box<[u64; 65536]>>);

impl Default for Table {
    fn default() -> Self {
        Self(RefCell::new(vec![0; 65536].into_boxed_slice().try_into().expect("65,536 places")))
    }
}

impl Table {
    /// Tags looked up by the table, which is filled for it.
    pub fn looked_up(&self, s: &[u8], tags: impl Iterator<Item = u16>) -> u64 {
        let table = &mut self.0.borrow_mut();
        port::primer_table(s, table);
        tags.map(|tag| number(label(s, port::primer_in(s, table, tag as u64)))).sum()
    }
}

/// The entries of a primer and the look-ups in it; the last is 1 MiB of primer and a set of 1 MiB, items of 4 bytes.
const ROWS: [(u16, usize); 7] = [(100, 1), (100, 4), (100, 16), (100, 100), (100, 1000), (1000, 1000), (58_253, 1 << 18)];

/// The table. None of the last row's tags is in the primer: a search goes through all of it. It is made once.
pub fn table() {
    println!("\n| entries | look-ups | a search each, µs | table, µs | Rust's map, µs | table to map |\n|---|---|---|---|---|---|");
    for (entries, count) in ROWS {
        let s = kept(primer(entries));
        let hostile = entries > 1000;
        let tags =
            move || (0..count).map(move |i| if hostile { 0x7fff - (i % 7000) as u16 } else { 0x8000 + (i % entries as usize) as u16 });
        let lent = Table::default();
        let by_table: Pass = Box::new(move || lent.looked_up(s, tags()));
        let by_map: Pass = Box::new(move || mapped(s, tags()));
        assert_eq!(by_table(), by_map());
        let times = least(&[&by_table, &by_map]);
        let by_search: Pass = Box::new(move || searched(s, tags()));
        let search = if hostile { once(&by_search) } else { least(&[&by_search])[0] };
        let [search, table, map] = [search, times[0], times[1]].map(|time| time / 1000.0);
        println!("| {entries} | {count} | {search:.2} | {table:.2} | {map:.2} | **{:.3}** |", table / map);
    }
}

/// The time of one pass, in ns.
fn once(pass: &Pass) -> f64 {
    let began = Instant::now();
    std::hint::black_box(pass());
    began.elapsed().as_nanos() as f64
}
