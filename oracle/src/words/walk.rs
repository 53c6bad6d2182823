//! `ber`, `walk`, `step` and `klvs`: src/mxf.rs.

use std::io::{BufReader, Cursor, Read, Result, Seek, SeekFrom};
use std::sync::atomic::AtomicBool;

use super::{Record, offset, put_number};
use crate::mxf::{klvs, next_klv, read_ber};

/// `ber`: the length that bytes begin with and how many bytes it takes.
pub fn ber(out: &mut String, bytes: &[u8]) {
    let mut rest = bytes;
    match read_ber(&mut rest) {
        Ok(Some(length)) => {
            put_number(out, length);
            out.push(' ');
            put_number(out, (bytes.len() - rest.len()) as u64);
        }
        Ok(None) => out.push_str("none"),
        Err(_) => out.push_str("cut"),
    }
}

/// `walk`: the records from 0 on, and the last cursor.
pub fn walk(out: &mut String, bytes: &[u8], end: u64) {
    let mut walker = Walker::at(bytes, 0);
    while let Some(record) = walker.step(end) {
        record.put(out);
        out.push(';');
    }
    out.push('|');
    put_number(out, walker.cursor());
}

/// The records of the finished walk from 0 on.
pub fn records(bytes: &[u8], end: u64) -> Vec<Record> {
    let mut walker = Walker::at(bytes, 0);
    std::iter::from_fn(|| walker.step(end)).collect()
}

/// `step`: the record of one step from a cursor, and the next cursor.
pub fn step(out: &mut String, bytes: &[u8], end: u64, from: u64) {
    let mut walker = Walker::at(bytes, from);
    match walker.step(end) {
        Some(record) => record.put(out),
        None => out.push('-'),
    }
    out.push('|');
    put_number(out, walker.cursor());
}

/// `klvs`: the items of a run.
pub fn run(out: &mut String, bytes: &[u8]) {
    for record in run_records(bytes) {
        record.put(out);
        out.push(';');
    }
}

/// The records of a run.
pub fn run_records(bytes: &[u8]) -> Vec<Record> {
    let mut place = 0;
    let record = |(label, value): (&[u8; 16], &[u8])| {
        let record = Record { place, label: *label, value: offset(bytes, value), length: value.len() as u64 };
        place = record.end();
        record
    };
    klvs(bytes).map(record).collect()
}

/// The published walk over bytes in memory, with the place of each label that it reads.
pub struct Walker<'a> {
    stream: BufReader<Watched<'a>>,
}

impl<'a> Walker<'a> {
    /// A walk whose cursor is at a place. A buffer of 1 byte lets every read through to the watched bytes.
    pub fn at(bytes: &'a [u8], place: u64) -> Self {
        let mut source = Cursor::new(bytes);
        source.set_position(place);
        let watched = Watched { source, label: place, cut: false };
        Self { stream: BufReader::with_capacity(1, watched) }
    }

    /// The next record, with the cursor after its value.
    pub fn step(&mut self, end: u64) -> Option<Record> {
        let (label, length) = next_klv(&mut self.stream, end, &AtomicBool::new(false), &|_| ()).expect("memory is read without error")?;
        let value = self.position();
        self.stream.seek_relative(length as i64).expect("a value within the bytes");
        Some(Record { place: self.stream.get_ref().label, label, value, length })
    }

    /// The cursor: a length that is cut leaves it at its label (The walk, 1 and 3).
    pub fn cursor(&mut self) -> u64 {
        let watched = self.stream.get_ref();
        if watched.cut { watched.label } else { self.position() }
    }

    fn position(&mut self) -> u64 {
        self.stream.stream_position().expect("memory has a position")
    }
}

/// Bytes that tell where a label was read last, and whether a read met their end.
struct Watched<'a> {
    source: Cursor<&'a [u8]>,
    label: u64,
    cut: bool,
}

impl Read for Watched<'_> {
    fn read(&mut self, into: &mut [u8]) -> Result<usize> {
        if into.len() == 16 {
            self.label = self.source.position();
        }
        let count = self.source.read(into)?;
        self.cut |= count == 0;
        Ok(count)
    }
}

impl Seek for Watched<'_> {
    fn seek(&mut self, to: SeekFrom) -> Result<u64> {
        self.source.seek(to)
    }
}

#[cfg(test)]
mod tests {
    use super::*;
    use crate::cases;
    use crate::line::parse;

    /// The records of the published walk with the buffer that Sony's and ARRI's walks have.
    fn records_by_a_large_buffer(bytes: &[u8], end: u64) -> Vec<(u64, [u8; 16], u64)> {
        let mut stream = BufReader::with_capacity(32 * 1024, Cursor::new(bytes));
        let mut records = Vec::new();
        while let Ok(Some((label, length))) = next_klv(&mut stream, end, &AtomicBool::new(false), &|_| ()) {
            records.push((stream.stream_position().unwrap(), label, length));
            stream.seek_relative(length as i64).unwrap();
        }
        records
    }

    #[test]
    fn the_watched_walk_is_the_walk() {
        for index in 0..20_000 {
            let case = parse(&cases::case("walk", 1, index)).unwrap();
            let end = case.numbers[0];
            if end > case.bytes.len() as u64 {
                continue;
            }
            let records: Vec<_> = records(&case.bytes, end).into_iter().map(|r| (r.value, r.label, r.length)).collect();
            assert_eq!(records, records_by_a_large_buffer(&case.bytes, end), "{}", case.line());
        }
    }

    #[test]
    fn a_cut_length_leaves_the_cursor_at_its_label() {
        let mut bytes = vec![0x06, 0x0e, 0x2b, 0x34];
        bytes.resize(16, 0);
        bytes.push(0x81);
        let mut out = String::new();
        walk(&mut out, &bytes, 17);
        assert_eq!(out, "|0");
    }
}
