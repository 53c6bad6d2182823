//! L4: an outline of a file's structure, without its values.

use std::fmt::Write;
use std::ops::Range;

use super::forms::local_items;
use super::put_bounded;
use crate::line::{Case, Field, Word, put_hex};
use crate::words::walk::{records, run_records};
use crate::words::{Record, offset};

pub const WORDS: &[Word] = &[("outline", &[Field::End, Field::Depth, Field::Room, Field::Bytes])];

/// The answer to a case: its text, with `;` for each line's end.
pub fn put(out: &mut String, case: &Case) {
    let [end, depth, room] = case.numbers[..] else { unreachable!("three numbers") };
    if !(1..=8).contains(&depth) {
        return out.push_str("refused 6");
    }
    let outline = Outline::of(&case.bytes, end, depth);
    put_bounded(out, outline.text.len(), room, || outline.text.replace('\n', ";"));
}

/// An outline in the making, of a file to a depth.
pub struct Outline<'a> {
    file: &'a [u8],
    depth: u64,
    pub text: String,
    /// The places of values that are leaves.
    pub leaves: Vec<Range<usize>>,
}

impl<'a> Outline<'a> {
    /// The outline of a file up to an end: at file level the walk's records.
    pub fn of(file: &'a [u8], end: u64, depth: u64) -> Self {
        let mut outline = Self { file, depth, text: String::new(), leaves: Vec::new() };
        for record in records(file, end) {
            outline.record(1, file, &record);
        }
        outline
    }

    /// Puts an item's line.
    fn line(&mut self, level: u64, key: &[u8], length: usize) {
        write!(self.text, "{level} ").unwrap();
        put_hex(&mut self.text, key);
        writeln!(self.text, " {length}").unwrap();
    }

    /// Puts a record of a file or a run: a set opens where its level is not too deep.
    fn record(&mut self, level: u64, whole: &'a [u8], record: &Record) {
        let value = &whole[record.value as usize..record.end() as usize];
        self.line(level, &record.label, value.len());
        let opens = record.label[4] == 0x02 && level < self.depth;
        match record.label[5] {
            0x53 if opens => self.set(level + 1, value, 2, false),
            0x13 if opens => self.set(level + 1, value, 2, true),
            0x43 if opens => self.set(level + 1, value, 1, false),
            _ => self.leaf(value),
        }
    }

    /// Puts the items of a set: an 88 item of a 43h one, whose tags have 1 byte, opens a run.
    fn set(&mut self, level: u64, set: &'a [u8], tag: usize, ber: bool) {
        let mut end = 0;
        for (place, v, length) in local_items(set, tag, ber) {
            end = v + length;
            self.line(level, &set[place..place + tag], length);
            match set[place..place + tag] {
                [0x88] if level < self.depth => self.run(level + 1, &set[v..end]),
                _ => self.leaf(&set[v..end]),
            }
        }
        self.rest(level, set.len() - end);
    }

    /// Puts the KLVs of a run.
    fn run(&mut self, level: u64, run: &'a [u8]) {
        let records = run_records(run);
        for record in &records {
            self.record(level, run, record);
        }
        self.rest(level, run.len() - records.last().map_or(0, |last| last.end() as usize));
    }

    /// Puts the count of the bytes after the last whole item, if there are any.
    fn rest(&mut self, level: u64, count: usize) {
        if count > 0 {
            writeln!(self.text, "{level} rest {count}").unwrap();
        }
    }

    /// Keeps a value that is not opened.
    fn leaf(&mut self, value: &[u8]) {
        let start = offset(self.file, value) as usize;
        self.leaves.push(start..start + value.len());
    }
}

#[cfg(test)]
mod tests {
    use super::*;
    use crate::asked::tests::shows;
    use crate::cases;
    use crate::cases::random::Random;
    use crate::line::parse;

    const L53: &str = "060e2b34025301010d01010101012f00";
    const L13: &str = "060e2b34021301010d01010101012f00";
    const L43: &str = "060e2b34024301010d01030104010301";

    #[test]
    fn sets_of_each_coding() {
        let second = "060e2b340101010e0e15000100010000";
        shows(&format!("outline n 8 999 00K02aabb{second}8100"), &format!("1 K 2;1 {second} 0;"));
        let set = format!("{L53}0c3c0a0002aabb01020000ffff");
        shows(&format!("outline n 1 999 {set}"), &format!("1 {L53} 12;"));
        shows(&format!("outline n 2 999 {set}"), &format!("1 {L53} 12;2 3c0a 2;2 0102 0;2 rest 2;"));
        shows(&format!("outline n 2 999 {L13}0a3c0a02aabb010280ffff"), &format!("1 {L13} 10;2 3c0a 2;2 0102 0;2 rest 2;"));
        shows(&format!("outline n 2 999 {L13}0a3c0a8102aabb010200ff"), &format!("1 {L13} 10;2 3c0a 2;2 0102 0;2 rest 1;"));
        shows("outline n 1 0 -", "-");
    }

    #[test]
    fn a_run_in_a_set_opens_as_deep_as_is_asked() {
        let file = format!("{L43}19880016{L53}048200000000");
        let line = |level, key, length| format!("{level} {key} {length};");
        let first = line(1, L43, 25);
        let second = first.clone() + "2 88 22;";
        let third = second.clone() + &line(3, L53, 4) + "3 rest 1;";
        let fourth = second.clone() + &line(3, L53, 4) + "4 8200 0;3 rest 1;";
        for (depth, right) in [(1, &first), (2, &second), (3, &third), (4, &fourth), (8, &fourth)] {
            shows(&format!("outline n {depth} 999 {file}"), right);
        }
        shows(&format!("outline 41 8 999 {file}"), &format!("1 {L53} 4;2 8200 0;"));
        let refusals = [("42 4 100", "3 101"), ("43 9 0", "1"), ("42 9 0", "6"), ("42 0 99", "6"), ("42 1 0", "3 38")];
        for (numbers, right) in refusals {
            shows(&format!("outline {numbers} {file}"), &format!("refused {right}"));
        }
        shows(&format!("outline 42 4 101 {file}"), &fourth);
    }

    #[test]
    fn an_88_item_opens_in_a_43h_set_alone() {
        shows(&format!("outline n 8 999 {L53}0688880002aabb"), &format!("1 {L53} 6;2 8888 2;"));
        shows(&format!("outline n 8 999 {L43}0588000288bb"), &format!("1 {L43} 5;2 88 2;3 rest 2;"));
        shows(&format!("outline n 8 999 {}0400000000", L53.replace("0253", "0263")), &format!("1 {} 4;", L53.replace("0253", "0263")));
        shows(&format!("outline n 8 999 {}0400000000", L53.replace("0253", "0153")), &format!("1 {} 4;", L53.replace("0253", "0153")));
    }

    #[test]
    fn other_leaf_values_have_the_same_outline() {
        for index in 0..20_000 {
            let case = parse(&cases::case("outline", 8, index)).unwrap();
            let [end, depth, _] = case.numbers[..] else { unreachable!() };
            if end > case.bytes.len() as u64 || !(1..=8).contains(&depth) {
                continue;
            }
            let first = Outline::of(&case.bytes, end, depth);
            let mut random = Random::of("leaves", 8, index);
            let mut other = case.bytes.clone();
            for place in first.leaves.iter().cloned().flatten() {
                other[place] = *random.one(&[0x06, 0x0e, 0x2b, 0x34, 0x00, 0x01, 0x81, 0x88, 0x89, 0xff]);
            }
            assert_eq!(first.text, Outline::of(&other, end, depth).text, "{}", case.line());
        }
    }
}
