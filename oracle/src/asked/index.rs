//! L10: an index beside the file, 16 bytes a record, in rows or by L12 in columns.

use std::fmt::Write;

use super::columns::columns_of;
use crate::line::{Case, Field, Word, digits, put_bytes};

pub const WORDS: &[Word] = &[("index", &[Field::Coding, Field::Room, Field::List])];

/// The answer to a case.
pub fn put(out: &mut String, case: &Case) {
    let room = case.numbers[1] as usize;
    match script(&case.list, 0) {
        Some(script) => run(out, &script, room, case.numbers[0] == 1),
        None => out.push('?'),
    }
}

/// A record of an index.
#[derive(Clone, Copy, PartialEq, Eq, Debug)]
pub struct Entry {
    pub start: u64,
    pub size: u64,
    pub group: u64,
    pub length: u64,
}

impl Entry {
    /// The entry that four numbers are.
    pub fn of(numbers: &[u64]) -> Self {
        let [start, size, group, length] = numbers[..] else { unreachable!("four numbers") };
        Self { start, size, group, length }
    }

    /// The place after the value.
    pub fn end(&self) -> u128 {
        self.start as u128 + 16 + self.size as u128 + self.length as u128
    }

    /// The 16 bytes: 48 bits start, 4 bits size, 12 bits group, 64 bits length.
    fn bytes(&self) -> [u8; 16] {
        let bits = (self.start as u128) << 80 | (self.size as u128) << 76 | (self.group as u128) << 64 | self.length as u128;
        bits.to_be_bytes()
    }
}

/// The refusal of an entry after others, if it isn't for want of room: 15, 16 or 17.
pub fn unfit(entries: &[Entry], entry: &Entry) -> Option<u64> {
    if !(1..=9).contains(&entry.size) || entry.group >= 64 && entry.group != 4095 {
        return Some(15);
    }
    if entry.start >= 1 << 48 {
        return Some(16);
    }
    let last = entries.last().map_or(0, Entry::end);
    ((entry.start as u128) < last).then_some(17)
}

/// The number of the first entry that covers a position, and the entry.
pub fn find(entries: &[Entry], position: u64) -> Option<(usize, &Entry)> {
    entries.iter().enumerate().find(|(_, entry)| entry.start <= position && (position as u128) < entry.end())
}

/// Puts what asking for a position answers.
pub fn put_found(out: &mut String, entries: &[Entry], position: u64) {
    match find(entries, position) {
        Some((k, Entry { start, size, group, length })) => write!(out, "{k}:{start}:{size}:{group}:{length};").unwrap(),
        None => out.push_str("-;"),
    }
}

/// Puts what adding answers: that it was done, or its refusal.
pub fn put_added(out: &mut String, refusal: Option<u64>) {
    match refusal {
        Some(number) => write!(out, "refused {number};").unwrap(),
        None => out.push_str("ok;"),
    }
}

/// An operation: its letter and its numbers.
pub type Operation = (char, Vec<u64>);

/// The operations of a script with so many numbers more than L10's in each, if it is one.
pub fn script(list: &str, more: usize) -> Option<Vec<Operation>> {
    if list == "-" {
        return Some(Vec::new());
    }
    let operation = |text: &str| {
        let mut parts = text.split(':');
        let letter = parts.next()?;
        let numbers: Vec<u64> = parts.map(digits).collect::<Option<_>>()?;
        let wanted = match letter {
            "a" => 4,
            "f" => 1,
            "o" | "c" if more > 0 => 0,
            _ => return None,
        };
        (numbers.len() == wanted + more).then_some((letter.chars().next()?, numbers))
    };
    list.split(',').map(operation).collect()
}

/// `index`: a script over a lent buffer of so many bytes, and the buffer after it.
fn run(out: &mut String, script: &[Operation], room: usize, columns: bool) {
    let mut entries: Vec<Entry> = Vec::new();
    for (letter, numbers) in script {
        if *letter == 'f' {
            put_found(out, &entries, numbers[0]);
            continue;
        }
        let entry = Entry::of(numbers);
        let full = entries.len() >= room / 16;
        let refusal = unfit(&entries, &entry).or(full.then_some(18));
        put_added(out, refusal);
        if refusal.is_none() {
            entries.push(entry);
        }
    }
    out.push('|');
    let rows = rows(&entries, room);
    put_bytes(out, &if columns { columns_of(&rows) } else { rows });
}

/// A lent buffer of zeros with entries in its first rows.
fn rows(entries: &[Entry], room: usize) -> Vec<u8> {
    let mut bytes: Vec<u8> = entries.iter().flat_map(Entry::bytes).collect();
    bytes.resize(room, 0);
    bytes
}

#[cfg(test)]
mod tests {
    use super::*;
    use crate::asked::tests::shows;
    use crate::cases;
    use crate::line::parse;
    use crate::words::walk::records;

    const ROWS: &str = "0000000000011000000000000000000200000000001420000000000000000000";

    #[test]
    fn records_are_added_and_found() {
        let script = "a:1:1:0:2,a:20:2:0:0,f:0,f:19,f:37,f:38,a:19:1:0:0,a:38:1:0:0";
        let right = format!("ok;ok;-;0:1:1:0:2;1:20:2:0:0;-;refused 17;refused 18;|{ROWS}");
        shows(&format!("index 0 32 {script}"), &right);
        shows("index 0 32 a:1:1:0:2,a:20:2:0:0,f:1,f:17,f:20", &format!("ok;ok;0:1:1:0:2;0:1:1:0:2;1:20:2:0:0;|{ROWS}"));
        shows("index 0 16 a:281474976710655:9:4095:18446744073709551615", "ok;|ffffffffffff9fffffffffffffffffff");
        shows("index 0 0 -", "|-");
        shows("index 0 1 f:0", "-;|00");
    }

    #[test]
    fn refusals_in_their_order() {
        let added = |script: &str| format!("index 0 16 a:0:1:0:18446744073709551615,{script}");
        let row = "0000000000001000ffffffffffffffff";
        for (script, right) in [
            ("a:0:0:0:0", 15),
            ("a:281474976710656:0:0:0", 15),
            ("a:0:10:0:0", 15),
            ("a:0:1:64:0", 15),
            ("a:0:1:4094:0", 15),
            ("a:0:1:4096:0", 15),
            ("a:281474976710656:1:0:0", 16),
            ("a:5:1:0:0", 17),
        ] {
            shows(&added(script), &format!("ok;refused {right};|{row}"));
        }
        shows("index 0 15 a:0:1:0:0", "refused 18;|000000000000000000000000000000");
        shows("index 0 15 a:0:1:0", "?");
        shows("index 0 15 o:0", "?");
    }

    /// Adding a walk's records in order is refused for want of room alone, and a position finds the record that covers it.
    #[test]
    fn the_records_of_a_walk_are_taken() {
        for index in 0..3000 {
            let case = parse(&cases::case("passed", 11, index)).unwrap();
            let mut entries = Vec::new();
            let records = records(&case.bytes, case.bytes.len() as u64);
            for record in &records {
                let size = record.value - record.place - 16;
                let entry = Entry { start: record.place, size, group: 4095, length: record.length };
                assert_eq!(unfit(&entries, &entry), None, "{}", case.line());
                entries.push(entry);
            }
            for position in 0..case.bytes.len() as u64 + 2 {
                let covering = records.iter().position(|record| (record.place..record.end()).contains(&position));
                assert_eq!(find(&entries, position).map(|(k, _)| k), covering, "{} {position}", case.line());
            }
        }
    }
}
