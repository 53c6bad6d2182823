//! Cases of `index`, `turn` and `shared`: scripts whose records touch, overlap or don't fit.

use crate::asked::index::{Entry, unfit};
use crate::cases::random::Random;
use crate::line::Case;

/// A room and a script.
pub fn index(random: &mut Random) -> Case {
    let room = room(random, 6);
    Case { numbers: vec![random.below(2) as u64, room], list: script(random), ..Case::default() }
}

/// Rows or columns, and a room that holds them or not.
pub fn turn(random: &mut Random) -> Case {
    let count = room(random, 5) as usize;
    let lent = super::room(random, count);
    Case { numbers: vec![random.below(2) as u64, lent], bytes: random.bytes(count), ..Case::default() }
}

/// A room, two shares that mostly fit it, and a script over two files.
pub fn shared(random: &mut Random) -> Case {
    let room = room(random, 6);
    let whole = room as usize / 16;
    let a = random.below(whole + 1);
    let b = if random.percent(92) { random.below(whole - a + 1) } else { whole - a + 1 };
    let b = if random.percent(2) { random.edge() } else { b as u64 };
    let mut files = [Vec::new(), Vec::new()];
    let operations: Vec<String> = (0..random.below(20)).map(|turn| of_a_file(random, &mut files, turn)).collect();
    let list = if operations.is_empty() { "-".into() } else { operations.join(",") };
    Case { numbers: vec![random.below(2) as u64, room, a as u64, b], list, ..Case::default() }
}

/// Opens a file, which the first operations mostly do, closes it, or adds to it or asks it.
fn of_a_file(random: &mut Random, files: &mut [Vec<Entry>; 2], turn: usize) -> String {
    let file = random.below(2);
    let named = if random.percent(3) { *random.one(&[2, 3, u64::MAX]) } else { file as u64 };
    match random.below(14) {
        _ if turn < 2 && random.percent(80) => format!("o:{turn}"),
        0 => format!("o:{named}"),
        1 => {
            files[file].clear();
            if random.percent(60) { format!("c:{named},o:{named}") } else { format!("c:{named}") }
        }
        _ => operation(random, &mut files[file], &format!("{named}:")),
    }
}

/// A room for a few records, and some bytes more.
pub fn room(random: &mut Random, most: usize) -> u64 {
    let more = if random.percent(30) { random.below(16) } else { 0 };
    (16 * random.below(most + 1) + more) as u64
}

/// Operations on one file.
fn script(random: &mut Random) -> String {
    let mut entries = Vec::new();
    let operations: Vec<String> = (0..random.below(12)).map(|_| operation(random, &mut entries, "")).collect();
    if operations.is_empty() { "-".into() } else { operations.join(",") }
}

/// Adds a record or asks for a position; `file` is what stands before the numbers, and `entries` what may have been added.
pub fn operation(random: &mut Random, entries: &mut Vec<Entry>, file: &str) -> String {
    if random.percent(40) {
        return format!("f:{file}{}", position(random, entries));
    }
    let entry = entry(random, entries);
    if unfit(entries, &entry).is_none() {
        entries.push(entry);
    }
    let Entry { start, size, group, length } = entry;
    format!("a:{file}{start}:{size}:{group}:{length}")
}

/// A record that begins at the last one's end mostly, or one before or after it.
fn entry(random: &mut Random, entries: &[Entry]) -> Entry {
    let end = entries.last().map_or(0, |last| last.end().min(u64::MAX as u128) as u64);
    let start = match random.below(12) {
        0 => end.saturating_sub(1),
        1 => random.edge(),
        2 => (1 << 48) - 1 + random.below(2) as u64,
        3 => random.below(60) as u64,
        4..8 => end.saturating_add(random.below(30) as u64),
        _ => end,
    };
    let size = if random.percent(90) { random.between(1, 9) as u64 } else { *random.one(&[0, 10, 15, 16, 17, u64::MAX]) };
    let group = if random.percent(90) { *random.one(&[0, 1, 63, 4095]) } else { *random.one(&[64, 4094, 4096, 8191, u64::MAX]) };
    let length = match random.below(12) {
        0 => random.edge(),
        1..4 => 0,
        _ => random.below(40) as u64,
    };
    Entry { start, size, group, length }
}

/// A position at a record's start or end or beside it, or anywhere.
fn position(random: &mut Random, entries: &[Entry]) -> u64 {
    if entries.is_empty() || random.percent(10) {
        return random.edge();
    }
    let entry = *random.one(entries);
    let end = entry.end().min(u64::MAX as u128) as u64;
    let near = *random.one(&[entry.start, entry.start.saturating_add(16 + entry.size), end]);
    near.saturating_add(random.below(3) as u64).saturating_sub(1)
}
