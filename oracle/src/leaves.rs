//! L4's leaf values tried out: copies of files with other leaf bytes, and copies with another byte changed. The model
//! (asked/outline.rs) says which bytes are leaf values; the outlines are the port's.

use std::io::Result;
use std::path::Path;

use crate::asked::outline::Outline;
use crate::cases;
use crate::cases::random::Random;
use crate::compare::Port;
use crate::files::{MOST, paths};
use crate::line::{Case, parse};
use crate::plain::finished;

/// The copies of a file with other leaf bytes; one more has another byte changed.
const COPIES: usize = 4;

/// The files that the port is asked about at once.
const AT_ONCE: u64 = 10_000;

/// Bytes that look like a key, a length or a tag.
const SHAM: [u8; 10] = [0x06, 0x0e, 0x2b, 0x34, 0x00, 0x01, 0x81, 0x88, 0x89, 0xff];

/// How many copies there were with other leaf bytes, how many with another byte changed, and of these how many whose outline
/// was another.
#[derive(Default)]
pub struct Tried {
    pub leaves: u64,
    pub others: u64,
    pub changed: u64,
}

/// Tries copies of fresh files and of parts of a folder's files, until so many had other leaf bytes: what was tried, or the
/// lines of a file and of such a copy whose outline is another.
pub fn check(port: &Port, count: u64, seed: u64, folder: &Path) -> Result<std::result::Result<Tried, [String; 2]>> {
    let files: Vec<Vec<u8>> = paths(folder)?.iter().map(std::fs::read).collect::<Result<_>>()?;
    let (mut tried, mut index) = (Tried::default(), 0);
    while tried.leaves < count {
        let groups: Vec<_> = (index..index + AT_ONCE).filter_map(|index| copies(&files, seed, index)).collect();
        index += AT_ONCE;
        let lines: Vec<String> = groups.concat();
        let answers = port.answers(&lines)?;
        assert_eq!(lines.len(), answers.len(), "an answer for each line");
        for (lines, answers) in lines.chunks(COPIES + 2).zip(answers.chunks(COPIES + 2)) {
            if let Some(other) = (1..=COPIES).find(|copy| answers[*copy] != answers[0]) {
                return Ok(Err([lines[0].clone(), lines[other].clone()]));
            }
            tried.leaves += COPIES as u64;
            tried.others += 1;
            tried.changed += u64::from(answers[COPIES + 1] != answers[0]);
        }
    }
    Ok(Ok(tried))
}

/// The lines of a file, of its copies with other leaf bytes, and of one with another byte changed; none where the file has no
/// leaf bytes or no others.
fn copies(files: &[Vec<u8>], seed: u64, index: u64) -> Option<Vec<String>> {
    let mut random = Random::of("leaves", seed, index);
    let case = if index % 2 == 0 { fresh(seed, index)? } else { part(files, &mut random)? };
    let leaves: Vec<usize> = Outline::of(&case.bytes, case.numbers[0], case.numbers[1]).leaves.into_iter().flatten().collect();
    let others: Vec<usize> = (0..case.bytes.len()).filter(|place| leaves.binary_search(place).is_err()).collect();
    if leaves.is_empty() || others.is_empty() {
        return None;
    }
    let mut lines = vec![case.line()];
    for _ in 0..COPIES {
        let mut copy = case.clone();
        let share = *random.one(&[0, 5, 50, 100]);
        for place in leaves.iter().filter(|_| random.percent(share)).copied().collect::<Vec<_>>() {
            copy.bytes[place] = if random.percent(50) { *random.one(&SHAM) } else { random.byte() };
        }
        let place = *random.one(&leaves);
        copy.bytes[place] = other(&mut random, case.bytes[place]);
        lines.push(copy.line());
    }
    let (mut copy, place) = (case.clone(), *random.one(&others));
    copy.bytes[place] = other(&mut random, case.bytes[place]);
    lines.push(copy.line());
    Some(lines)
}

/// Another byte.
fn other(random: &mut Random, byte: u8) -> u8 {
    byte.wrapping_add(random.between(1, 255) as u8)
}

/// A fresh case with an outline, in room for it.
fn fresh(seed: u64, index: u64) -> Option<Case> {
    let mut case = parse(&cases::case("outline", seed, index))?;
    case.numbers[2] = MOST as u64 * 6;
    let answered = case.numbers[0] <= case.bytes.len() as u64 && (1..=8).contains(&case.numbers[1]);
    answered.then_some(case)
}

/// A part of one of the files from one of its records on, to any depth.
fn part(files: &[Vec<u8>], random: &mut Random) -> Option<Case> {
    let file = random.one(files);
    let records = finished(file, file.len()).0;
    let from = random.one(&records).place as usize;
    let bytes = file[from..file.len().min(from + random.between(40, 3000))].to_vec();
    let numbers = vec![bytes.len() as u64, random.between(1, 8) as u64, MOST as u64 * 6];
    Some(Case { word: "outline", numbers, bytes, ..Case::default() })
}

#[cfg(test)]
mod tests {
    use super::*;

    #[test]
    fn copies_differ_in_leaf_bytes_and_the_last_one_in_no_leaf_byte() {
        let file = [&crate::cases::sketch::START[..], &[2, 0x53, 1, 1, 1, 1, 1, 1, 1, 1, 1, 1, 7, 1, 1, 0, 3], b"abc"].concat();
        for index in (1..400).step_by(2) {
            let Some(lines) = copies(&[file.clone()], 1, index) else { continue };
            let cases: Vec<Case> = lines.iter().map(|line| parse(line).unwrap()).collect();
            let leaves: Vec<usize> =
                Outline::of(&cases[0].bytes, cases[0].numbers[0], cases[0].numbers[1]).leaves.into_iter().flatten().collect();
            for (number, case) in cases.iter().enumerate().skip(1) {
                let places: Vec<usize> = (0..case.bytes.len()).filter(|place| case.bytes[*place] != cases[0].bytes[*place]).collect();
                assert!(!places.is_empty());
                assert!(places.iter().all(|place| leaves.contains(place) == (number <= COPIES)));
            }
        }
    }
}
