//! Cases from real files: each whole where a line holds it, and in torn parts.

use std::io::Result;
use std::path::{Path, PathBuf};

use crate::asked;
use crate::cases::random::Random;
use crate::line::{self, Case, Field, LONGEST};

/// The words of the base that take any part of a file.
const TAKING: [&str; 8] = ["walk", "klvs", "arrive", "tally", "header", "sony", "arri", "canon"];

/// Whether a word takes any part of a file.
pub fn takes(word: &str) -> bool {
    TAKING.contains(&word) || asked::TAKING.contains(&word)
}

/// The most bytes of a case, so that its line is none that is too long.
pub const MOST: usize = (LONGEST - 40) / 2;

/// The torn parts of each file.
const TORN: usize = 40;

/// The cases of some words from the files of a folder whose names end in `.mxf`.
pub fn cases(folder: &Path, words: &[&str]) -> Result<Vec<String>> {
    let mut lines = Vec::new();
    for path in paths(folder)? {
        let bytes = std::fs::read(path)?;
        for part in parts(&bytes) {
            lines.extend(words.iter().filter(|word| takes(word)).map(|word| case(word, part).line()));
        }
    }
    Ok(lines)
}

/// The paths of a folder's files whose names end in `.mxf`, in order.
pub fn paths(folder: &Path) -> Result<Vec<PathBuf>> {
    let mut paths: Vec<_> = std::fs::read_dir(folder)?.map(|entry| entry.map(|entry| entry.path())).collect::<Result<_>>()?;
    paths.retain(|path| path.extension().is_some_and(|extension| extension == "mxf"));
    paths.sort();
    Ok(paths)
}

/// A file's parts: those that together are the whole, and torn ones.
fn parts(bytes: &[u8]) -> Vec<&[u8]> {
    let mut random = Random::of("parts", 0, bytes.len() as u64);
    let mut parts: Vec<&[u8]> = bytes.chunks(MOST).collect();
    for _ in 0..TORN {
        let from = random.below(bytes.len());
        let size = random.below((bytes.len() - from).min(4000) + 1);
        parts.push(&bytes[from..from + size]);
    }
    parts
}

/// The case of a word over all of a part.
pub fn case(word: &str, part: &[u8]) -> Case {
    let (word, fields) = line::word(word).expect("a word");
    let number = |field: &Field| match field {
        Field::End => Some(part.len() as u64),
        Field::Number => Some(2 * part.len() as u64),
        Field::Depth => Some(8),
        Field::Room => Some(LONGEST as u64),
        _ => None,
    };
    let list = if fields.contains(&Field::Cut) { "97".into() } else { String::new() };
    Case { word, numbers: fields.iter().filter_map(number).collect(), list, bytes: part.to_vec(), ..Case::default() }
}

#[cfg(test)]
mod tests {
    use super::*;
    use crate::line::parse;

    #[test]
    fn every_part_of_a_file_makes_cases() {
        let bytes = vec![6; MOST + 1];
        assert_eq!(parts(&bytes).len(), 2 + TORN);
        for part in parts(&bytes) {
            assert!(TAKING.iter().all(|word| parse(&case(word, part).line()).is_some()));
        }
    }
}
