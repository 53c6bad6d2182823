//! A recorded sample: cases and the expected answers, as the standard input and output that the gate replays.

use std::collections::HashSet;

use crate::cases::case;
use crate::known::expected;

/// The length that most lines of a sample keep to, and the one that all do, where the word has such cases.
const SHORT: usize = 240;
const MOST: usize = 1400;

/// The lines with which every sample begins; those of words that it does not hold are left out.
const FIRST: &str = include_str!("../first.txt");

/// The cases and answers of a sample, so many cases for each word.
pub fn sample(words: &[&str], count: usize, seed: u64) -> (String, String) {
    let mut lines: Vec<String> = FIRST.lines().filter(|line| is_of(line, words)).map(String::from).collect();
    for word in words {
        lines.extend(cases_of(word, count, seed));
    }
    let answers: String = lines.iter().map(|line| expected(line).0 + "\n").collect();
    (lines.join("\n") + "\n", answers)
}

/// Whether a first line is of one of the words, or of none that there is.
fn is_of(line: &str, words: &[&str]) -> bool {
    let word = line.split(' ').next().unwrap_or_default();
    words.contains(&word) || crate::line::word(word).is_none()
}

/// So many different cases of a word, most of them short.
fn cases_of(word: &str, count: usize, seed: u64) -> Vec<String> {
    let mut seen = HashSet::new();
    let mut lines = Vec::new();
    let mut room_for_long = count / 8;
    for index in 0..40 * count as u64 {
        if lines.len() == count {
            break;
        }
        if index == 20 * count as u64 {
            room_for_long = count;
        }
        let line = case(word, seed, index);
        let long = line.len() > SHORT;
        if line.len() > MOST || (long && room_for_long == 0) || !seen.insert(line.clone()) {
            continue;
        }
        room_for_long -= long as usize;
        lines.push(line);
    }
    lines
}

#[cfg(test)]
mod tests {
    use super::*;

    #[test]
    fn a_sample_has_an_answer_for_each_case() {
        let (cases, answers) = sample(&["ber", "walk"], 50, 1);
        assert_eq!(cases.lines().count(), answers.lines().count());
        assert!(cases.lines().filter(|line| line.starts_with("walk ")).count() >= 50);
        assert_eq!((cases, answers), sample(&["ber", "walk"], 50, 1));
    }
}
