//! Cases of each word, drawn from a seed: the case at an index is the same wherever and whenever it is drawn.

mod arri;
pub mod asked;
mod canon;
pub mod random;
pub mod sketch;
mod sony;
mod tables;
mod walk;

use random::Random;

use crate::line::{self, Case, Field, LONGEST};

/// The line of the case of a word at a seed and an index.
pub fn case(word: &str, seed: u64, index: u64) -> String {
    let mut random = Random::of(word, seed, index);
    let word = line::word(word).expect("a word").0;
    let case = asked::case(word, &mut random).unwrap_or_else(|| {
        let (numbers, bytes) = numbers_and_bytes(word, &mut random);
        Case { word, numbers, bytes, ..Case::default() }
    });
    let line = with_n(&mut random, case);
    assert!(line.len() <= LONGEST, "a line that is too long");
    line
}

/// The lines of so many cases of a word at a seed.
pub fn drawn(word: &'static str, count: u64, seed: u64) -> impl Iterator<Item = String> + Send + 'static {
    (0..count).map(move |index| case(word, seed, index))
}

/// The numbers and bytes of a case of the base.
fn numbers_and_bytes(word: &str, random: &mut Random) -> (Vec<u64>, Vec<u8>) {
    match word {
        "ber" => (vec![], walk::ber(random)),
        "walk" => walk::walk(random),
        "step" => walk::step(random),
        "klvs" => (vec![], walk::klvs(random)),
        "arrive" => walk::arrive(random),
        "tally" => (vec![], walk::tally(random)),
        "header" => (vec![], tables::header(random)),
        "primer" => (vec![], tables::primer(random)),
        "items" => tables::items(random),
        "dynamic" => (vec![], arri::dynamic(random)),
        "ofdynamic" => (vec![], arri::block(random)),
        "alexa" => (vec![], arri::alexa(random)),
        "arri" => arri::arri(random),
        "anc" => (vec![], sony::anc(random)),
        "set" => (vec![], sony::set(random)),
        "sony" => sony::sony(random),
        "packs" => (vec![], canon::packs(random)),
        "package" => (vec![], canon::package(random)),
        "sequence" => (vec![], canon::sequence(random)),
        "canon" => canon::canon(random),
        _ => panic!("no cases of {word}"),
    }
}

/// The case's line, now and then with `n` for the end.
fn with_n(random: &mut Random, case: Case) -> String {
    let line = case.line();
    let all = format!(" {} ", case.bytes.len());
    let ends = case.fields().first() == Some(&Field::End);
    if ends && case.numbers[0] == case.bytes.len() as u64 && random.percent(70) { line.replacen(&all, " n ", 1) } else { line }
}

#[cfg(test)]
mod tests {
    use super::*;
    use crate::line::{parse, words};

    #[test]
    fn the_same_seed_gives_the_same_cases() {
        for (word, _) in words() {
            for index in 0..200 {
                assert_eq!(case(word, 7, index), case(word, 7, index));
            }
            assert_ne!((0..50).map(|i| case(word, 7, i)).collect::<Vec<_>>(), (0..50).map(|i| case(word, 8, i)).collect::<Vec<_>>());
        }
    }

    #[test]
    fn every_line_is_a_case() {
        for (word, _) in words() {
            for index in 0..5000 {
                let line = case(word, 3, index);
                assert!(parse(&line).is_some(), "{line}");
            }
        }
    }
}
