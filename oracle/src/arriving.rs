//! Demand 3 tried out: what an arriving walk lists, with its counts, beside the published walk's finished lists of every short
//! extension. Of records, and by L13 of Sony's and ARRI's frames. The walk is the port's, or the reading of the rules.

use std::io::{Error, Result};

use crate::answer;
use crate::cases::random::Random;
use crate::cases::sketch::{LABELS, Sketch, encoded};
use crate::compare::Port;
use crate::line::Case;

/// The most bytes that an extension has.
const LONGEST: usize = 3;

/// A walk that is tried: its word, the word of its finished form, the labels of its buffers, and the bytes that extensions are
/// made of: those of a key start, lengths and what ends a label.
struct Tried {
    arriving: &'static str,
    finished: &'static str,
    labels: &'static [[u8; 16]],
    alphabet: [u8; 8],
}

/// A label that is nobody's.
const PLAIN: [u8; 16] = hex_literal::hex!("060e2b34 00000000 00000000 00000000");

const TRIED: [Tried; 3] = [
    Tried { arriving: "passarrive", finished: "passed", labels: &[PLAIN], alphabet: [0x06, 0x0e, 0x2b, 0x34, 0x00, 0x02, 0x81, 0x89] },
    Tried {
        arriving: "sonyarrive",
        finished: "passsony",
        labels: &[LABELS[2], LABELS[2], PLAIN],
        alphabet: [0x06, 0x0e, 0x2b, 0x34, 0x00, 0x01, 0x81, 0x89],
    },
    Tried {
        arriving: "arriarrive",
        finished: "passarri",
        labels: &[LABELS[3], LABELS[4], LABELS[4], PLAIN],
        alphabet: [0x06, 0x0e, 0x2b, 0x34, 0x00, 0x01, 0x81, 0x89],
    },
];

/// Checks so many buffers of a word, by the port where one is given: how many extensions were walked, or the first buffer whose lists
/// don't agree.
pub fn check(port: Option<&Port>, word: &str, count: u64, seed: u64) -> Result<std::result::Result<u64, String>> {
    let tried = TRIED.iter().find(|tried| tried.arriving == word).ok_or_else(|| Error::other(format!("{word} is not tried")))?;
    let cases: Vec<Case> = (0..count).map(|index| tried.case(seed, index)).collect();
    let answers = match port {
        Some(port) => port.answers(&cases.iter().map(Case::line).collect::<Vec<_>>())?,
        None => cases.iter().map(answered).collect(),
    };
    if answers.len() != cases.len() {
        return Err(Error::other(format!("{} answers to {} cases", answers.len(), cases.len())));
    }
    let mut extensions = 0;
    for (case, answer) in cases.iter().zip(&answers) {
        let (common, walked) = tried.common_beginning(&case.bytes, case.numbers[0] as usize);
        extensions += walked;
        let arrived = listed(answer);
        if arrived != common {
            let [arrived, common] = [arrived, common].map(|list| list.join(";"));
            return Ok(Err(format!("case: {}\nwalk: {arrived}\ncommon to the finished lists: {common}", case.line())));
        }
    }
    Ok(Ok(extensions))
}

/// The answer to a case by the rules, or by the published walk.
fn answered(case: &Case) -> String {
    let mut out = String::new();
    answer::put(&mut out, case);
    out
}

/// What an answer lists.
fn listed(answer: &str) -> Vec<String> {
    let list = answer.split('|').next().unwrap_or_default();
    list.split_terminator(';').map(String::from).collect()
}

impl Tried {
    /// A buffer, and a limit that leaves room for its extensions.
    fn case(&self, seed: u64, index: u64) -> Case {
        let mut random = Random::of("arriving", seed, index);
        let bytes = self.buffer(&mut random);
        let limit = bytes.len() + random.between(0, LONGEST);
        Case { word: self.arriving, numbers: vec![limit as u64], bytes, ..Case::default() }
    }

    /// A buffer that ends in the midst of something, seldom one with an element that is over-long to ARRI.
    fn buffer(&self, random: &mut Random) -> Vec<u8> {
        let mut sketch = Sketch::default();
        if random.below(400) == 0 {
            sketch.bytes.extend([&self.labels[0][..], &encoded(8193, 3), &vec![0; 8000]].concat());
            self.element(random, &mut sketch.bytes);
            sketch.bytes.resize(19 + random.between(8190, 8193), 0);
        }
        for _ in 0..random.between(0, 2) {
            self.element(random, &mut sketch.bytes);
        }
        if random.percent(40) {
            let label = *random.one(self.labels);
            sketch.bytes.extend(&label[..random.between(1, 16)]);
        }
        if random.percent(30) {
            sketch.damage(random);
        }
        if random.percent(40) {
            sketch.bytes.truncate(sketch.bytes.len().saturating_sub(random.between(1, 4)));
        }
        sketch.bytes
    }

    /// An element of a small size, its value mostly whole.
    fn element(&self, random: &mut Random, bytes: &mut Vec<u8>) {
        bytes.extend(random.one(self.labels));
        let form = *random.one(&[1, 1, 2, 3]);
        let length = random.below(40);
        bytes.extend(encoded(length as u64, form));
        let there = if random.percent(60) { length } else { length.saturating_sub(random.between(1, 3)) };
        if there > 17 && random.percent(30) {
            bytes.extend([&random.one(self.labels)[..], &vec![0; there - 16]].concat());
        } else {
            bytes.extend((0..there).map(|_| *random.one(&self.alphabet)));
        }
    }

    /// The longest list that the finished lists of all extensions within a limit begin with, and how many there are.
    fn common_beginning(&self, bytes: &[u8], limit: usize) -> (Vec<String>, u64) {
        let finished = |bytes: &[u8]| {
            let case = Case { word: self.finished, numbers: vec![bytes.len() as u64], bytes: bytes.to_vec(), ..Case::default() };
            listed(&answered(&case))
        };
        let mut common = finished(bytes);
        let mut walked = 1;
        let mut longer = vec![bytes.to_vec()];
        for _ in bytes.len()..limit {
            longer = longer.iter().flat_map(|bytes| self.alphabet.map(|byte| [&bytes[..], &[byte]].concat())).collect();
            for extension in &longer {
                let list = finished(extension);
                common.truncate(common.iter().zip(&list).take_while(|(a, b)| a == b).count());
                walked += 1;
            }
        }
        (common, walked)
    }
}

#[cfg(test)]
mod tests {
    use super::*;

    #[test]
    fn the_arriving_list_is_common_to_all_finished_ones() {
        for tried in &TRIED {
            let checked = check(None, tried.arriving, 300, 1).expect("a word that is tried");
            assert_eq!(checked.map(|extensions| extensions > 300), Ok(true));
        }
    }

    #[test]
    fn a_port_that_lists_nothing_is_found_out() {
        let silent = Port(["sed", "-u", "s/.*/|/"].map(String::from).to_vec());
        let checked = check(Some(&silent), "arriarrive", 300, 1).expect("as many answers as cases");
        assert!(checked.is_err());
    }
}
