//! Cases without a seed: every buffer of a small kind, with every number that may matter to it.

mod arri;
pub mod asked;
mod frames;
mod pieces;
mod tables;
mod walk;

use pieces::Buffers;

use crate::line::Case;
use crate::plain::{Length, length};

/// Cases of one buffer after another.
pub type Cases = Box<dyn Iterator<Item = Vec<Case>> + Send>;

/// The lines of every case of a word.
pub fn cases(word: &'static str) -> impl Iterator<Item = String> + Send + 'static {
    by_buffer(word).flatten().map(|case| case.line())
}

/// How many buffers and cases of a word there are.
pub fn counted(word: &'static str) -> (u64, u64) {
    by_buffer(word).fold((0, 0), |(buffers, all), cases| (buffers + 1, all + cases.len() as u64))
}

/// Every case of a word, those of a buffer together.
fn by_buffer(word: &'static str) -> Cases {
    asked::cases(word).unwrap_or_else(|| of(word, buffers(word), move |bytes| numbers(word, bytes)))
}

/// The cases of a word over some buffers, with each of the numbers that a buffer has.
fn of(word: &'static str, buffers: Buffers, numbers: impl Fn(&[u8]) -> Vec<Vec<u64>> + Send + 'static) -> Cases {
    Box::new(buffers.map(move |bytes| {
        let case = |numbers| Case { word, numbers, bytes: bytes.clone(), ..Case::default() };
        numbers(&bytes).into_iter().map(case).collect()
    }))
}

/// Every buffer of a word of the base.
fn buffers(word: &str) -> Buffers {
    match word {
        "ber" => walk::lengths(),
        "walk" => walk::ended(),
        "step" => walk::stepped(),
        "klvs" => walk::runs(),
        "arrive" => walk::arriving(),
        "tally" => walk::tallied(),
        "items" => tables::items(),
        "header" => tables::headers(),
        "primer" => tables::primers(),
        "dynamic" => arri::elements(),
        "ofdynamic" => arri::blocks(),
        "alexa" => arri::alexa(),
        "set" => tables::sets(),
        "anc" => tables::ancillary(),
        "packs" => tables::packs(),
        "sequence" => tables::sequence_infos(),
        "package" => tables::packages(),
        "sony" => frames::sony(),
        "arri" => frames::arri(),
        "canon" => frames::canon(),
        _ => panic!("not every case of {word}"),
    }
}

/// The numbers of a word's cases over a buffer: every end and the first one past it, every cursor, the limits that matter,
/// both codings.
fn numbers(word: &str, bytes: &[u8]) -> Vec<Vec<u64>> {
    let count = bytes.len() as u64;
    match word {
        "walk" | "sony" | "arri" | "canon" => (0..=count + 1).map(|end| vec![end]).collect(),
        "step" => (0..=count).flat_map(|end| (0..=count + 2).map(move |from| vec![end, from])).collect(),
        "arrive" => limits(bytes).into_iter().map(|limit| vec![limit]).collect(),
        "items" => vec![vec![0], vec![1]],
        _ => vec![vec![]],
    }
}

/// The limits on both sides of the bytes' number and of each value's end, and the largest.
fn limits(bytes: &[u8]) -> Vec<u64> {
    let around = |place: u64| [place.saturating_sub(1), place, place.saturating_add(1)];
    let value_end = |place: usize| match length(&bytes[place + 16..]) {
        Length::Is(number, size) => Some((place as u64 + 16 + size as u64).saturating_add(number)),
        _ => None,
    };
    let ends = (0..bytes.len().saturating_sub(16)).filter(|place| bytes[*place..].starts_with(&walk::START)).filter_map(value_end);
    let least = (bytes.len() as u64).saturating_sub(1);
    let mut limits: Vec<u64> = ends.flat_map(around).filter(|limit| *limit >= least).collect();
    limits.extend(around(bytes.len() as u64));
    limits.push(u64::MAX);
    limits.sort_unstable();
    limits.dedup();
    limits
}

#[cfg(test)]
mod tests {
    use super::*;
    use crate::line::{parse, words};

    #[test]
    fn every_line_is_a_case() {
        for (word, _) in words() {
            for case in by_buffer(word).step_by(197).take(40).flatten() {
                assert!(parse(&case.line()).is_some_and(|read| read == case), "{}", case.line());
            }
        }
    }

    #[test]
    fn the_counts_are_those_of_the_alphabets() {
        let up_to = |most: u32, pieces: u64| (0..=most).map(|count| pieces.pow(count)).sum::<u64>();
        let (buffers, cases) = counted("sony");
        assert_eq!(buffers, up_to(5, 10));
        assert!(cases > 20 * buffers);
        assert_eq!(counted("tally").0, up_to(7, 8) + up_to(7, 8) - up_to(3, 8) + up_to(5, 8) - 1);
        assert_eq!(counted("step").0, up_to(4, 15) + 7u64.pow(5));
    }

    #[test]
    fn every_end_and_every_cursor_is_there() {
        assert_eq!(numbers("walk", &[0; 5]), [[0], [1], [2], [3], [4], [5], [6]]);
        assert_eq!(numbers("step", &[0; 5]).len(), 6 * 8);
        assert_eq!(numbers("klvs", &[0; 5]).len(), 1);
    }

    #[test]
    fn limits_stand_on_both_sides_of_a_values_end() {
        let mut bytes = walk::START.to_vec();
        bytes.resize(16, 0);
        bytes.push(9);
        assert_eq!(limits(&bytes), [16, 17, 18, 25, 26, 27, u64::MAX]);
        assert_eq!(limits(&[]), [0, 1, u64::MAX]);
    }
}
