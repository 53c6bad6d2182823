//! Cases from real files, torn and damaged: each cut of them, each end in their parts, and each of some bytes changed.

use std::sync::Arc;

use crate::files::{MOST, case};
use crate::line::{Case, Field};
use crate::plain::finished;

/// The bytes at a file's beginning that are changed, each in turn.
const CHANGED: usize = 2000;

/// The bytes of a part with every end, and of a damaged copy, at most.
const PART: usize = 4000;

/// The lines of a word over every beginning of every window of a file, which arrives as the window's beginning.
pub fn torn(word: &'static str, file: &[u8]) -> impl Iterator<Item = String> + Send + use<> {
    let windows: Vec<Arc<[u8]>> = windows(file).into_iter().map(Arc::from).collect();
    windows.into_iter().flat_map(move |window| (0..=window.len()).map(move |count| beginning(word, &window, count).line()))
}

/// The lines of a word with every end in every part of a file; none of a word without an end.
pub fn ended(word: &'static str, file: &[u8]) -> impl Iterator<Item = String> + Send + use<> {
    let cases: Vec<Case> =
        file.chunks(PART).map(|part| case(word, part)).filter(|case| case.fields() == [Field::End, Field::Bytes]).collect();
    cases.into_iter().flat_map(|case| (0..=case.bytes.len() as u64).map(move |end| Case { numbers: vec![end], ..case.clone() }.line()))
}

/// The lines of a word over every damaged copy of a file's parts.
pub fn damaged(word: &'static str, file: &[u8]) -> impl Iterator<Item = String> + Send + use<> {
    let file: Arc<[u8]> = Arc::from(file);
    changed(&file).into_iter().flat_map(move |(from, place)| {
        let copy = file[from..file.len().min(from + PART)].to_vec();
        damages(copy[place - from]).into_iter().map(move |byte| {
            let mut copy = copy.clone();
            copy[place - from] = byte;
            case(word, &copy).line()
        })
    })
}

/// How many beginnings, ends and damaged copies of a file there are.
pub fn counted(file: &[u8]) -> [usize; 3] {
    let torn = windows(file).iter().map(|window| window.len() + 1).sum();
    let ended = file.chunks(PART).map(|part| part.len() + 1).sum();
    [torn, ended, changed(file).iter().map(|(_, place)| damages(file[*place]).len()).sum()]
}

/// The case of a word over so many bytes of a window: the limit of what arrives is the window's own size.
fn beginning(word: &str, window: &[u8], count: usize) -> Case {
    let mut case = case(word, &window[..count]);
    if case.fields() == [Field::Number, Field::Bytes] {
        case.numbers[0] = window.len() as u64;
    }
    case
}

/// The file where a line holds it, else parts that lines hold: each begins at the last record of the one before.
fn windows(file: &[u8]) -> Vec<&[u8]> {
    let places: Vec<usize> = finished(file, file.len()).0.iter().map(|record| record.place as usize).collect();
    let mut windows = Vec::new();
    let mut from = 0;
    loop {
        let to = file.len().min(from + MOST);
        windows.push(&file[from..to]);
        if to == file.len() {
            return windows;
        }
        from = places.iter().copied().rfind(|place| (from + 1..to).contains(place)).unwrap_or(to);
    }
}

/// The places that are changed, each with that of its copy's first byte: those at the file's beginning, and those of every
/// length after them, whose copies begin at its label.
fn changed(file: &[u8]) -> Vec<(usize, usize)> {
    let mut places: Vec<_> = (0..file.len().min(CHANGED)).map(|place| (0, place)).collect();
    for record in finished(file, file.len()).0 {
        let (label, value) = (record.place as usize, record.value as usize);
        places.extend((label + 16..value).filter(|place| *place >= CHANGED).map(|place| (label, place)));
    }
    places
}

/// What a byte is changed to: no length, the shortest, ones that are too long, and the bytes on both sides of its own.
fn damages(byte: u8) -> Vec<u8> {
    let mut others = vec![0x00, 0x80, 0x89, 0xff, byte.wrapping_sub(1), byte.wrapping_add(1)];
    others.sort_unstable();
    others.dedup();
    others.retain(|other| *other != byte);
    others
}

#[cfg(test)]
mod tests {
    use super::*;
    use crate::cases::sketch::PIECES;
    use crate::line::parse;

    #[test]
    fn a_file_is_torn_at_every_place() {
        let file = PIECES[0];
        let cases: Vec<Case> = torn("walk", file).map(|line| parse(&line).unwrap()).collect();
        assert_eq!(cases.len(), file.len() + 1);
        assert_eq!(counted(file), [cases.len(), ended("walk", file).count(), damaged("walk", file).count()]);
        assert!(cases.iter().enumerate().all(|(count, case)| case.bytes == file[..count] && case.numbers == [count as u64]));
        assert!(torn("arrive", file).all(|line| parse(&line).unwrap().numbers == [file.len() as u64]));
    }

    #[test]
    fn every_end_of_every_part_is_there() {
        let file = [6; PART + 2];
        let ends: Vec<u64> = ended("sony", &file).map(|line| parse(&line).unwrap().numbers[0]).collect();
        assert_eq!(ends, (0..=PART as u64).chain(0..=2).collect::<Vec<_>>());
        assert_eq!(ended("arrive", &file).count() + ended("klvs", &file).count(), 0);
    }

    #[test]
    fn the_windows_of_a_long_file_overlap() {
        let mut file = PIECES[0].repeat(MOST / PIECES[0].len() + 1);
        file.resize(file.len() + 3 * MOST, 0);
        let windows = windows(&file);
        assert!(windows.iter().all(|window| window.len() <= MOST));
        assert!(windows.iter().map(|window| window.len()).sum::<usize>() > file.len());
    }

    #[test]
    fn every_changed_byte_differs_in_its_copy() {
        let file = PIECES[4];
        for (from, place) in changed(file) {
            assert!(from <= place && place < file.len().min(from + PART));
            assert!(damages(file[place]).iter().all(|byte| *byte != file[place]));
        }
        let sizes = [damages(0x00), damages(0x42), damages(0x80)].map(|bytes| bytes.len());
        assert_eq!(sizes, [4, 6, 5]);
        for word in ["walk", "klvs", "arrive", "tally", "header", "sony", "arri", "canon"] {
            assert!(damaged(word, file).step_by(101).all(|line| parse(&line).is_some()));
        }
    }
}
