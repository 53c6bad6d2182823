//! L13: certain frames. Sony's and ARRI's frame walks in an arriving form under the arriving walk's waiting rules, and the
//! same fed: at an over-long frame the bytes from its value on are fed again, so the list is that of all bytes.

use std::fmt::Write;

use super::fed::{put_ending, taken};
use super::frames::{ARRI, Given, Kind, SONY, arriving_frames};
use super::passed::place_of;
use crate::line::{Case, Field, Word};

pub const WORDS: &[Word] = &[
    ("sonyarrive", &[Field::Number, Field::Bytes]),
    ("arriarrive", &[Field::Number, Field::Bytes]),
    ("fedsony", &[Field::Number, Field::Cut, Field::Bytes]),
    ("fedarri", &[Field::Number, Field::Cut, Field::Bytes]),
];

/// The answer to a case.
pub fn put(out: &mut String, case: &Case) {
    match case.word {
        "sonyarrive" => arrive(out, case, &SONY),
        "arriarrive" => arrive(out, case, &ARRI),
        "fedsony" => feed(out, case, &SONY),
        _ => feed(out, case, &ARRI),
    }
}

/// `sonyarrive`, `arriarrive`: the frames that are certain.
fn arrive(out: &mut String, case: &Case, kind: &Kind) {
    let limit = case.numbers[0];
    if case.bytes.len() as u64 > limit {
        return out.push_str("refused 2");
    }
    put_frames(out, &arriving_frames(&case.bytes, limit, kind).0);
}

/// `fedsony`, `fedarri`: the frames of what is in, and what closing says.
fn feed(out: &mut String, case: &Case, kind: &Kind) {
    let limit = case.numbers[0];
    let (taken, refused) = taken(case, limit);
    let (frames, at) = arriving_frames(taken, limit, kind);
    put_frames(out, &frames);
    out.push('|');
    match refused {
        true => out.push_str("refused 2"),
        false => put_ending(out, taken, limit, at as u64),
    }
}

/// Puts frames with their counts.
fn put_frames(out: &mut String, frames: &[Given]) {
    for frame in frames {
        write!(out, "{},{};", place_of(frame), frame.passed).unwrap();
    }
}

#[cfg(test)]
mod tests {
    use crate::asked::tests::{over_long, shows};

    #[test]
    fn an_over_long_element_that_has_not_arrived_is_no_frame() {
        let file = over_long();
        let arrived = &file[..2 * 8000];
        shows(&format!("arriarrive 8212 {arrived}"), "");
        shows(&format!("arriarrive 8211 {arrived}"), "0,100,117,0,,100;");
        shows(&format!("arriarrive 9000 {file}"), "0,0,19,8193,o,0;1,100,117,0,,81;2,8212,8229,0,,8095;");
        shows("arriarrive 2 000000", "refused 2");
    }

    #[test]
    fn a_frame_is_waited_for() {
        let ancillary = "060e2b34010201010d01030117010201";
        shows(&format!("sonyarrive 22 {ancillary}05aabb"), "");
        shows(&format!("sonyarrive 21 {ancillary}05aabb"), "");
        shows(&format!("sonyarrive 22 {ancillary}02aabb"), "0,0,17,2,,0;");
        shows(&format!("sonyarrive 99 {ancillary}20{ancillary}00"), "");
        shows(&format!("passsony n {ancillary}20{ancillary}00"), "0,17,34,0,,17;");
    }

    #[test]
    fn a_fed_over_long_frame_is_fed_again_from_its_value() {
        let file = over_long();
        for cut in ["0", "9", "98765"] {
            let right = "0,0,19,8193,o,0;1,100,117,0,,81;2,8212,8229,0,,8095;|clean";
            shows(&format!("fedarri 9000 {cut} {file}"), right);
        }
        shows(&format!("fedarri 9000 9 {}", &file[..2 * 8212]), "0,0,19,8193,o,0;1,100,117,0,,81;|clean");
        shows(&format!("fedarri 9000 9 {}", &file[..2 * 8211]), "|again 19 8192");
        shows(&format!("fedarri 8000 0 {file}"), "|refused 2");
        shows("fedsony 99 1 K05aabb", "|again 17 2");
    }
}
