//! Cases of the requests' words.

mod certain;
mod fed;
mod forms;
mod index;
mod outline;
mod passed;
mod random_index;
mod strict;
mod takes;
mod written;

use super::random::Random;
use super::{canon, sony, walk};
use crate::line::Case;

/// The case of a word, where it is a request's.
pub fn case(word: &'static str, random: &mut Random) -> Option<Case> {
    let mut case = match word {
        "form" => bytes(forms::form(random)),
        "forms" => forms::forms(random),
        "formrun" => bytes(forms::run(random)),
        "formitems" => forms::items(random),
        "passed" => passed::passed(random),
        "passarrive" => of(walk::arrive(random)),
        "passfrom" => passed::step(random),
        "passsony" => of(sony::sony(random)),
        "passarri" => passed::arri(random),
        "passcanon" => of(canon::canon(random)),
        "strict" => strict::strict(random),
        "rip" => random_index::rip(random),
        "fed" => fed::fed(random),
        "fedend" => fed::fed_end(random),
        "sonyarrive" => certain::sony(random),
        "arriarrive" => certain::arri(random),
        "fedsony" => {
            let case = certain::sony(random);
            certain::fed(random, case)
        }
        "fedarri" => {
            let case = certain::arri(random);
            certain::fed(random, case)
        }
        "outline" => outline::outline(random),
        "shortest" | "putlength" | "putklv" | "putitem" | "putprimer" | "putpack" | "rewrite" => written::case(word, random),
        "index" => index::index(random),
        "turn" => index::turn(random),
        "shared" => index::shared(random),
        "takes" => takes::takes(random),
        _ => return None,
    };
    case.word = word;
    Some(case)
}

/// A case of bytes alone.
fn bytes(bytes: Vec<u8>) -> Case {
    numbered([], bytes)
}

/// A case as a word of the base has it.
fn of((numbers, bytes): (Vec<u64>, Vec<u8>)) -> Case {
    numbered(numbers, bytes)
}

/// A case of numbers and bytes.
fn numbered(numbers: impl Into<Vec<u64>>, bytes: Vec<u8>) -> Case {
    Case { numbers: numbers.into(), bytes, ..Case::default() }
}

/// A room near what is needed: enough mostly, just enough, one short or any.
fn room(random: &mut Random, needed: usize) -> u64 {
    let room = match random.below(8) {
        0 => needed.saturating_sub(1),
        1 => random.below(needed + 2),
        2 => needed,
        3 => 0,
        _ => needed + random.below(100),
    };
    room as u64
}
