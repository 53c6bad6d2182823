//! Every small case of the requests' words.

mod fed;
mod index;
mod packs;
mod takes;
mod written;

use super::pieces::Buffers;
use super::{Cases, frames, limits, of, tables, walk};

/// Every case of a word, where it is a request's.
pub fn cases(word: &'static str) -> Option<Cases> {
    Some(match word {
        "form" => alone(word, walk::lengths()),
        "forms" => of(word, walk::stepped(), ends),
        "formrun" => alone(word, walk::runs()),
        "formitems" => of(word, tables::items(), |_| vec![vec![1, 0], vec![1, 1], vec![2, 0], vec![2, 1]]),
        "passed" => of(word, walk::stepped(), ends),
        "passarrive" => of(word, walk::stepped(), within),
        "passfrom" => of(word, walk::few(), carried),
        "passsony" => of(word, frames::sony(), ends),
        "passarri" => of(word, frames::arri(), ends),
        "passcanon" => of(word, frames::canon(), ends),
        "strict" => of(word, walk::ended(), ends),
        "rip" => alone(word, packs::random_indexes()),
        "fed" => fed::cut(of(word, walk::few(), within)),
        "fedend" => fed::cut(of(word, walk::few(), known)),
        "sonyarrive" => of(word, frames::sony(), within),
        "arriarrive" => of(word, Box::new(frames::arri().chain(frames::over_long())), within),
        "fedsony" => fed::cut(of(word, frames::few_sony(), holding)),
        "fedarri" => fed::cut(of(word, frames::few_arri(), holding)),
        "outline" => of(word, packs::nested_sets(), |bytes| (0..=5).map(|depth| vec![bytes.len() as u64, depth, 999]).collect()),
        "shortest" | "putlength" | "putklv" | "putitem" | "putprimer" | "putpack" | "rewrite" => written::cases(word),
        "index" => Box::new(index::scripts(word, 0).chain(index::scripts(word, 1))),
        "turn" => index::turned(word),
        "shared" => index::shared(word),
        "takes" => takes::pairs(word),
        _ => return None,
    })
}

/// Buffers without numbers.
fn alone(word: &'static str, buffers: Buffers) -> Cases {
    of(word, buffers, |_| vec![vec![]])
}

/// Every end of a buffer and the first one past it.
fn ends(bytes: &[u8]) -> Vec<Vec<u64>> {
    (0..=bytes.len() as u64 + 1).map(|end| vec![end]).collect()
}

/// The whole as the end, every cursor to one past it, and every place to one past the cursor.
fn carried(bytes: &[u8]) -> Vec<Vec<u64>> {
    let end = bytes.len() as u64;
    (0..=end + 1).flat_map(|at| (0..=at + 1).map(move |since| vec![end, at, since])).collect()
}

/// The limits that matter to a buffer.
fn within(bytes: &[u8]) -> Vec<Vec<u64>> {
    limits(bytes).into_iter().map(|limit| vec![limit]).collect()
}

/// The known ends on both sides of a buffer's own.
fn known(bytes: &[u8]) -> Vec<Vec<u64>> {
    let end = bytes.len() as u64;
    [end.saturating_sub(1), end, end + 1].map(|end| vec![end]).to_vec()
}

/// Those of them that hold the buffer.
fn holding(bytes: &[u8]) -> Vec<Vec<u64>> {
    within(bytes).into_iter().filter(|limit| limit[0] >= bytes.len() as u64).collect()
}
