//! Every small script.

use crate::every::Cases;
use crate::line::Case;

/// Records that touch, overlap or don't fit, and positions in them.
const OPERATIONS: [&str; 9] = [
    "a:0:1:0:0",
    "a:1:1:0:2",
    "a:17:2:63:0",
    "a:20:1:4095:18446744073709551615",
    "a:20:10:0:0",
    "a:281474976710656:1:0:0",
    "f:0",
    "f:19",
    "f:37",
];

/// Every script of up to 5 operations over rooms of 0 to 3 records.
pub fn scripts(word: &'static str, columns: u64) -> Cases {
    Box::new(sequences(OPERATIONS.len(), 5).map(move |choice| {
        let list = joined(choice.iter().map(|at| OPERATIONS[*at].to_string()));
        [0, 16, 33, 48].map(|room| Case { word, numbers: vec![columns, room], list: list.clone(), ..Case::default() }).to_vec()
    }))
}

/// Bytes that are all different, of every count to 100, turned both ways.
pub fn turned(word: &'static str) -> Cases {
    Box::new((0..=100u8).map(move |count| {
        let turned =
            |(columns, room): (u64, u8)| Case { word, numbers: vec![columns, room as u64], bytes: (0..count).collect(), ..Case::default() };
        let rooms = [0, count.saturating_sub(1), count, count + 1];
        rooms.iter().flat_map(|room| [(0, *room), (1, *room)]).map(turned).collect()
    }))
}

/// Every script of up to 6 operations over two files, an added record behind the last one, with shares of 0 to 3 and rooms of
/// 0 to 4, in both layouts; at its end each file is asked.
pub fn shared(word: &'static str) -> Cases {
    const LETTERS: [&str; 6] = ["o:0", "o:1", "c:0", "c:1", "a:0", "a:1"];
    let operation = |(turn, at): (usize, &usize)| match LETTERS[*at] {
        add if add.starts_with('a') => format!("{add}:{}:1:0:0", 17 * turn),
        other => other.to_string(),
    };
    Box::new(sequences(LETTERS.len(), 6).map(move |choice| {
        let list = joined(choice.iter().enumerate().map(operation).chain(["f:0:40".into(), "f:1:60".into()]));
        let numbers = (0..2 * 5 * 4 * 4).map(|number| vec![number / 80, 16 * (number / 16 % 5), number / 4 % 4, number % 4]);
        numbers.map(|numbers| Case { word, numbers, list: list.clone(), ..Case::default() }).collect()
    }))
}

/// Every sequence of at most so many numbers below another.
fn sequences(all: usize, most: u32) -> impl Iterator<Item = Vec<usize>> + Send {
    let choice = move |count: u32, number: usize| (0..count).map(|at| number / all.pow(at) % all).collect();
    (0..=most).flat_map(move |count| (0..all.pow(count)).map(move |number| choice(count, number)))
}

/// Operations as a list.
fn joined(operations: impl Iterator<Item = String>) -> String {
    let list = operations.collect::<Vec<_>>().join(",");
    if list.is_empty() { "-".into() } else { list }
}
