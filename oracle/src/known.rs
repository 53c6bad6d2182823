//! Where the rules have another answer than the published Rust: each with its rule and its smallest case, and none silently.

use crate::answer;
use crate::line::{Case, parse};

/// A difference that is known: which cases it is about, and what the rules have for them.
pub struct Known {
    pub name: &'static str,
    pub rule: &'static str,
    /// The smallest case that shows it.
    pub smallest: &'static str,
    about: fn(&Case) -> bool,
    answer: fn(&Case) -> String,
}

/// All that are known.
pub const KNOWN: [Known; 1] = [Known {
    name: "size-0",
    rule: "The walk, 1: with e = 0 it is over at once. The Rust takes a size of 0 for the whole stream.",
    smallest: "sony 0 060e2b34010201010d0103011701020100",
    about: |case| matches!(case.word, "sony" | "canon") && case.numbers[0] == 0,
    answer: |_| String::new(),
}];

/// The known difference that a case is about, if the answers differ.
pub fn of(line: &str) -> Option<&'static Known> {
    let case = parse(line)?;
    KNOWN.iter().find(|known| (known.about)(&case) && (known.answer)(&case) != answer::answer(line))
}

/// What the port is to answer: the Rust's answer, or the rules' where a difference is known.
pub fn expected(line: &str) -> (String, Option<&'static Known>) {
    match of(line) {
        Some(known) => ((known.answer)(&parse(line).expect("a case")), Some(known)),
        None => (answer::answer(line), None),
    }
}

#[cfg(test)]
mod tests {
    use super::*;

    #[test]
    fn the_smallest_cases_show_their_difference() {
        for known in &KNOWN {
            assert_eq!(of(known.smallest).map(|found| found.name), Some(known.name));
        }
    }
}
