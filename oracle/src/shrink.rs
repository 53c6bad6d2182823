//! The smallest case that still shows a difference.

use crate::line::{Case, Field, digits, parse};

/// The most candidates that are tried at once.
const AT_ONCE: usize = 4000;

/// The ways to make a case smaller, those that take the most away first.
const WAYS: [fn(&Case) -> Vec<Case>; 7] = [halved, shorter_list, other, zeroed, lower_numbers, trimmed, lower_bytes];

/// A case that differs and that no smaller one of its kind does. `first` answers the first of some lines that differs.
pub fn smallest(line: &str, mut first: impl FnMut(&[String]) -> Option<usize>) -> String {
    let Some(mut case) = parse(line) else { return line.to_string() };
    let mut differing = |some: &[Case]| {
        let lines: Vec<String> = some.iter().map(Case::line).collect();
        first(&lines).map(|index| some[index].clone())
    };
    while let Some(smaller) = WAYS.iter().find_map(|way| way(&case).chunks(AT_ONCE).find_map(&mut differing)) {
        case = smaller;
    }
    case.line()
}

/// The parts of a number of bytes: the whole, its halves, theirs and so on.
fn parts(count: usize) -> impl Iterator<Item = (usize, usize)> {
    let sizes = std::iter::successors(Some(count), |size| Some(size / 2)).take_while(|size| *size > 0);
    sizes.flat_map(move |size| (0..count).step_by(size).map(move |from| (from, (from + size).min(count))))
}

/// The case without each of its parts.
fn halved(case: &Case) -> Vec<Case> {
    parts(case.bytes.len()).flat_map(|(from, to)| without(case, from, to)).collect()
}

/// The case without each part of its list, and with lower numbers in it.
fn shorter_list(case: &Case) -> Vec<Case> {
    if case.list.is_empty() {
        return Vec::new();
    }
    let cut = case.fields().contains(&Field::Cut);
    let (between, none) = if cut { ("", "0") } else { (",", "-") };
    let items: Vec<&str> = if cut { case.list.split_inclusive(|_| true).collect() } else { case.list.split(',').collect() };
    let with = |from: usize, item: &[&str], to: usize| match [&items[..from], item, &items[to..]].concat().join(between) {
        list if list.is_empty() => none.to_string(),
        list => list,
    };
    let mut lists: Vec<String> = parts(items.len()).map(|(from, to)| with(from, &[], to)).collect();
    for (at, item) in items.iter().enumerate() {
        lists.extend(lower_item(item).iter().map(|lower| with(at, &[lower], at + 1)));
    }
    lists.into_iter().filter(|list| *list != case.list).map(|list| Case { list, ..case.clone() }).collect()
}

/// An item of a list with a lower number in the place of each of its numbers.
fn lower_item(item: &str) -> Vec<String> {
    let parts: Vec<&str> = item.split(':').collect();
    let lowered = |at: usize| {
        let number = digits(parts[at]).unwrap_or(0);
        let lower = [0, number / 2, number.saturating_sub(1)].into_iter().filter(move |lower| *lower < number);
        lower.map(|lower| [&parts[..at], &[&lower.to_string()[..]], &parts[at + 1..]].concat().join(":")).collect::<Vec<_>>()
    };
    (0..parts.len()).flat_map(lowered).collect()
}

/// The case with the second of two files made smaller.
fn other(case: &Case) -> Vec<Case> {
    if !case.fields().contains(&Field::Other) {
        return Vec::new();
    }
    let exchanged = |case: &Case| Case { bytes: case.other.clone(), other: case.bytes.clone(), ..case.clone() };
    let second = exchanged(case);
    [halved, zeroed, trimmed, lower_bytes].iter().flat_map(|way| way(&second)).map(|smaller| exchanged(&smaller)).collect()
}

/// The case with zeros in the place of each of its parts.
fn zeroed(case: &Case) -> Vec<Case> {
    let some = |(from, to): &(usize, usize)| case.bytes[*from..*to].iter().any(|byte| *byte != 0);
    let zeros = |(from, to): (usize, usize)| {
        let mut smaller = case.clone();
        smaller.bytes[from..to].fill(0);
        smaller
    };
    parts(case.bytes.len()).filter(some).map(zeros).collect()
}

/// The case with a lower number in the place of each of its numbers.
fn lower_numbers(case: &Case) -> Vec<Case> {
    let mut all = Vec::new();
    for (i, number) in case.numbers.iter().enumerate() {
        for lower in [0, number / 2, number.saturating_sub(1), case.bytes.len() as u64] {
            if lower < *number {
                let mut smaller = case.clone();
                smaller.numbers[i] = lower;
                all.push(smaller);
            }
        }
    }
    all
}

/// The case without a few bytes at any place.
fn trimmed(case: &Case) -> Vec<Case> {
    let count = case.bytes.len();
    let sizes = (1..=count.min(18)).rev();
    sizes.flat_map(|size| (0..=count - size).flat_map(move |from| without(case, from, from + size))).collect()
}

/// The case with a byte lowered: as a length with as many bytes fewer after it.
fn lower_bytes(case: &Case) -> Vec<Case> {
    let mut all = Vec::new();
    for (i, byte) in case.bytes.iter().enumerate() {
        let after = case.bytes.len() - i - 1;
        for less in [*byte, byte / 2, 1] {
            if less > 0 && less <= *byte && less as usize <= after {
                let mut smaller = case.clone();
                smaller.bytes[i] -= less;
                all.extend(without(&smaller, i + 1, i + 1 + less as usize));
            }
        }
    }
    all
}

/// The case without some bytes, its numbers moved along and as they are.
fn without(case: &Case, from: usize, to: usize) -> Vec<Case> {
    let mut smaller = case.clone();
    smaller.bytes.drain(from..to);
    let mut moved = smaller.clone();
    for number in &mut moved.numbers {
        if *number > from as u64 {
            *number = number.saturating_sub((to - from) as u64).max(from as u64);
        }
    }
    if moved == smaller { vec![smaller] } else { vec![moved, smaller] }
}

#[cfg(test)]
mod tests {
    use super::*;

    #[test]
    fn what_does_not_matter_is_left_out() {
        let has_label = |line: &String| parse(line).is_some_and(|case| case.bytes.windows(2).any(|pair| pair == [0x2b, 0x34]));
        let small = smallest("walk 9 11060e2b34aabbccddee", |lines| lines.iter().position(has_label));
        assert_eq!(small, "walk 0 2b34");
    }

    #[test]
    fn a_length_and_its_value_are_lowered_together() {
        let whole = |line: &String| {
            parse(line).is_some_and(|case| case.bytes.first().is_some_and(|length| *length as usize == case.bytes.len() - 1))
        };
        assert_eq!(smallest("klvs 050102030405", |lines| lines.iter().position(whole)), "klvs 00");
    }

    #[test]
    fn a_list_is_shortened_and_its_numbers_lowered() {
        assert_eq!(lower_item("f:2:9"), ["f:0:9", "f:1:9", "f:1:9", "f:2:0", "f:2:4", "f:2:8"]);
        assert!(shorter_list(&Case { word: "ber", ..Case::default() }).is_empty());
        let lists: Vec<String> =
            shorter_list(&Case { list: "f:1,7".into(), ..Case::default() }).into_iter().map(|case| case.list).collect();
        assert_eq!(lists[..4], ["-", "7", "f:1", "f:0,7"]);
    }
}
