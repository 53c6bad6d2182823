//! L9: the bytes that were passed before each record, from the place where walking last went on to the record's start. The
//! records are the published walk's, the frames the published frame walks'.

use std::fmt::Write;

use super::forms::put_record;
use super::frames::{ARRI, CANON, Given, Kind, SONY, finished_frames};
use crate::line::{Case, Field, Word, put_hex};
use crate::plain::arriving;
use crate::words;
use crate::words::Record;
use crate::words::walk::Walker;

pub const WORDS: &[Word] = &[
    ("passed", &[Field::End, Field::Bytes]),
    ("passarrive", &[Field::Number, Field::Bytes]),
    ("passfrom", &[Field::End, Field::Number, Field::Number, Field::Bytes]),
    ("passsony", &[Field::End, Field::Bytes]),
    ("passarri", &[Field::End, Field::Bytes]),
    ("passcanon", &[Field::End, Field::Bytes]),
];

/// The answer to a case.
pub fn put(out: &mut String, case: &Case) {
    let (bytes, end) = (&case.bytes[..], case.numbers[0]);
    match case.word {
        "passed" => walk(out, bytes, end),
        "passarrive" if bytes.len() as u64 > end => out.push_str("refused 2"),
        "passarrive" => put_walk(out, bytes, arriving(bytes, end)),
        "passfrom" => step(out, bytes, end, case.numbers[1], case.numbers[2]),
        "passsony" => put_frames(out, bytes, end, &SONY, words::sony::frames),
        "passarri" => put_frames(out, bytes, end, &ARRI, words::arri::frames),
        _ => put_frames(out, bytes, end, &CANON, words::canon::frames),
    }
}

/// Puts a record with its length field and the bytes passed before it.
pub fn put_counted(out: &mut String, bytes: &[u8], record: &Record, passed: u64) {
    put_record(out, bytes, record);
    write!(out, ",{passed}").unwrap();
}

/// Puts records from 0 on with their counts; the answer is the place where walking last went on.
pub fn put_records(out: &mut String, bytes: &[u8], records: &[Record]) -> u64 {
    let mut since = 0;
    for record in records {
        put_counted(out, bytes, record, record.place - since);
        out.push(';');
        since = record.end();
    }
    since
}

/// Puts the records of a walk from 0 on, its last cursor and the place where it last went on.
fn put_walk(out: &mut String, bytes: &[u8], (records, at): (Vec<Record>, u64)) {
    let since = put_records(out, bytes, &records);
    write!(out, "|{at},{since}").unwrap();
}

/// `passed`: the finished walk.
fn walk(out: &mut String, bytes: &[u8], end: u64) {
    let mut walker = Walker::at(bytes, 0);
    let records = std::iter::from_fn(|| walker.step(end)).collect();
    put_walk(out, bytes, (records, walker.cursor()));
}

/// `passfrom`: a step from a cursor that carries a place, which counts as the cursor where it lies past it.
fn step(out: &mut String, bytes: &[u8], end: u64, at: u64, since: u64) {
    let mut walker = Walker::at(bytes, at);
    let mut since = since.min(at);
    match walker.step(end) {
        Some(record) => {
            put_counted(out, bytes, &record, record.place - since);
            since = record.end();
        }
        None => out.push('-'),
    }
    write!(out, "|{},{since}", walker.cursor()).unwrap();
}

/// Puts the frames of a walk, which are those of the published walk; with an end of 0 there are none.
fn put_frames(out: &mut String, bytes: &[u8], end: u64, kind: &Kind, published: fn(&mut String, &[u8], u64)) {
    let frames = if end == 0 { Vec::new() } else { finished_frames(bytes, end as usize, kind) };
    if end > 0 {
        let mut answer = String::new();
        published(&mut answer, bytes, end);
        assert_eq!(frames.iter().map(place_of).collect::<Vec<_>>(), places(&answer), "the published frames");
    }
    for given in &frames {
        write!(out, "{},{};", place_of(given), given.passed).unwrap();
    }
}

/// What a walk gave, without the count.
pub fn place_of(given: &Given) -> String {
    let Record { place, label, value, length } = &given.record;
    match given.number {
        Some(number) => format!("{number},{place},{value},{length},{}", if given.over_long { "o" } else { "" }),
        None => {
            let mut text = format!("-,{place},");
            put_hex(&mut text, label);
            text + &format!(",{value},{length}")
        }
    }
}

/// The places in an answer of `sony`, `arri` or `canon`, without payloads, values and members.
fn places(answer: &str) -> Vec<String> {
    let mut parts = answer.split('[');
    let first = parts.next().unwrap_or_default().to_string();
    let flat = parts.fold(first, |flat, part| flat + part.split_once(']').expect("a bracket closed").1);
    flat.split_terminator(';').map(|entry| entry.splitn(6, ',').take(5).collect::<Vec<_>>().join(",")).collect()
}

#[cfg(test)]
mod tests {
    use crate::answer::answer;
    use crate::asked::tests::{over_long, shows};
    use crate::cases;
    use crate::line::parse;
    use crate::words::walk::records;

    #[test]
    fn counts_of_the_finished_walk() {
        shows("passed n 0000000000K02aabb999999K00", "5,K,22,2,1,1,5;27,K,44,0,1,1,3;|44,44");
        let second = "060e2b340101010e0e15000100010000";
        shows(&format!("passed n 00K02aabb{second}8100"), &format!("1,K,18,2,1,1,1;20,{second},38,0,2,0,0;|38,38"));
    }

    #[test]
    fn a_place_past_the_cursor_counts_as_the_cursor() {
        shows("passfrom n 0 10 00K02aabb", "1,K,18,2,1,1,1|20,20");
        shows("passfrom n 5 10 000000000000", "-|5,5");
        shows("passfrom n 5 3 000000000000", "-|5,3");
        shows("passfrom 7 5 3 000000000000", "refused 1");
    }

    #[test]
    fn waiting_keeps_the_place() {
        shows("passarrive 99 000000K", "|3,0");
        shows("passarrive 99 000000K00", "3,K,20,0,1,1,3;|20,20");
        shows("passarrive 99 00000006", "|0,0");
        shows("passarrive 2 000000", "refused 2");
    }

    #[test]
    fn frames_in_an_over_long_one() {
        let file = over_long();
        shows(&format!("passarri n {file}"), "0,0,19,8193,o,0;1,100,117,0,,81;2,8212,8229,0,,8095;");
        shows(&format!("passsony n 00{}02aabb", "060e2b34010201010d01030117010201"), "0,1,18,2,,1;");
        shows(&format!("passcanon n 00{}02aabb", "060e2b34024301010d01030104010203"), "-,1,060e2b34024301010d01030104010203,18,2,1;");
    }

    #[test]
    fn counts_labels_lengths_and_values_add_up() {
        for index in 0..5000 {
            let case = parse(&cases::case("passed", 4, index)).unwrap();
            let text = answer(&case.line());
            let Some((list, _)) = text.split_once('|') else { continue };
            let number = |record: &str, at: usize| record.split(',').nth(at).unwrap().parse::<u64>().unwrap();
            let sizes = list.split_terminator(';').map(|record| number(record, 6) + 16 + number(record, 4) + number(record, 3));
            let end = records(&case.bytes, case.numbers[0]).last().map_or(0, |last| last.end());
            assert_eq!(sizes.sum::<u64>(), end, "{}", case.line());
        }
    }
}
