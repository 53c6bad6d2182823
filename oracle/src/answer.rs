//! The answer to a line: the published Rust's where it has one, else that of the rules, or of a request, read plainly.

use crate::line::{Case, parse};
use crate::{asked, plain, words};

/// The answer to a line.
pub fn answer(line: &str) -> String {
    let mut out = String::new();
    match parse(line) {
        Some(case) => put(&mut out, &case),
        None => out.push('?'),
    }
    out
}

/// The answer to a case. The Rust checks no end against its buffer, so refusal 1 is answered before it is asked.
pub fn put(out: &mut String, case: &Case) {
    let bytes = &case.bytes[..];
    let number = |i: usize| case.numbers[i];
    let past = |end: u64| end > bytes.len() as u64;
    match case.word {
        "ber" => words::walk::ber(out, bytes),
        "walk" | "step" | "sony" | "arri" | "canon" if past(number(0)) => out.push_str("refused 1"),
        "walk" => words::walk::walk(out, bytes, number(0)),
        "step" => words::walk::step(out, bytes, number(0), number(1)),
        "klvs" => words::walk::run(out, bytes),
        "arrive" => plain::arrive(out, bytes, number(0)),
        "header" => words::arri::header(out, bytes),
        "primer" => words::arri::primer(out, bytes),
        "items" => words::arri::items(out, bytes, number(0) == 1),
        "dynamic" => words::arri::dynamic(out, bytes),
        "ofdynamic" => words::arri::of_dynamic(out, bytes),
        "alexa" => words::arri::alexa(out, bytes),
        "arri" => words::arri::frames(out, bytes, number(0)),
        "anc" => words::sony::anc(out, bytes),
        "set" => words::sony::set(out, bytes),
        "sony" => words::sony::frames(out, bytes, number(0)),
        "packs" => words::canon::packs(out, bytes),
        "package" => words::canon::package(out, bytes),
        "sequence" => words::canon::sequence(out, bytes),
        "canon" => words::canon::frames(out, bytes, number(0)),
        _ => asked::put(out, case),
    }
}
