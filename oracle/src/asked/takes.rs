//! L14: two recordings of one take. The frames and their values are the published ARRI walk's.

use std::fmt::Write;

use crate::arri::mxf::reach::is_alexa35;
use crate::line::{Case, Field, Word};
use crate::words::arri::frames;

pub const WORDS: &[Word] = &[("takes", &[Field::End, Field::OtherEnd, Field::Bytes, Field::Other])];

/// The names of a frame's fields, in the order of the C header.
const FIELDS: [&str; 19] = [
    "focal_length",
    "focus_distance",
    "t_stop",
    "exposure_time",
    "shutter_angle",
    "tilt_roll",
    "exposure_index",
    "white_balance",
    "nd_density",
    "effective_focal_length",
    "white_balance_factors",
    "focus_lds",
    "focus_motor",
    "zoom_lds",
    "zoom_motor",
    "iris_lds",
    "iris_motor",
    "tint",
    "sensor_rate",
];

/// The field whose figure has two meanings.
const T_STOP: usize = 2;

/// The answer to a case: the report, the first file's refusal having been tested before.
pub fn put(out: &mut String, case: &Case) {
    if case.numbers[1] > case.other.len() as u64 {
        return out.push_str("refused 1");
    }
    report(out, &sides(&case.bytes, case.numbers[0]), &sides(&case.other, case.numbers[1]));
    if out.is_empty() {
        out.push('-');
    }
}

/// A frame on one side: its mark, and the figures of its values if it has any.
#[derive(Clone, PartialEq, Eq, Debug)]
struct Side {
    over_long: bool,
    values: Option<Vec<Figure>>,
}

/// A field's figure as text, and whether it is a T-stop on the linear scale.
#[derive(Clone, PartialEq, Eq, Debug)]
struct Figure {
    text: String,
    linear: bool,
}

/// The frames of a file up to an end.
fn sides(bytes: &[u8], end: u64) -> Vec<Side> {
    let mut answer = String::new();
    frames(&mut answer, bytes, end);
    answer.split_terminator(';').map(|entry| side(bytes, entry)).collect()
}

/// The frame that an entry of the published walk's answer is: `number,p,v,length,mark,values`.
fn side(bytes: &[u8], entry: &str) -> Side {
    let parts: Vec<&str> = entry.splitn(6, ',').collect();
    let [_, place, _, _, mark, values] = parts[..] else { panic!("six parts of {entry}") };
    let place: usize = place.parse().expect("a place");
    let label: &[u8; 16] = bytes[place..].first_chunk().expect("a label");
    Side { over_long: mark == "o", values: (values != "-").then(|| figures(values, is_alexa35(label))) }
}

/// The figures in a frame's values: each encoder is one, tilt and roll are one, and so are the three factors.
fn figures(values: &str, alexa35: bool) -> Vec<Figure> {
    let mut texts = Vec::new();
    for field in values.split(' ') {
        match field.split_once('=').expect("a name and a value") {
            ("enc", encoders) => texts.extend(encoders.split('/')),
            (_, value) => texts.push(value),
        }
    }
    assert_eq!(texts.len(), FIELDS.len(), "the fields of {values}");
    let linear = |at: usize, text: &str| at == T_STOP && alexa35 && text != "-";
    texts.into_iter().enumerate().map(|(at, text)| Figure { text: text.into(), linear: linear(at, text) }).collect()
}

/// Puts each difference in order of number, then field.
fn report(out: &mut String, main: &[Side], backup: &[Side]) {
    for number in 0..main.len().max(backup.len()) {
        match (main.get(number), backup.get(number)) {
            (Some(a), Some(b)) => put_differences(out, number, a, b),
            (a, b) => put_one(out, number, "only", a.is_some(), b.is_some()),
        }
    }
}

/// Puts a difference that is whether something is there.
fn put_one(out: &mut String, number: usize, what: &str, main: bool, backup: bool) {
    let there = |is| if is { "yes" } else { "-" };
    write!(out, "{number} {what} {} {};", there(main), there(backup)).unwrap();
}

/// Puts the differences of two frames: one for a mark or values on one side, else one for each field.
fn put_differences(out: &mut String, number: usize, main: &Side, backup: &Side) {
    if main.over_long != backup.over_long {
        return put_one(out, number, "over-long", main.over_long, backup.over_long);
    }
    match (&main.values, &backup.values) {
        (Some(main), Some(backup)) => {
            for (name, (a, b)) in FIELDS.iter().zip(main.iter().zip(backup)) {
                if a != b {
                    write!(out, "{number} {name} {} {};", a.text, b.text).unwrap();
                }
            }
        }
        (None, None) => {}
        (a, b) => put_one(out, number, "values", a.is_some(), b.is_some()),
    }
}

#[cfg(test)]
mod tests {
    use super::*;
    use crate::answer::answer;
    use crate::asked::tests::shows;
    use crate::cases;
    use crate::line::{parse, put_bytes};

    const FRAME_DATA: &str = "060e2b34010201010d01030117010f00";
    const PICTURE: &str = "060e2b34024301010d01030104010301";

    /// An ALEXA 35's item as hex.
    fn item(id: &str, value: &str) -> String {
        format!("060e2b340101010e0e170102{id}0000{:02x}{value}", value.len() / 2)
    }

    /// An element with an index of 800, a tint and a metric distance, as hex.
    fn frame(tint: &str, distance: &str) -> String {
        let items = item("0e03", "00000320") + &item("0e06", tint) + &item("0d01", distance);
        let set = format!("{}{:02x}{items}", "00".repeat(16), items.len() / 2);
        format!("{FRAME_DATA}81{:02x}{set}", set.len() / 2)
    }

    #[test]
    fn fields_are_compared_by_their_bits() {
        let (main, backup) = (frame("00000000", "ffffffff"), frame("80000000", "000003e8"));
        let report = answer(&format!("takes n n {main} {backup}"));
        let exchanged = answer(&format!("takes n n {backup} {main}"));
        let sides = |report: &str| {
            let parts = |line: &str| line.split(' ').map(String::from).collect::<Vec<_>>();
            report.split_terminator(';').map(parts).collect::<Vec<_>>()
        };
        assert_eq!(sides(&report).iter().map(|line| line[1].clone()).collect::<Vec<_>>(), ["focus_distance", "tint"], "{report}");
        assert_eq!(
            sides(&exchanged)
                .into_iter()
                .map(|mut line| {
                    line.swap(2, 3);
                    line
                })
                .collect::<Vec<_>>(),
            sides(&report)
        );
        assert_eq!(answer(&format!("takes n n {main} {main}")), "-");
    }

    #[test]
    fn marks_values_and_frames_on_one_side() {
        let main = frame("00000000", "000003e8");
        let empty = format!("{PICTURE}0100");
        let over_long = format!("{FRAME_DATA}822001{}", "00".repeat(8193));
        shows(&format!("takes n n {main}{empty} {main}"), "1 only yes -;");
        shows(&format!("takes n n {main} {main}{empty}"), "1 only - yes;");
        shows(&format!("takes n n {over_long} {main}"), "0 over-long yes -;");
        shows(&format!("takes n n {empty} {over_long}"), "0 over-long - yes;");
        shows(&format!("takes n n {empty} {main}"), "0 values - yes;");
        shows(&format!("takes n n {over_long} {FRAME_DATA}822002{}", "00".repeat(8194)), "-");
        shows("takes n n - -", "-");
        shows("takes 1 1 - -", "refused 1");
        shows("takes 0 1 - -", "refused 1");
    }

    #[test]
    fn the_report_is_empty_exactly_when_the_lists_are_equal() {
        for index in 0..3000 {
            let case = parse(&cases::case("takes", 14, index)).unwrap();
            let report = answer(&case.line());
            if report != "refused 1" {
                let (main, backup) = (sides(&case.bytes, case.numbers[0]), sides(&case.other, case.numbers[1]));
                assert_eq!(report == "-", main == backup, "{}", case.line());
                let mut line = format!("takes {} {} ", case.numbers[1], case.numbers[0]);
                put_bytes(&mut line, &case.other);
                line.push(' ');
                put_bytes(&mut line, &case.bytes);
                assert_eq!(answer(&line).matches(';').count(), report.matches(';').count(), "{}", case.line());
            }
        }
    }
}
