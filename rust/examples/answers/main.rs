//! Answers case lines (docs/CASES.md) from standard input through the crate, so that `oracle/compare` compares it with the
//! published Rust: `oracle/compare all 20000 1 --answers rust/target/release/examples/answers`.

mod arri;
mod canon;
mod certain;
mod checks;
mod fed;
mod forms;
mod index;
mod line;
mod outline;
mod passed;
mod sony;
mod takes;
mod text;
mod walk;
mod written;

use std::io::{BufRead, BufReader, BufWriter, Result, Write, stdin, stdout};

use brinethimble::{Cursor, Feeding, FeedingFrames, Refusal};
use line::Case;
use text::Text;

fn main() -> Result<()> {
    let mut input = BufReader::with_capacity(1 << 16, stdin().lock());
    let mut output = BufWriter::with_capacity(1 << 16, stdout().lock());
    let (mut line, mut bytes, mut out) = (Vec::new(), Vec::new(), Text::default());
    while input.read_until(b'\n', &mut line)? > 0 {
        answer(&mut out, line.strip_suffix(b"\n").unwrap_or(&line), &mut bytes);
        out.0.push(b'\n');
        output.write_all(&out.0)?;
        line.clear();
        out.0.clear();
    }
    output.flush()
}

/// Puts the answer to a line; `bytes` is room for its own.
fn answer(out: &mut Text, line: &[u8], bytes: &mut Vec<u8>) {
    let Some(case) = line::parse(line, bytes) else {
        out.put("?");
        return;
    };
    if let Err(refusal) = reply(out, &case) {
        out.0.clear();
        out.put("refused ").number(refusal.number().into());
        if let Some(place) = refusal.place() {
            out.put(" ").number(place as u64);
        }
        if let Refusal::NoRoom { needed } = refusal {
            out.put(" ").number(needed as u64);
        }
    }
}

/// Puts the answer to a case.
fn reply(out: &mut Text, case: &Case) -> std::result::Result<(), Refusal> {
    let (s, [a, b, c, d]) = (case.bytes, case.numbers);
    match case.word {
        b"ber" => walk::ber(out, s),
        b"walk" => walk::walk(out, s, a)?,
        b"step" => walk::step(out, s, a, b)?,
        b"klvs" => walk::klvs(out, s),
        b"arrive" => walk::arrive(out, s, a)?,
        b"tally" => walk::tally(out, s),
        b"header" => arri::header(out, s),
        b"primer" => arri::primer(out, s),
        b"items" => arri::items(out, s, a == 1),
        b"dynamic" => arri::dynamic(out, s),
        b"ofdynamic" => arri::of_dynamic(out, s),
        b"alexa" => arri::alexa(out, s),
        b"arri" => arri::frames(out, s, a)?,
        b"anc" => sony::anc(out, s)?,
        b"set" => sony::set(out, s)?,
        b"sony" => sony::frames(out, s, a)?,
        b"packs" => canon::packs(out, s),
        b"package" => canon::package(out, s),
        b"sequence" => canon::sequence(out, s),
        b"canon" => canon::frames(out, s, a)?,
        b"form" => forms::form(out, s),
        b"forms" => forms::forms(out, s, a)?,
        b"formrun" => forms::run(out, s),
        b"formitems" => forms::items(out, s, a, b == 1),
        b"passed" => passed::walk(out, s, a)?,
        b"passarrive" => passed::arrive(out, s, a)?,
        b"passfrom" => passed::step(out, s, a, Cursor { at: b, since: c })?,
        b"passsony" => passed::sony(out, s, a)?,
        b"passarri" => passed::arri(out, s, a)?,
        b"passcanon" => passed::canon(out, s, a)?,
        b"strict" => checks::strict(out, s, a)?,
        b"rip" => checks::random_index(out, s)?,
        b"outline" => outline::outline(out, s, a, b, c)?,
        b"shortest" => written::shortest(out, a),
        b"putlength" => written::length(out, a, b, c)?,
        b"putklv" => written::klv(out, &case.label, a, s, b)?,
        b"putitem" => written::item(out, a, s, b)?,
        b"putprimer" => written::primer(out, s, a)?,
        b"putpack" => written::pack(out, a, &case.list, b)?,
        b"rewrite" => written::rewrite(out, s, a)?,
        b"fed" => fed::fed(out, Feeding::limit(a), &case.list, s),
        b"fedend" => fed::fed(out, Feeding::end(a), &case.list, s),
        b"index" => index::index(out, s, a == 1, b),
        b"turn" => index::turn(out, s, a == 1, b)?,
        b"shared" => index::shared(out, s, a == 1, b, [c, d])?,
        b"sonyarrive" => certain::sony(out, s, a)?,
        b"arriarrive" => certain::arri(out, s, a)?,
        b"fedsony" => certain::fed(out, FeedingFrames::sony_limit(a, 0), &case.list, s),
        b"fedarri" => certain::fed(out, FeedingFrames::arri_limit(a, 0), &case.list, s),
        b"takes" => takes::takes(out, (s, a), (&case.other, b))?,
        _ => unreachable!("the words of line::WORDS are all here"),
    }
    Ok(())
}

#[cfg(test)]
mod tests {
    use super::*;

    /// The answer to a line.
    fn answered(line: &str) -> String {
        let mut out = Text::default();
        answer(&mut out, line.as_bytes(), &mut Vec::new());
        String::from_utf8(out.0).unwrap()
    }

    #[test]
    fn what_is_no_case_is_answered_so() {
        let no_cases = ["", "ber", "ber ", "ber 0", "ber 0A", "ber 00 ", "walk 00", "walk x 00", "items 2 00", "step n n 00"];
        for line in no_cases {
            assert_eq!(answered(line), "?", "{line:?}");
        }
        assert_eq!(answered("walk 18446744073709551616 00"), "?");
        assert_eq!(answered(&format!("ber {}", "00".repeat(32_766))), "?");
    }

    #[test]
    fn refusals_are_answered_by_their_numbers() {
        assert_eq!(answered("walk 1 -"), "refused 1");
        assert_eq!(answered("forms 1 -"), "refused 1");
        assert_eq!(answered("arrive 0 00"), "refused 2");
        assert_eq!(answered("passfrom 1 0 0 -"), "refused 1");
        assert_eq!(answered("passarrive 0 00"), "refused 2");
        assert_eq!(answered("set 30010008"), "refused 4");
        assert_eq!(answered("strict 1 -"), "refused 1");
        assert_eq!(answered("strict n 00"), "refused 10 0");
        assert_eq!(answered("rip 00"), "refused 7");
    }

    #[test]
    fn lengths_tell_of_their_forms() {
        assert_eq!(
            ["00", "80", "8180", "8200ff", "89"].map(|bytes| answered(&format!("form {bytes}"))),
            ["0 1 1", "0 1 0", "128 2 1", "255 3 0", "none"]
        );
        let (first, second) = ("060e2b340101010d0e15000100010000", "060e2b340101010e0e15000100010000");
        let records = format!("1,{first},18,2,1,1;20,{second},38,0,2,0;");
        assert_eq!(answered(&format!("forms n 00{first}02aabb{second}8100")), records);
        assert_eq!(answered(&format!("formrun {first}80")), format!("0,{first},17,0,1,0;"));
        assert_eq!(answered("formitems 2 1 3c0a8101aa3c0b01bb"), "3c0a,4,1,2,0;3c0b,8,1,1,1;");
        assert_eq!(answered("formitems 1 0 880001aa"), "88,3,1,2,1;");
    }

    #[test]
    fn records_and_frames_tell_what_was_passed_before_them() {
        let key = "060e2b340101010d0e15000100010000";
        let records = format!("5,{key},22,2,1,1,5;27,{key},44,0,1,1,3;|44,44");
        assert_eq!(answered(&format!("passed n 0000000000{key}02aabb999999{key}00")), records);
        assert_eq!(answered(&format!("passarrive 99 000000{key}")), "|3,0");
        assert_eq!(answered(&format!("passarrive 99 000000{key}00")), format!("3,{key},20,0,1,1,3;|20,20"));
        assert_eq!(answered(&format!("passfrom n 0 10 00{key}02aabb")), format!("1,{key},18,2,1,1,1|20,20"));
        assert_eq!(answered("passfrom n 5 10 000000000000"), "-|5,5");
        assert_eq!(answered("passsony n 00060e2b34010201010d0103011701020102aabb"), "0,1,18,2,,1;");
        let given = "060e2b34024301010d01030104010203";
        assert_eq!(answered(&format!("passcanon n 00{given}02aabb")), format!("-,1,{given},18,2,1;"));
    }

    #[test]
    fn frames_are_listed_as_far_as_they_are_certain() {
        let ancillary = "060e2b34010201010d01030117010201";
        assert_eq!(answered("sonyarrive 0 00"), "refused 2");
        assert_eq!(answered(&format!("sonyarrive 22 {ancillary}05aabb")), "");
        assert_eq!(answered(&format!("sonyarrive 22 00{ancillary}02aabb")), "0,1,18,2,,1;");
        assert_eq!(answered(&format!("sonyarrive 99 {ancillary}20{ancillary}00")), "");
        assert_eq!(answered(&format!("passsony n {ancillary}20{ancillary}00")), "0,17,34,0,,17;");
        let (long, picture) = ("060e2b34010201010d01030117010f00822001", "060e2b34024301010d01030104010301");
        let file = format!("{long}{}{picture}00{}", "00".repeat(81), "00".repeat(8095));
        assert_eq!(answered(&format!("arriarrive 8211 {}", &file[..16000])), "0,100,117,0,,100;");
        assert_eq!(answered(&format!("arriarrive 8212 {}", &file[..16000])), "");
        assert_eq!(answered(&format!("arriarrive 8212 {file}")), "0,0,19,8193,o,0;1,100,117,0,,81;");
        for cut in ["0", "9", "98765"] {
            assert_eq!(answered(&format!("fedarri 9000 {cut} {file}")), "0,0,19,8193,o,0;1,100,117,0,,81;|clean");
        }
        assert_eq!(answered(&format!("fedarri 9000 9 {}", &file[..2 * 8211])), "|again 19 8192");
        assert_eq!(answered(&format!("fedarri 8000 0 {file}")), "|refused 2");
    }

    #[test]
    fn an_outline_has_a_semicolon_for_each_line_end() {
        let set = "060e2b34025301010d01010101012f00";
        let file = format!("{set}0c3c0a0002aabb01020000ffff");
        assert_eq!(answered(&format!("outline n 2 999 {file}")), format!("1 {set} 12;2 3c0a 2;2 0102 0;2 rest 2;"));
        assert_eq!(answered(&format!("outline n 2 18446744073709551615 {file}")), answered(&format!("outline n 2 999 {file}")));
        assert_eq!(answered(&format!("outline n 1 37 {file}")), "refused 3 38");
        assert_eq!(answered(&format!("outline n 9 0 {file}")), "refused 6");
        assert_eq!(answered(&format!("outline 30 9 0 {file}")), "refused 1");
    }

    #[test]
    fn writers_answer_their_bytes() {
        let (first, second) = ("060e2b340101010d0e15000100010000", "060e2b340101010e0e15000100010000");
        for (case, right) in [
            ("shortest 128", "2"),
            ("putlength 5 3 3", "820005"),
            ("putlength 5 3 2", "refused 3 3"),
            ("putlength 128 1 0", "refused 15"),
            ("putitem 15370 18446744073709551615 aabb", "3c0a0002aabb"),
            ("putitem 65536 0 -", "refused 15"),
            ("putprimer 7 -", "refused 3 8"),
            ("putprimer 99 00", "?"),
            ("putpack 6 5 3,31,1,5600,128", "067f95e080"),
            ("putpack 2 4 1,3,1", "refused 3 5"),
            ("putpack 2 5 1,3", "refused 15"),
            ("putpack 2 5 1,,1", "?"),
            ("putpack 2 5 1,a,1", "?"),
            ("putklv 1 19 00 aabb", "?"),
        ] {
            assert_eq!(answered(case), right, "{case}");
        }
        assert_eq!(answered(&format!("putklv 1 19 {first} aabb")), format!("{first}02aabb"));
        assert_eq!(answered(&format!("putklv 1 18 {first} aabb")), "refused 3 19");
        assert_eq!(answered(&format!("rewrite 99 {first}80{second}8101cc")), format!("{first}00{second}01cc"));
        assert_eq!(answered(&format!("putprimer 26 3c0a{first}")), format!("00000001000000123c0a{first}"));
    }

    #[test]
    fn scripts_over_an_index() {
        let script = "a:1:1:0:2,a:20:2:0:0,f:0,f:19,f:37,f:38,a:19:1:0:0,a:38:1:0:0";
        let answers = "ok;ok;-;0:1:1:0:2;1:20:2:0:0;-;refused 17;refused 18;";
        let rows = "0000000000011000000000000000000200000000001420000000000000000000";
        let columns = "0000000000010000000000141000000000000000000220000000000000000000";
        assert_eq!(answered(&format!("index 0 32 {script}")), format!("{answers}|{rows}"));
        assert_eq!(answered(&format!("index 1 32 {script}")), format!("{answers}|{columns}"));
        assert_eq!(answered("index 0 1 f:0"), "-;|00");
        for line in
            ["index 0 16 ", "index 0 16 a", "index 0 16 f:", "index 0 16 f:0,", "index 0 16 o:0", "index 2 16 -", "index 0 16 f:0:0"]
        {
            assert_eq!(answered(line), "?", "{line:?}");
        }
    }

    #[test]
    fn an_index_is_turned() {
        let rows = "000000000001100000000000000000020000000000142000000000000000000077";
        let columns = "000000000001000000000014100000000000000000022000000000000000000077";
        assert_eq!(answered(&format!("turn 1 33 {rows}")), columns);
        assert_eq!(answered(&format!("turn 0 18446744073709551615 {columns}")), rows);
        assert_eq!(answered(&format!("turn 1 32 {rows}")), "refused 3 33");
    }

    #[test]
    fn scripts_over_a_shared_room() {
        let script = "o:0,o:0,a:1:0:0:0:0,a:2:0:1:0:0,a:0:0:1:0:0,a:0:17:1:0:0,a:0:34:1:0:0,o:1,a:1:0:1:0:0,a:1:17:1:0:0,\
            a:1:34:1:0:0,c:0,a:1:34:1:0:0,a:1:51:1:0:0,o:0,a:0:0:1:0:0";
        let answers = "ok;refused 19;refused 19;refused 19;ok;ok;refused 18;ok;ok;ok;refused 18;ok;ok;refused 18;ok;ok;";
        for columns in [0, 1] {
            assert_eq!(answered(&format!("shared {columns} 64 1 2 {script}")), answers);
        }
        assert_eq!(answered("shared 0 64 3 2 o:0"), "refused 20");
        assert_eq!(answered("shared 0 64 1 2 f:0"), "?");
    }

    #[test]
    fn takes_are_told_apart() {
        let frame = |tint: &str, distance: &str| {
            let item = |id: &str, value: &str| format!("060e2b340101010e0e170102{id}0000{:02x}{value}", value.len() / 2);
            let items = item("0e03", "00000320") + &item("0e06", tint) + &item("0d01", distance);
            let set = format!("{}{:02x}{items}", "00".repeat(16), items.len() / 2);
            format!("060e2b34010201010d01030117010f0081{:02x}{set}", set.len() / 2)
        };
        let (main, backup) = (frame("00000000", "ffffffff"), frame("80000000", "000003e8"));
        let report = "0 focus_distance 7f800000 3f800000;0 tint 0000000000000000 8000000000000000;";
        assert_eq!(answered(&format!("takes n n {main} {backup}")), report);
        let exchanged = "0 focus_distance 3f800000 7f800000;0 tint 8000000000000000 0000000000000000;";
        assert_eq!(answered(&format!("takes n n {backup} {main}")), exchanged);
        assert_eq!(answered(&format!("takes n n {main} {main}")), "-");
        assert_eq!(answered(&format!("takes n 0 {main} {main}")), "0 only yes -;");
        assert_eq!(answered(&format!("takes n n 060e2b34024301010d010301040103010100 {main}")), "0 values - yes;");
        assert_eq!(answered("takes 1 0 - -"), "refused 1");
        assert_eq!(answered("takes 0 1 - -"), "refused 1");
    }

    #[test]
    fn every_word_answers_no_bytes() {
        let answers = line::WORDS.map(|(word, fields)| {
            let texts = fields.iter().map(|field| match field {
                line::Field::Bytes | line::Field::Other | line::Field::List | line::Field::Script => " -".to_string(),
                line::Field::Label => format!(" {}", "00".repeat(16)),
                _ => " 0".to_string(),
            });
            answered(&[str::from_utf8(word).unwrap(), &texts.collect::<String>()].concat())
        });
        let no_values = "fl=- fd=- ts=- et=- sa=- tr=- ei=- wb=- nd=- efl=- wbf=- enc=-/-/-/-/-/- tint=- fps=-";
        assert_eq!(answers[..11], ["cut", "|0", "-|0", "", "|0", "|0", "-", "", "", "-", "?"]);
        assert_eq!(answers[11..24], [no_values, "", "0,-", "", "", "", "", "", "", "cut", "", "", ""]);
        assert_eq!(answers[24..33], ["|0,0", "|0,0", "-|0,0", "", "", "", "accepted", "refused 7", "refused 6"]);
        assert_eq!(answers[33..40], ["1", "refused 15", "refused 15", "refused 3 4", "refused 3 8", "refused 15", "-"]);
        assert_eq!(answers[40..], ["|clean", "|clean", "|-", "-", "", "", "", "|clean", "|clean", "-"]);
    }
}
