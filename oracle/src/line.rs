//! A case's line: its word and its fields, as docs/CASES.md has them.

use crate::asked;

/// The longest line that is a case, in characters.
pub const LONGEST: usize = 65_535;

/// What a field of a line is.
#[derive(Clone, Copy, PartialEq, Eq, Debug)]
pub enum Field {
    /// A number, or `n` for the number of bytes.
    End,
    /// A number, or `n` for the number of the other bytes.
    OtherEnd,
    /// A number.
    Number,
    /// 0 or 1.
    Coding,
    /// An outline's depth.
    Depth,
    /// The length of a lent output.
    Room,
    /// Digits that say how the bytes are cut.
    Cut,
    /// Numbers or operations with commas between them, `-` for none.
    List,
    /// 16 bytes, as the other bytes.
    Label,
    /// The bytes.
    Bytes,
    /// The other bytes.
    Other,
}

/// A word with its fields.
pub type Word = (&'static str, &'static [Field]);

/// Every word of the base.
pub const WORDS: [Word; 20] = [
    ("ber", &[Field::Bytes]),
    ("walk", &[Field::End, Field::Bytes]),
    ("step", &[Field::End, Field::Number, Field::Bytes]),
    ("klvs", &[Field::Bytes]),
    ("arrive", &[Field::Number, Field::Bytes]),
    ("tally", &[Field::Bytes]),
    ("header", &[Field::Bytes]),
    ("primer", &[Field::Bytes]),
    ("items", &[Field::Coding, Field::Bytes]),
    ("dynamic", &[Field::Bytes]),
    ("ofdynamic", &[Field::Bytes]),
    ("alexa", &[Field::Bytes]),
    ("arri", &[Field::End, Field::Bytes]),
    ("anc", &[Field::Bytes]),
    ("set", &[Field::Bytes]),
    ("sony", &[Field::End, Field::Bytes]),
    ("packs", &[Field::Bytes]),
    ("package", &[Field::Bytes]),
    ("sequence", &[Field::Bytes]),
    ("canon", &[Field::End, Field::Bytes]),
];

/// Every word, of the base and of the requests.
pub fn words() -> impl Iterator<Item = Word> {
    WORDS.into_iter().chain(asked::words())
}

/// The word that has a name.
pub fn word(name: &str) -> Option<Word> {
    words().find(|(word, _)| *word == name)
}

/// A case.
#[derive(Clone, Default, PartialEq, Eq, Debug)]
pub struct Case {
    pub word: &'static str,
    pub numbers: Vec<u64>,
    /// A cut or a list, as it stands in the line.
    pub list: String,
    pub bytes: Vec<u8>,
    /// A label, or the second of two files.
    pub other: Vec<u8>,
}

impl Case {
    /// The fields of the case's word.
    pub fn fields(&self) -> &'static [Field] {
        word(self.word).map_or(&[], |(_, fields)| fields)
    }

    /// The line of the case, with every end as a number.
    pub fn line(&self) -> String {
        let mut line = String::with_capacity(40 + 2 * self.bytes.len());
        line.push_str(self.word);
        let mut numbers = self.numbers.iter();
        for field in self.fields() {
            line.push(' ');
            match field {
                Field::Cut | Field::List => line.push_str(&self.list),
                Field::Bytes => put_bytes(&mut line, &self.bytes),
                Field::Label | Field::Other => put_bytes(&mut line, &self.other),
                _ => line.push_str(&numbers.next().expect("a number for each field").to_string()),
            }
        }
        line
    }

    /// Takes a field's text, where it is no number.
    fn take(&mut self, field: Field, text: &str) -> Option<()> {
        match field {
            Field::Cut | Field::List => self.list = list_of(field, text)?,
            Field::Bytes => self.bytes = bytes_of(text)?,
            Field::Other => self.other = bytes_of(text)?,
            Field::Label => self.other = bytes_of(text).filter(|label| label.len() == 16)?,
            _ => {}
        }
        Some(())
    }

    /// Takes a field's number, if it is one.
    fn take_number(&mut self, field: Field, text: &str) -> Option<()> {
        let count = match field {
            Field::End | Field::Number | Field::Coding | Field::Depth | Field::Room => self.bytes.len(),
            Field::OtherEnd => self.other.len(),
            _ => return Some(()),
        };
        self.numbers.push(number_of(field, text, count)?);
        Some(())
    }
}

/// The case that a line is, if it is one.
pub fn parse(line: &str) -> Option<Case> {
    if line.len() > LONGEST {
        return None;
    }
    let mut parts = line.split(' ');
    let (word, fields) = word(parts.next()?)?;
    let texts: Vec<&str> = parts.collect();
    if texts.len() != fields.len() {
        return None;
    }
    let mut case = Case { word, ..Case::default() };
    fields.iter().zip(&texts).try_for_each(|(field, text)| case.take(*field, text))?;
    fields.iter().zip(&texts).try_for_each(|(field, text)| case.take_number(*field, text))?;
    Some(case)
}

/// A cut's digits, or a list's letters, numbers, commas and colons, `-` for an empty one.
fn list_of(field: Field, text: &str) -> Option<String> {
    let all = |some: fn(&u8) -> bool| text.bytes().all(|character| some(&character));
    let good = match field {
        Field::Cut => !text.is_empty() && all(u8::is_ascii_digit),
        _ => text == "-" || !text.is_empty() && all(|c| c.is_ascii_digit() || c.is_ascii_lowercase() || b",:".contains(c)),
    };
    good.then(|| text.to_string())
}

/// The number that a field's text stands for in a case of `count` bytes.
fn number_of(field: Field, text: &str, count: usize) -> Option<u64> {
    if matches!(field, Field::End | Field::OtherEnd) && text == "n" {
        return Some(count as u64);
    }
    digits(text).filter(|number| field != Field::Coding || *number < 2)
}

/// The number that some digits are.
pub fn digits(text: &str) -> Option<u64> {
    text.bytes().all(|digit| digit.is_ascii_digit()).then(|| text.parse().ok())?
}

/// The bytes that a field of hex stands for.
fn bytes_of(text: &str) -> Option<Vec<u8>> {
    if text == "-" {
        return Some(Vec::new());
    }
    if text.is_empty() || !text.len().is_multiple_of(2) {
        return None;
    }
    text.as_bytes().chunks_exact(2).map(|pair| Some(digit(pair[0])? << 4 | digit(pair[1])?)).collect()
}

/// What a lowercase hex digit stands for.
fn digit(character: u8) -> Option<u8> {
    match character {
        b'0'..=b'9' => Some(character - b'0'),
        b'a'..=b'f' => Some(character - b'a' + 10),
        _ => None,
    }
}

/// Bytes as hex, `-` for none.
pub fn put_bytes(out: &mut String, bytes: &[u8]) {
    if bytes.is_empty() {
        out.push('-');
    }
    put_hex(out, bytes);
}

/// Bytes as hex.
pub fn put_hex(out: &mut String, bytes: &[u8]) {
    const DIGITS: &[u8; 16] = b"0123456789abcdef";
    for byte in bytes {
        out.push(DIGITS[(byte >> 4) as usize] as char);
        out.push(DIGITS[(byte & 15) as usize] as char);
    }
}

#[cfg(test)]
mod tests {
    use super::*;

    #[test]
    fn a_line_and_its_case_are_the_same() {
        for text in [
            "ber -",
            "walk 3 060e",
            "step 0 18446744073709551615 00",
            "items 1 8200",
            "canon 0 -",
            "fed 7 012 00",
            "putklv 1 2 060e2b340101010d0e15000100010000 aa",
            "putpack 2 5 1,3,1",
            "shared 1 64 1 2 o:0,f:0:1",
            "index 0 0 -",
            "shortest 0",
            "takes 1 0 00 -",
        ] {
            assert_eq!(parse(text).map(|case| case.line()).as_deref(), Some(text));
        }
    }

    #[test]
    fn n_is_the_number_of_bytes() {
        assert_eq!(parse("walk n 0102").unwrap().numbers, [2]);
        assert_eq!(parse("takes n n 0102 -").unwrap().numbers, [2, 0]);
    }

    #[test]
    fn what_is_no_case_is_none() {
        for text in [
            "",
            "ber",
            "ber ",
            "ber 0",
            "ber 0A",
            "ber 00 ",
            "ber  00",
            "walk 00",
            "walk x 00",
            "walk -1 00",
            "step n n 00",
            "items 2 00",
            "walk 18446744073709551616 00",
            "BER 00",
            "ber 00\r",
            "fed 1 - 00",
            "fed 1 1a 00",
            "putklv 1 2 aa aa",
            "index 2 0 -",
            "index 0 0 a 1",
            "takes 0 0 00",
        ] {
            assert_eq!(parse(text), None, "{text:?}");
        }
    }

    #[test]
    fn the_longest_line_is_a_case() {
        let fits = format!("walk 0 {}", "00".repeat((LONGEST - 7) / 2));
        assert_eq!(fits.len(), LONGEST);
        assert!(parse(&fits).is_some());
        assert!(parse(&format!("klvs {}", "00".repeat((LONGEST - 4) / 2))).is_some());
        assert_eq!(parse(&format!("{fits}00")), None);
    }
}
