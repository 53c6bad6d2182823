//! What is written: lines of words, or of JSON objects with the same fields.

use std::fmt::{Display, Write as _};
use std::io::{self, BufWriter, StdoutLock, Write};

/// Standard output. Where nobody reads it any more nothing is written, and that is no trouble.
pub struct Out {
    to: BufWriter<StdoutLock<'static>>,
    pub json: bool,
    gone: bool,
}

impl Out {
    pub fn new(json: bool) -> Self {
        Out { to: BufWriter::with_capacity(1 << 16, io::stdout().lock()), json, gone: false }
    }

    /// Whether nobody reads any more.
    pub fn gone(&self) -> bool {
        self.gone
    }

    /// A line that begins with a word; the word is not in the JSON form.
    pub fn line(&self, kind: &str) -> Line {
        Line { json: self.json, text: if self.json { String::from("{") } else { kind.to_string() } }
    }

    pub fn say(&mut self, mut line: Line) -> io::Result<()> {
        line.text.push_str(if line.json { "}\n" } else { "\n" });
        let said = self.to.write_all(line.text.as_bytes());
        self.heard(said)
    }

    /// Writes what has been said.
    pub fn flush(&mut self) -> io::Result<()> {
        let flushed = self.to.flush();
        self.heard(flushed)
    }

    fn heard(&mut self, done: io::Result<()>) -> io::Result<()> {
        match done {
            Err(error) if error.kind() == io::ErrorKind::BrokenPipe => self.gone = true,
            other => return other,
        }
        Ok(())
    }
}

/// A line as it is put together.
pub struct Line {
    json: bool,
    text: String,
}

impl Line {
    /// A number or `true`, alone in text, by its name in JSON.
    pub fn word(self, name: &str, value: impl Display) -> Self {
        self.put(name, "", value)
    }

    /// A text without quotes or backslashes, likewise.
    pub fn text(self, name: &str, value: &str) -> Self {
        let quote = if self.json { "\"" } else { "" };
        self.put(name, "", format_args!("{quote}{value}{quote}"))
    }

    /// A number that has its name in text, too: `name=value`.
    pub fn named(self, name: &str, value: impl Display) -> Self {
        let shown = format!("{name}=");
        self.put(name, &shown, value)
    }

    /// A text, likewise.
    pub fn named_text(self, name: &str, value: &str) -> Self {
        let quote = if self.json { "\"" } else { "" };
        let shown = format!("{name}=");
        self.put(name, &shown, format_args!("{quote}{value}{quote}"))
    }

    /// A figure, likewise. JSON has no number for infinity and for what is none: there it is a text.
    pub fn figure(self, name: &str, value: impl Into<f64> + Display + Copy) -> Self {
        let as_text = !value.into().is_finite();
        if as_text { self.named_text(name, &value.to_string()) } else { self.named(name, value) }
    }

    /// A word of text alone.
    pub fn only_text(self, word: &str) -> Self {
        if self.json { self } else { self.put("", "", word) }
    }

    /// A field of JSON alone.
    pub fn only_json(self, name: &str, value: impl Display) -> Self {
        if self.json { self.put(name, "", value) } else { self }
    }

    fn put(mut self, name: &str, shown: &str, value: impl Display) -> Self {
        let done = if self.json {
            let comma = if self.text == "{" { "" } else { "," };
            write!(self.text, "{comma}\"{name}\":{value}")
        } else {
            let space = if self.text.is_empty() { "" } else { " " };
            write!(self.text, "{space}{shown}{value}")
        };
        done.expect("a text takes what is written");
        self
    }
}

/// Bytes in hex.
pub fn hex(bytes: &[u8]) -> String {
    let digit = |number: u8| char::from(b"0123456789abcdef"[usize::from(number)]);
    bytes.iter().flat_map(|byte| [digit(byte >> 4), digit(byte & 15)]).collect()
}
