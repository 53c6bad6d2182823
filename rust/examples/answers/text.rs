//! The text of an answer.

/// An answer's bytes.
#[derive(Default)]
pub struct Text(pub Vec<u8>);

impl Text {
    /// Puts a text.
    pub fn put(&mut self, text: &str) -> &mut Self {
        self.0.extend_from_slice(text.as_bytes());
        self
    }

    /// Puts a number in decimal.
    pub fn number(&mut self, mut number: u64) -> &mut Self {
        let mut digits = [0; 20];
        let mut at = digits.len();
        loop {
            at -= 1;
            digits[at] = b'0' + (number % 10) as u8;
            number /= 10;
            if number == 0 {
                break;
            }
        }
        self.0.extend_from_slice(&digits[at..]);
        self
    }

    /// Puts a number that may be negative.
    pub fn signed(&mut self, number: i64) -> &mut Self {
        if number < 0 {
            self.put("-");
        }
        self.number(number.unsigned_abs())
    }

    /// Puts bytes in hex.
    pub fn hex(&mut self, bytes: &[u8]) -> &mut Self {
        const DIGITS: &[u8; 16] = b"0123456789abcdef";
        self.0.extend(bytes.iter().flat_map(|byte| [DIGITS[usize::from(byte >> 4)], DIGITS[usize::from(byte & 15)]]));
        self
    }

    /// Puts bytes in hex, `-` for none.
    pub fn bytes(&mut self, bytes: &[u8]) -> &mut Self {
        if bytes.is_empty() { self.put("-") } else { self.hex(bytes) }
    }

    /// Puts a value as `put` does, `-` for none.
    pub fn or_dash<T>(&mut self, value: Option<T>, put: impl FnOnce(&mut Self, T)) -> &mut Self {
        match value {
            Some(value) => put(self, value),
            None => _ = self.put("-"),
        }
        self
    }
}

/// The place of a part in its whole.
pub fn offset(whole: &[u8], part: &[u8]) -> u64 {
    (part.as_ptr().addr() - whole.as_ptr().addr()) as u64
}
