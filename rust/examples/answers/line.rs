//! A case's line: its word, its numbers, and its bytes or its script.

/// The longest line that is a case, in characters.
const LONGEST: usize = 65_535;

/// What stands behind a word.
#[derive(Clone, Copy, PartialEq, Eq)]
pub enum Field {
    /// A number, or `n` for the number of bytes.
    End,
    /// A number, or `n` for the number of the other bytes.
    OtherEnd,
    /// A number.
    Number,
    /// 0 or 1.
    Coding,
    /// A label's 16 bytes.
    Label,
    /// Numbers with commas between them, `-` for none.
    List,
    /// Digits, each a number.
    Digits,
    /// Operations, which stand as they are in the bytes' place.
    Script,
    /// The bytes.
    Bytes,
    /// The bytes of a second file.
    Other,
}

/// Every word with its fields.
pub const WORDS: [(&[u8], &[Field]); 50] = [
    (b"ber", &[Field::Bytes]),
    (b"walk", &[Field::End, Field::Bytes]),
    (b"step", &[Field::End, Field::Number, Field::Bytes]),
    (b"klvs", &[Field::Bytes]),
    (b"arrive", &[Field::Number, Field::Bytes]),
    (b"tally", &[Field::Bytes]),
    (b"header", &[Field::Bytes]),
    (b"primer", &[Field::Bytes]),
    (b"items", &[Field::Coding, Field::Bytes]),
    (b"dynamic", &[Field::Bytes]),
    (b"ofdynamic", &[Field::Bytes]),
    (b"alexa", &[Field::Bytes]),
    (b"arri", &[Field::End, Field::Bytes]),
    (b"anc", &[Field::Bytes]),
    (b"set", &[Field::Bytes]),
    (b"sony", &[Field::End, Field::Bytes]),
    (b"packs", &[Field::Bytes]),
    (b"package", &[Field::Bytes]),
    (b"sequence", &[Field::Bytes]),
    (b"canon", &[Field::End, Field::Bytes]),
    (b"form", &[Field::Bytes]),
    (b"forms", &[Field::End, Field::Bytes]),
    (b"formrun", &[Field::Bytes]),
    (b"formitems", &[Field::Number, Field::Coding, Field::Bytes]),
    (b"passed", &[Field::End, Field::Bytes]),
    (b"passarrive", &[Field::Number, Field::Bytes]),
    (b"passfrom", &[Field::End, Field::Number, Field::Number, Field::Bytes]),
    (b"passsony", &[Field::End, Field::Bytes]),
    (b"passarri", &[Field::End, Field::Bytes]),
    (b"passcanon", &[Field::End, Field::Bytes]),
    (b"strict", &[Field::End, Field::Bytes]),
    (b"rip", &[Field::Bytes]),
    (b"outline", &[Field::End, Field::Number, Field::Number, Field::Bytes]),
    (b"shortest", &[Field::Number]),
    (b"putlength", &[Field::Number, Field::Number, Field::Number]),
    (b"putklv", &[Field::Number, Field::Number, Field::Label, Field::Bytes]),
    (b"putitem", &[Field::Number, Field::Number, Field::Bytes]),
    (b"putprimer", &[Field::Number, Field::Bytes]),
    (b"putpack", &[Field::Number, Field::Number, Field::List]),
    (b"rewrite", &[Field::Number, Field::Bytes]),
    (b"fed", &[Field::Number, Field::Digits, Field::Bytes]),
    (b"fedend", &[Field::End, Field::Digits, Field::Bytes]),
    (b"index", &[Field::Coding, Field::Number, Field::Script]),
    (b"turn", &[Field::Coding, Field::Number, Field::Bytes]),
    (b"shared", &[Field::Coding, Field::Number, Field::Number, Field::Number, Field::Script]),
    (b"sonyarrive", &[Field::Number, Field::Bytes]),
    (b"arriarrive", &[Field::Number, Field::Bytes]),
    (b"fedsony", &[Field::Number, Field::Digits, Field::Bytes]),
    (b"fedarri", &[Field::Number, Field::Digits, Field::Bytes]),
    (b"takes", &[Field::End, Field::OtherEnd, Field::Bytes, Field::Other]),
];

/// The most fields that a word has.
const MOST: usize = 5;

/// A case. Numbers that its word has no field for are 0; a label, a list, bytes and other bytes are empty.
pub struct Case<'a> {
    pub word: &'static [u8],
    pub numbers: [usize; 4],
    pub label: [u8; 16],
    pub list: Vec<u64>,
    pub bytes: &'a [u8],
    pub other: Vec<u8>,
}

/// The case that a line is, if it is one; `room` holds its bytes.
pub fn parse<'a>(line: &[u8], room: &'a mut Vec<u8>) -> Option<Case<'a>> {
    if line.len() > LONGEST {
        return None;
    }
    let mut parts = line.split(|byte| *byte == b' ');
    let name = parts.next()?;
    let (word, fields) = WORDS.iter().find(|(word, _)| *word == name)?;
    let mut texts = [&[][..]; MOST];
    for text in &mut texts[..fields.len()] {
        *text = parts.next()?;
    }
    if parts.next().is_some() {
        return None;
    }
    let (mut label, mut list, mut other) = ([0; 16], Vec::new(), Vec::new());
    room.clear();
    for (field, text) in fields.iter().zip(texts) {
        match field {
            Field::Bytes => read_bytes(text, room)?,
            Field::Script => room.extend_from_slice(text),
            Field::Other => read_bytes(text, &mut other)?,
            Field::Label => label = label_of(text)?,
            Field::List => list = list_of(text)?,
            Field::Digits => list = digits_of(text)?,
            _ => {}
        }
    }
    let mut numbers = [0; 4];
    let is_number = |field: &Field| matches!(field, Field::End | Field::OtherEnd | Field::Number | Field::Coding);
    let texts = fields.iter().zip(texts).filter(|(field, _)| is_number(field));
    for (number, (field, text)) in numbers.iter_mut().zip(texts) {
        let count = if *field == Field::OtherEnd { other.len() } else { room.len() };
        *number = number_of(*field, text, count)?;
    }
    Some(Case { word, numbers, label, list, bytes: room, other })
}

/// The label that a field of hex stands for.
fn label_of(text: &[u8]) -> Option<[u8; 16]> {
    let mut bytes = Vec::new();
    read_bytes(text, &mut bytes)?;
    bytes.try_into().ok()
}

/// The numbers that a list stands for.
fn list_of(text: &[u8]) -> Option<Vec<u64>> {
    if text == b"-" {
        return Some(Vec::new());
    }
    text.split(|byte| *byte == b',').map(|text| number_of(Field::Number, text, 0).map(|number| number as u64)).collect()
}

/// The numbers that digits stand for, one at least.
fn digits_of(text: &[u8]) -> Option<Vec<u64>> {
    if text.is_empty() || !text.iter().all(u8::is_ascii_digit) {
        return None;
    }
    Some(text.iter().map(|digit| u64::from(digit - b'0')).collect())
}

/// The number that a field's text stands for in a case of `count` bytes.
fn number_of(field: Field, text: &[u8], count: usize) -> Option<usize> {
    if matches!(field, Field::End | Field::OtherEnd) && text == b"n" {
        return Some(count);
    }
    if !text.iter().all(u8::is_ascii_digit) {
        return None;
    }
    let number = str::from_utf8(text).ok()?.parse().ok()?;
    (field != Field::Coding || number < 2).then_some(number)
}

/// Reads a field of hex into `room`, which is empty.
fn read_bytes(text: &[u8], room: &mut Vec<u8>) -> Option<()> {
    if text == b"-" {
        return Some(());
    }
    let (pairs, rest) = text.as_chunks::<2>();
    if pairs.is_empty() || !rest.is_empty() {
        return None;
    }
    for [high, low] in pairs {
        room.push(digit(*high)? << 4 | digit(*low)?);
    }
    Some(())
}

/// What a lowercase hex digit stands for.
fn digit(character: u8) -> Option<u8> {
    match character {
        b'0'..=b'9' => Some(character - b'0'),
        b'a'..=b'f' => Some(character - b'a' + 10),
        _ => None,
    }
}
