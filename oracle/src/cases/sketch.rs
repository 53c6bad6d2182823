//! Bytes for walks and runs: labels, lengths and values put together, with the places where things change.

use super::random::Random;

pub const START: [u8; 4] = [0x06, 0x0e, 0x2b, 0x34];

/// Pieces of real files; pieces/README.md says which.
pub const PIECES: [&[u8]; 5] = [
    include_bytes!("../../pieces/gst_m2v-0.bin"),
    include_bytes!("../../pieces/ff9_anc-9200.bin"),
    include_bytes!("../../pieces/ff5_opatom-30200.bin"),
    include_bytes!("../../pieces/ff5_opatom-5100.bin"),
    include_bytes!("../../pieces/ff5_op1a-0.bin"),
];

/// Labels that the port knows, and a few more.
pub const LABELS: [[u8; 16]; 12] = [
    hex_literal::hex!("060e2b34 02050101 0d010201 01020400"),
    hex_literal::hex!("060e2b34 02050101 0d010201 01050100"),
    hex_literal::hex!("060e2b34 01020101 0d010301 17010201"),
    hex_literal::hex!("060e2b34 02430101 0d010301 04010301"),
    hex_literal::hex!("060e2b34 01020101 0d010301 17010f00"),
    hex_literal::hex!("060e2b34 02430101 0d010301 04010203"),
    hex_literal::hex!("060e2b34 0101010d 0e150000 00010000"),
    hex_literal::hex!("060e2b34 0101010d 0e150001 00010000"),
    hex_literal::hex!("060e2b34 02530101 0c020101 01010000"),
    hex_literal::hex!("060e2b34 02530101 0d010101 01012800"),
    hex_literal::hex!("060e2b34 0213010d 0f010402 01010100"),
    hex_literal::hex!("060e2b34 01010102 03010210 01000000"),
];

/// The bytes that make key starts and lengths, and few others.
const ALPHABET: [u8; 12] = [0x06, 0x0e, 0x2b, 0x34, 0x00, 0x01, 0x02, 0x11, 0x80, 0x81, 0x83, 0x89];

/// Bytes in the making, and what is known of them.
#[derive(Default)]
pub struct Sketch {
    pub bytes: Vec<u8>,
    /// Places of labels, lengths and values, and the ends of values.
    pub marks: Vec<usize>,
    /// Places of lengths and their sizes.
    lengths: Vec<(usize, usize)>,
}

impl Sketch {
    /// The bytes of a case of a walk or a run: whole, cut, damaged, hostile or a piece of a real file.
    pub fn any(random: &mut Random) -> Self {
        let mut sketch = Self::default();
        match random.below(16) {
            0..7 => sketch.elements(random),
            7..9 => sketch.soup(random),
            9..11 => sketch.adjoining(random),
            11..13 => sketch.piece(random),
            _ => {
                sketch.elements(random);
                sketch.damage(random);
            }
        }
        if random.percent(25) {
            sketch.cut(random);
        }
        sketch
    }

    /// Marks the place that the bytes have reached.
    fn mark(&mut self) {
        self.marks.push(self.bytes.len());
    }

    /// A few elements with something between them.
    fn elements(&mut self, random: &mut Random) {
        for _ in 0..random.between(1, 5) {
            if random.percent(25) {
                self.between(random);
            }
            self.element(random);
        }
        if random.percent(30) {
            self.between(random);
        }
    }

    /// A label, a length and mostly the value that it says.
    pub fn element(&mut self, random: &mut Random) {
        let size = value_size(random);
        let label = label(random);
        self.mark();
        self.bytes.extend(label);
        self.mark();
        if random.percent(12) {
            self.hostile_length(random);
        } else {
            let said = if random.percent(10) { size as u64 + random.below(3) as u64 } else { size as u64 };
            self.length(random, said);
        }
        self.mark();
        let value = value(random, size);
        self.bytes.extend(value);
        self.mark();
    }

    /// An element with a label and a value.
    pub fn put(&mut self, random: &mut Random, label: [u8; 16], value: &[u8]) {
        self.mark();
        self.bytes.extend(label);
        self.mark();
        self.length(random, value.len() as u64);
        self.mark();
        self.bytes.extend(value);
        self.mark();
    }

    /// An element with a length's bytes and a value of so many.
    pub fn put_with(&mut self, random: &mut Random, length: &[u8], size: usize) {
        let (label, value) = (label(random), value(random, size));
        for part in [&label[..], length, &value] {
            self.mark();
            self.bytes.extend(part);
        }
        self.mark();
    }

    /// A length in one of the forms that can hold it.
    fn length(&mut self, random: &mut Random, number: u64) {
        let place = self.bytes.len();
        let form = form(random, number);
        self.bytes.extend(encoded(number, form));
        self.lengths.push((place, form));
    }

    /// A length that is none, or a very large one, or one in a wasteful form.
    fn hostile_length(&mut self, random: &mut Random) {
        match random.below(4) {
            0 => self.bytes.push(random.between(0x80, 0xff) as u8),
            1 => self.bytes.extend([0x88].into_iter().chain(random.edge().to_be_bytes())),
            2 => {
                let form = random.between(1, 8);
                self.bytes.push(0x80 | form as u8);
                let digits = random.bytes(form);
                self.bytes.extend(digits);
            }
            _ => {
                let number = random.below(4) as u64;
                let place = self.bytes.len();
                self.bytes.extend(encoded(number, 9));
                self.lengths.push((place, 9));
            }
        }
    }

    /// Bytes that lie between elements: none, parts of a key start, overlapping ones, or anything.
    pub fn between(&mut self, random: &mut Random) {
        match random.below(4) {
            0 => self.bytes.extend(&START[..random.between(1, 3)]),
            1 => self.bytes.extend([&START[..random.between(1, 3)], &START[..]].concat()),
            2 => {
                let count = random.between(1, 20);
                self.bytes.extend(random.bytes(count));
            }
            _ => self.bytes.resize(self.bytes.len() + random.between(1, 18), 0),
        }
    }

    /// Bytes of a small alphabet with key starts among them.
    fn soup(&mut self, random: &mut Random) {
        for _ in 0..random.between(0, 40) {
            if random.percent(20) {
                self.mark();
                self.bytes.extend(START);
            } else {
                self.bytes.push(*random.one(&ALPHABET));
            }
        }
    }

    /// Key starts that follow each other closely, with or without a length.
    fn adjoining(&mut self, random: &mut Random) {
        for _ in 0..random.between(2, 9) {
            self.mark();
            self.bytes.extend(START);
            let more = random.between(0, 14);
            if random.percent(50) {
                self.bytes.resize(self.bytes.len() + more, 0);
            } else {
                self.bytes.extend((0..more).map(|_| *random.one(&ALPHABET)));
            }
        }
    }

    /// A part of a real file.
    pub fn piece(&mut self, random: &mut Random) {
        let piece = *random.one(&PIECES);
        let size = random.between(20, 400);
        let from = random.below(piece.len() - size);
        let starts: Vec<usize> = (0..piece.len() - size).filter(|place| piece[*place..].starts_with(&START)).collect();
        let from = if random.percent(70) { *random.one(&starts) } else { from };
        self.bytes.extend(&piece[from..from + size]);
        self.marks.extend((0..size).filter(|place| self.bytes[*place..].starts_with(&START)));
        if random.percent(40) {
            self.damage(random);
        }
    }

    /// A few bytes changed, left out or put in.
    pub fn damage(&mut self, random: &mut Random) {
        for _ in 0..random.between(1, 3) {
            if self.bytes.is_empty() {
                return;
            }
            let place = random.below(self.bytes.len());
            match random.below(4) {
                0 => self.bytes[place] ^= 1 << random.below(8),
                1 => self.bytes[place] = *random.one(&ALPHABET),
                2 => drop(self.bytes.remove(place)),
                _ => self.bytes.insert(place, *random.one(&ALPHABET)),
            }
        }
    }

    /// Cuts the bytes off near a mark or anywhere.
    pub fn cut(&mut self, random: &mut Random) {
        let place = if random.percent(50) { random.below(self.bytes.len() + 1) } else { self.near_mark(random) };
        self.bytes.truncate(place);
    }

    /// A place at a mark, one before it or one after it.
    pub fn near_mark(&mut self, random: &mut Random) -> usize {
        let mark = if self.marks.is_empty() { 0 } else { *random.one(&self.marks) };
        (mark + random.below(3)).saturating_sub(1)
    }

    /// An end for the bytes: all of them, near a mark, anywhere, or seldom past them.
    pub fn end(&mut self, random: &mut Random) -> u64 {
        let count = self.bytes.len();
        match random.below(20) {
            0..9 => count as u64,
            9..14 => self.near_mark(random).min(count) as u64,
            14..19 => random.below(count + 1) as u64,
            _ => (count as u64 + 1).saturating_add(random.edge()),
        }
    }

    /// Makes a value end at a place, one before it or one after it.
    pub fn aim(&mut self, random: &mut Random, at: u64) {
        if self.lengths.is_empty() {
            return;
        }
        let (place, form) = *random.one(&self.lengths);
        let target = (at as i128 + random.below(3) as i128 - 1 - (place + form) as i128).max(0);
        if place + form > self.bytes.len() || target >= 1 << (if form == 1 { 7 } else { 8 * (form - 1) }).min(63) {
            return;
        }
        self.bytes[place..place + form].copy_from_slice(&encoded(target as u64, form));
    }
}

/// A label: a key start, mostly, and twelve bytes that may hold others.
pub fn label(random: &mut Random) -> [u8; 16] {
    let mut label = [0; 16];
    label[..4].copy_from_slice(&START);
    match random.below(10) {
        0..3 => {}
        3..6 => label = known_label(random),
        6 => label[4..].copy_from_slice(&random.bytes(12)),
        7 => label[4..].iter_mut().for_each(|byte| *byte = *random.one(&ALPHABET)),
        8 => {
            let part = random.between(1, 4);
            label[16 - part..].copy_from_slice(&START[..part]);
        }
        _ => {
            let place = random.between(4, 12);
            label[place..place + 4].copy_from_slice(&START);
        }
    }
    label
}

/// A label that the port knows, its byte at 7 changed now and then.
pub fn known_label(random: &mut Random) -> [u8; 16] {
    let mut label = *random.one(&LABELS);
    if random.percent(25) {
        label[7] = random.byte();
    }
    if random.percent(8) {
        label[random.below(16)] ^= 1 << random.below(8);
    }
    label
}

/// The size of a value: mostly small, at times beyond what a short length holds.
fn value_size(random: &mut Random) -> usize {
    match random.below(40) {
        0..12 => 0,
        12..30 => random.between(1, 24),
        30..38 => random.between(1, 60),
        38 => random.between(120, 140),
        _ => random.between(250, 300),
    }
}

/// A value: zeros, anything, or bytes with key starts in them.
fn value(random: &mut Random, size: usize) -> Vec<u8> {
    let mut value = match random.below(3) {
        0 => vec![0; size],
        1 => random.bytes(size),
        _ => (0..size).map(|_| *random.one(&ALPHABET)).collect(),
    };
    if size >= 4 && random.percent(30) {
        let place = random.below(size - 3);
        value[place..place + 4].copy_from_slice(&START);
    }
    value
}

/// A form that can hold a number: its bytes, 1 to 9.
pub fn form(random: &mut Random, number: u64) -> usize {
    let least = 1 + (8 - number.leading_zeros() as usize / 8).max(1);
    if number < 0x80 && random.percent(60) {
        return 1;
    }
    if random.percent(50) { least } else { random.between(least, 9) }
}

/// A number as a length of so many bytes.
pub fn encoded(number: u64, form: usize) -> Vec<u8> {
    if form == 1 {
        return vec![number as u8];
    }
    let mut bytes = vec![0x80 | (form - 1) as u8];
    bytes.extend(&number.to_be_bytes()[9 - form..]);
    bytes
}

#[cfg(test)]
mod tests {
    use super::*;
    use crate::plain::{Length, length};

    #[test]
    fn a_length_is_read_back() {
        let mut random = Random::of("length", 0, 0);
        for _ in 0..1000 {
            let number = random.edge();
            let form = form(&mut random, number);
            assert_eq!(length(&encoded(number, form)), Length::Is(number, form));
        }
    }
}
