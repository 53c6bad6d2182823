//! What is measured: bytes without a key, walks, and uploads. All are drawn from fixed seeds.

/// What a key starts with.
pub const KEY: [u8; 4] = [0x06, 0x0e, 0x2b, 0x34];

/// The bytes of a search or a walk.
pub const MIB: usize = 1 << 20;

/// Numbers that look random (xorshift), the same in each run.
pub struct Random(u64);

impl Random {
    /// The first of the numbers.
    pub fn new() -> Self {
        Self(0x9e37_79b9_7f4a_7c15)
    }

    /// The next number.
    pub fn next(&mut self) -> u64 {
        self.0 ^= self.0 << 13;
        self.0 ^= self.0 >> 7;
        self.0 ^= self.0 << 17;
        self.0
    }

    /// A number from a least to a most one.
    pub fn between(&mut self, least: usize, most: usize) -> usize {
        least + (self.next() % (most - least + 1) as u64) as usize
    }

    /// So many bytes of any kind.
    pub fn bytes(&mut self, count: usize) -> Vec<u8> {
        (0..count).map(|_| (self.next() >> 32) as u8).collect()
    }
}

/// Bytes with every key that came about by chance broken.
fn without_key(mut bytes: Vec<u8>) -> Vec<u8> {
    for i in 0..bytes.len().saturating_sub(3) {
        if bytes[i..i + 4] == KEY {
            bytes[i] = 7;
        }
    }
    bytes
}

/// Random bytes without a key.
pub fn random(count: usize) -> Vec<u8> {
    without_key(Random::new().bytes(count))
}

/// Bytes without a key of which half are one byte.
pub fn half(byte: u8, count: usize) -> Vec<u8> {
    let mut random = Random::new();
    without_key(random.bytes(count).into_iter().map(|other| if random.next() >> 40 & 1 == 0 { byte } else { other }).collect())
}

/// Zeros, with `0e 00 34` in each 64 bytes by so many chances in 16: the port looks twice at a block that has them.
pub fn pairs(chances: u64, count: usize) -> Vec<u8> {
    let mut random = Random::new();
    let mut bytes = vec![0; count];
    for block in bytes.chunks_exact_mut(64).filter(|_| random.next() >> 40 & 15 < chances) {
        block[..3].copy_from_slice(&[0x0e, 0x00, 0x34]);
    }
    bytes
}

/// A pattern again and again.
pub fn repeated(pattern: &[u8], count: usize) -> Vec<u8> {
    pattern.iter().copied().cycle().take(count).collect()
}

/// Keys at places that lie so far apart, zeros between them.
pub fn keys_every(apart: usize, count: usize) -> Vec<u8> {
    let mut bytes = vec![0; count];
    for place in (0..count - 3).step_by(apart) {
        bytes[place..place + 4].copy_from_slice(&KEY);
    }
    bytes
}

/// Keys so far apart, each with a byte that is no length, and zeros after it.
pub fn no_lengths_every(apart: usize, count: usize) -> Vec<u8> {
    let mut bytes = keys_every(apart, count);
    for place in (16..count).step_by(apart) {
        bytes[place] = 0x89;
    }
    bytes
}

/// Records: each has a random label, a length in so many bytes (1: the short form), a value with a length between two
/// numbers, and junk likewise. Neither label nor value nor junk has a byte of 06.
pub fn records(count: usize, length_bytes: usize, value: (usize, usize), junk: (usize, usize)) -> Vec<u8> {
    let mut random = Random::new();
    let mut bytes = Vec::with_capacity(count);
    while bytes.len() < count {
        let length = random.between(value.0, value.1);
        label(&mut random, &mut bytes);
        if length_bytes == 1 {
            bytes.push(length as u8);
        } else {
            bytes.push(0x80 + length_bytes as u8 - 1);
            bytes.extend(&(length as u64).to_be_bytes()[9 - length_bytes..]);
        }
        let other = length + random.between(junk.0, junk.1);
        bytes.extend(random.bytes(other).into_iter().map(|byte| byte | 0x80));
    }
    bytes
}

/// Keys one after the other, each with a byte that is no length.
pub fn no_lengths(count: usize) -> Vec<u8> {
    let mut random = Random::new();
    let mut bytes = Vec::with_capacity(count);
    while bytes.len() < count {
        label(&mut random, &mut bytes);
        bytes.push(0x89);
    }
    bytes
}

/// A key and twelve more bytes of a label.
fn label(random: &mut Random, bytes: &mut Vec<u8>) {
    bytes.extend(KEY);
    bytes.extend(random.bytes(12).into_iter().map(|byte| byte | 0x80));
}
