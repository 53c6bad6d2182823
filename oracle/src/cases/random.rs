//! The numbers that cases are drawn from: the same ones for the same seed, word and index.

/// A splitmix64.
pub struct Random(u64);

impl Random {
    /// The numbers of one case.
    pub fn of(word: &str, seed: u64, index: u64) -> Self {
        let name = word.bytes().fold(0xcbf2_9ce4_8422_2325u64, |hash, byte| (hash ^ byte as u64).wrapping_mul(0x0100_0000_01b3));
        let mut start = Self(name ^ seed.wrapping_mul(0x9e37_79b9_7f4a_7c15));
        let mixed = start.draw();
        Self(mixed ^ index.wrapping_mul(0xd1b5_4a32_d192_ed03))
    }

    /// The next number, of 64 bits.
    pub fn draw(&mut self) -> u64 {
        self.0 = self.0.wrapping_add(0x9e37_79b9_7f4a_7c15);
        let a = (self.0 ^ self.0 >> 30).wrapping_mul(0xbf58_476d_1ce4_e5b9);
        let b = (a ^ a >> 27).wrapping_mul(0x94d0_49bb_1331_11eb);
        b ^ b >> 31
    }

    /// A number below a bound, 0 if the bound is 0.
    pub fn below(&mut self, bound: usize) -> usize {
        ((self.draw() as u128 * bound as u128) >> 64) as usize
    }

    /// A number from one to another, both possible.
    pub fn between(&mut self, from: usize, to: usize) -> usize {
        from + self.below(to - from + 1)
    }

    /// True in so many of a hundred draws.
    pub fn percent(&mut self, share: usize) -> bool {
        self.below(100) < share
    }

    /// One of some.
    pub fn one<'a, T>(&mut self, of: &'a [T]) -> &'a T {
        &of[self.below(of.len())]
    }

    /// A byte.
    pub fn byte(&mut self) -> u8 {
        self.draw() as u8
    }

    /// So many bytes.
    pub fn bytes(&mut self, count: usize) -> Vec<u8> {
        (0..count).map(|_| self.byte()).collect()
    }

    /// A number that stands where things change: near 0, near a power of two, or anything.
    pub fn edge(&mut self) -> u64 {
        let near = self.below(3) as u64;
        match self.below(4) {
            0 => near,
            1 => u64::MAX - near,
            2 => (1u64 << self.below(64)).wrapping_add(near).wrapping_sub(1),
            _ => self.draw() >> self.below(64),
        }
    }
}

#[cfg(test)]
mod tests {
    use super::*;

    #[test]
    fn the_same_seed_gives_the_same_numbers() {
        let draw = |seed, index| Random::of("walk", seed, index).draw();
        assert_eq!(draw(1, 0), draw(1, 0));
        assert_ne!(draw(1, 0), draw(1, 1));
        assert_ne!(draw(1, 0), draw(2, 0));
        assert_ne!(draw(1, 0), Random::of("klvs", 1, 0).draw());
    }

    #[test]
    fn numbers_stay_in_their_bounds() {
        let mut random = Random::of("bounds", 0, 0);
        for _ in 0..1000 {
            assert!(random.below(3) < 3);
            assert!((5..=7).contains(&random.between(5, 7)));
        }
        assert_eq!(random.below(0), 0);
    }
}
