//! A xorshift generator, so that every run sees the same inputs.

pub struct Random(u64);

impl Random {
    /// The seeds 0, 1, 2.. are set apart by an odd multiplier; the state is never 0.
    pub fn new(seed: u64) -> Self {
        Self(seed.wrapping_mul(0x9E37_79B9_7F4A_7C15) ^ 0xD1B5_4A32_D192_ED03 | 1)
    }

    pub fn draw(&mut self) -> u64 {
        self.0 ^= self.0 << 13;
        self.0 ^= self.0 >> 7;
        self.0 ^= self.0 << 17;
        self.0.wrapping_mul(0x2545_F491_4F6C_DD1D)
    }

    /// A number below `bound`.
    pub fn below(&mut self, bound: usize) -> usize {
        ((u128::from(self.draw()) * bound as u128) >> 64) as usize
    }

    /// True once in `odds`.
    pub fn once_in(&mut self, odds: usize) -> bool {
        self.below(odds) == 0
    }

    pub fn pick<T: Copy>(&mut self, list: &[T]) -> T {
        list[self.below(list.len())]
    }

    pub fn byte(&mut self) -> u8 {
        (self.draw() >> 56) as u8
    }

    pub fn bytes(&mut self, count: usize) -> Vec<u8> {
        (0..count).map(|_| self.byte()).collect()
    }

    /// Fewer bytes than `bound`.
    pub fn some_bytes(&mut self, bound: usize) -> Vec<u8> {
        let count = self.below(bound);
        self.bytes(count)
    }

    pub fn words(&mut self, count: usize) -> Vec<u64> {
        (0..count).map(|_| self.draw()).collect()
    }

    /// Fewer words than `bound`.
    pub fn some_words(&mut self, bound: usize) -> Vec<u64> {
        let count = self.below(bound);
        self.words(count)
    }

    /// A number of a bit length drawn first, so that small ones are as likely as large ones.
    pub fn number(&mut self) -> u64 {
        match self.below(65) {
            0 => 0,
            bits => self.draw() >> (64 - bits) | 1 << (bits - 1),
        }
    }
}
