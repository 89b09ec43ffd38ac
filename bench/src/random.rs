//! Numbers that look random and are the same in every run.

/// A 64-bit xorshift, multiplied so that its low bits are no worse than the others.
pub struct Random(u64);

impl Random {
    pub fn new(seed: u64) -> Self {
        assert!(seed != 0, "from 0 an xorshift gives only zeros");
        Random(seed)
    }

    pub fn word(&mut self) -> u64 {
        self.0 ^= self.0 >> 12;
        self.0 ^= self.0 << 25;
        self.0 ^= self.0 >> 27;
        self.0.wrapping_mul(0x2545_F491_4F6C_DD1D)
    }

    /// One of 0 to `count` - 1.
    pub fn below(&mut self, count: usize) -> usize {
        (((self.word() >> 32) * count as u64) >> 32) as usize
    }
}
