//! Varying numbers, the same at each run.

pub struct Numbers(u64);

impl Numbers {
    pub fn new() -> Numbers {
        Numbers(0x9E37_79B9_7F4A_7C15)
    }

    /// Of 64 bits.
    pub fn next(&mut self) -> u64 {
        self.0 ^= self.0 << 13;
        self.0 ^= self.0 >> 7;
        self.0 ^= self.0 << 17;
        self.0.wrapping_mul(0x2545_F491_4F6C_DD1D)
    }

    /// Of so many bits, from 1 to 64.
    pub fn bits(&mut self, bits: u32) -> u64 {
        self.next() >> (64 - bits)
    }

    pub fn below(&mut self, bound: usize) -> usize {
        self.bits(31) as usize % bound
    }

    /// Of any size up to `bits`: as likely short as long.
    pub fn sized(&mut self, bits: u32) -> u64 {
        let size = self.below(bits as usize + 1) as u32;
        self.next().checked_shr(64 - size).unwrap_or(0)
    }

    pub fn pick<'a, T>(&mut self, from: &'a [T]) -> &'a T {
        &from[self.below(from.len())]
    }
}
