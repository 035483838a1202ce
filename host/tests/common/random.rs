//! Random numbers of every size, the same at every run.

/// A state of xorshift, which is not 0.
pub struct Random(pub u64);

impl Random {
    pub fn next(&mut self) -> u64 {
        self.0 ^= self.0 << 13;
        self.0 ^= self.0 >> 7;
        self.0 ^= self.0 << 17;
        self.0
    }

    /// Below 2^64, cut to a random count of bits.
    pub fn any_size(&mut self) -> u64 {
        let bits = self.next() % 64;
        self.next() >> bits
    }
}
