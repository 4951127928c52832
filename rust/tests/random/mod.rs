//! Random numbers of a test, by xorshift: the same for the same seed.

/// The state, which is the seed at first and not 0.
pub struct Random(pub u64);

impl Random {
    /// A number below this one.
    pub fn below(&mut self, most: u64) -> u64 {
        self.0 ^= self.0 << 13;
        self.0 ^= self.0 >> 7;
        self.0 ^= self.0 << 17;
        (self.0 >> 11) % most
    }
}
