//! Pseudo-random values for the tests, the same in every run.

/// A xorshift generator of 64 bits.
pub struct Generator {
    value: u64,
}

impl Generator {
    /// Begins at the seed, which is printed for the report of a failure.
    pub fn new(seed: u64) -> Generator {
        assert_ne!(seed, 0, "a xorshift generator stays at 0");
        println!("seed {seed:#018x}");
        Generator { value: seed }
    }

    fn next(&mut self) -> u64 {
        self.value ^= self.value << 13;
        self.value ^= self.value >> 7;
        self.value ^= self.value << 17;
        self.value
    }

    /// So many bytes. Each is a middle byte of a value, since the lowest
    /// bits of a xorshift value are its weakest.
    pub fn bytes(&mut self, count: usize) -> Vec<u8> {
        (0..count).map(|_| (self.next() >> 24) as u8).collect()
    }
}
