//! Pseudo-random numbers, so that a seed and a case number repeat a case.

/// The splitmix64 generator.
pub struct Random {
    state: u64,
}

impl Random {
    pub fn new(seed: u64) -> Random {
        Random { state: seed }
    }

    /// A generator for one case. It depends on no other case, so that each can be repeated alone.
    pub fn for_case(seed: u64, case: u64) -> Random {
        let start = Random::new(seed).word() ^ case;
        Random::new(Random::new(start).word())
    }

    pub fn word(&mut self) -> u64 {
        self.state = self.state.wrapping_add(0x9E37_79B9_7F4A_7C15);
        let mut word = self.state;
        word = (word ^ (word >> 30)).wrapping_mul(0xBF58_476D_1CE4_E5B9);
        word = (word ^ (word >> 27)).wrapping_mul(0x94D0_49BB_1331_11EB);
        word ^ (word >> 31)
    }

    /// A number below `limit`, which is small enough for the bias of `%` not to matter.
    pub fn below(&mut self, limit: u8) -> u8 {
        (self.word() % u64::from(limit)) as u8
    }

    /// One of several bytes.
    pub fn pick(&mut self, bytes: &[u8]) -> u8 {
        bytes[usize::from(self.below(bytes.len() as u8))]
    }

    pub fn bit(&mut self) -> u8 {
        self.below(2)
    }

    pub fn byte(&mut self) -> u8 {
        self.word() as u8
    }

    /// True once in `count` times.
    pub fn one_in(&mut self, count: u8) -> bool {
        self.below(count) == 0
    }

    pub fn fill(&mut self, bytes: &mut [u8]) {
        for chunk in bytes.chunks_mut(8) {
            let word = self.word().to_le_bytes();
            chunk.copy_from_slice(&word[..chunk.len()]);
        }
    }

    pub fn bytes(&mut self, count: usize) -> Vec<u8> {
        let mut bytes = vec![0; count];
        self.fill(&mut bytes);
        bytes
    }
}
