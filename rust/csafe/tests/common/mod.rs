//! Numbers for tests and benchmarks, the same in every run.

/// The seed of every generator.
pub const SEED: u64 = 0x5DEE_CE66_D2B7_9A31;

/// Marsaglia's xorshift generator with a multiplied output.
pub struct Xorshift(u64);

// No program uses all of them.
#[allow(dead_code)]
impl Xorshift {
    pub fn new() -> Xorshift {
        Xorshift::seeded(SEED)
    }

    /// The seed is not 0.
    pub fn seeded(seed: u64) -> Xorshift {
        Xorshift(seed)
    }

    pub fn number(&mut self) -> u64 {
        self.0 ^= self.0 >> 12;
        self.0 ^= self.0 << 25;
        self.0 ^= self.0 >> 27;
        self.0.wrapping_mul(0x2545_F491_4F6C_DD1D)
    }

    /// A number below the limit, which is not 0.
    pub fn below(&mut self, limit: usize) -> usize {
        ((self.number() >> 32) % limit as u64) as usize
    }

    /// Bytes of which about `percent` of a hundred are F0 to F3, and the others any.
    pub fn bytes(&mut self, len: usize, percent: usize) -> Vec<u8> {
        let mut bytes = Vec::new();
        self.push_bytes(&mut bytes, len, percent);
        bytes
    }

    /// Appends such bytes.
    pub fn push_bytes(&mut self, bytes: &mut Vec<u8>, len: usize, percent: usize) {
        bytes.extend((0..len).map(|_| {
            if self.below(100) < percent {
                0xF0 + self.below(4) as u8
            } else {
                self.below(256) as u8
            }
        }));
    }
}
