//! A small generator with a fixed start, so that every run meets the same inputs.

/// The state of an xorshift generator with a multiplied output.
pub struct Random(u64);

impl Random {
    /// A generator for this seed.
    pub fn new(seed: u64) -> Random {
        Random(seed.wrapping_mul(0x9E37_79B9_7F4A_7C15) | 1)
    }

    /// The next 32 bits.
    pub fn word(&mut self) -> u32 {
        self.0 ^= self.0 >> 12;
        self.0 ^= self.0 << 25;
        self.0 ^= self.0 >> 27;
        (self.0.wrapping_mul(0x2545_F491_4F6C_DD1D) >> 32) as u32
    }

    /// A number from 0 to `n - 1`.
    pub fn below(&mut self, n: u64) -> u64 {
        ((self.word() as u64) << 32 | self.word() as u64) % n
    }

    /// A number from `low` to `high`.
    pub fn from(&mut self, low: i64, high: i64) -> i64 {
        low + self.below((high - low + 1) as u64) as i64
    }

    /// One of the list.
    pub fn pick<'a, T>(&mut self, list: &'a [T]) -> &'a T {
        &list[self.below(list.len() as u64) as usize]
    }

    /// True once in `n` times.
    pub fn once_in(&mut self, n: u64) -> bool {
        self.below(n) == 0
    }

    /// A clause list over `n` Booleans: up to six clauses of up to four literals, empty ones among them.
    pub fn clause_list(&mut self, n: u64) -> Vec<u32> {
        let mut out = Vec::new();
        for _ in 0..self.below(7) {
            let literals = if n == 0 { 0 } else { self.below(5) as u32 };
            for _ in 0..literals {
                out.push(2 << 30 | (self.below(2) as u32) << 29 | self.from(1, n as i64) as u32);
            }
            out.push(3 << 30 | literals);
        }
        out
    }
}
