//! A small seeded generator of numbers (xorshift64*): the same seed gives the same numbers on every machine.

pub struct Random(u64);

impl Random {
    pub fn new(seed: u64) -> Self {
        Random(seed.wrapping_mul(0x9E37_79B9_7F4A_7C15) | 1)
    }

    pub fn next(&mut self) -> u64 {
        self.0 ^= self.0 >> 12;
        self.0 ^= self.0 << 25;
        self.0 ^= self.0 >> 27;
        self.0.wrapping_mul(0x2545_F491_4F6C_DD1D)
    }

    /// A number from 0 to `bound` − 1.
    pub fn below(&mut self, bound: usize) -> usize {
        ((self.next() >> 16) % bound as u64) as usize
    }

    /// Whether it comes to pass, `percent` times in a hundred.
    pub fn chance(&mut self, percent: usize) -> bool {
        self.below(100) < percent
    }

    pub fn pick<T: Copy>(&mut self, choices: &[T]) -> T {
        choices[self.below(choices.len())]
    }

    /// A number of the range: mostly small, so that equal ones meet; now and then at an end of it.
    pub fn number(&mut self) -> i64 {
        match self.below(10) {
            0 => (1 << 47) - 1 - self.below(3) as i64,
            1 => -(1 << 47) + self.below(3) as i64,
            2 => (self.next() >> 16) as i64 - (1 << 47),
            _ => self.below(8) as i64 - 2,
        }
    }
}
