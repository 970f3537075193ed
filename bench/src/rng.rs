//! Random numbers from a seed (splitmix64): the same seed gives the same trial on every machine.

pub struct Rng(u64);

impl Rng {
    pub fn new(seed: u64) -> Rng {
        let mut rng = Rng(seed);
        // neighbouring seeds shall not give shifted copies of one sequence
        rng.0 = rng.word64() ^ seed.rotate_left(32);
        rng
    }

    pub fn word64(&mut self) -> u64 {
        self.0 = self.0.wrapping_add(0x9e37_79b9_7f4a_7c15);
        let mut z = self.0;
        z = (z ^ (z >> 30)).wrapping_mul(0xbf58_476d_1ce4_e5b9);
        z = (z ^ (z >> 27)).wrapping_mul(0x94d0_49bb_1331_11eb);
        z ^ (z >> 31)
    }

    pub fn word(&mut self) -> u32 {
        (self.word64() >> 32) as u32
    }

    /// below `limit`, which is not 0
    pub fn below(&mut self, limit: usize) -> usize {
        (self.word64() % limit as u64) as usize
    }

    /// from `low` to `high`, both included
    pub fn between(&mut self, low: usize, high: usize) -> usize {
        low + self.below(high - low + 1)
    }

    /// true once in `n`
    pub fn one_in(&mut self, n: usize) -> bool {
        self.below(n) == 0
    }

    pub fn of<T: Copy>(&mut self, choices: &[T]) -> T {
        choices[self.below(choices.len())]
    }

    /// words of every size: small, all bits, or near the ends
    pub fn any_word(&mut self) -> u32 {
        match self.below(4) {
            0 => self.below(10) as u32,
            1 => u32::MAX - self.below(3) as u32,
            _ => self.word(),
        }
    }
}
