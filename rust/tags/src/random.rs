//! Pseudo-random numbers (splitmix64): the same in every run.

pub struct Random(u64);

impl Random {
    pub fn new(seed: u64) -> Self {
        Random(seed)
    }

    fn next(&mut self) -> u64 {
        self.0 = self.0.wrapping_add(0x9e37_79b9_7f4a_7c15);
        let mut z = self.0;
        z = (z ^ (z >> 30)).wrapping_mul(0xbf58_476d_1ce4_e5b9);
        z = (z ^ (z >> 27)).wrapping_mul(0x94d0_49bb_1331_11eb);
        z ^ (z >> 31)
    }

    /// A number from `least` to `greatest`, both of them possible.
    pub fn between(&mut self, least: usize, greatest: usize) -> usize {
        least + (self.next() % (greatest - least + 1) as u64) as usize
    }

    /// True once in so many.
    pub fn happens(&mut self, one_in: usize) -> bool {
        self.between(1, one_in) == 1
    }

    /// Numbers from 0 to `greatest`.
    pub fn bytes(&mut self, length: usize, greatest: u8) -> Vec<u8> {
        let mut byte = || self.between(0, greatest.into()) as u8;
        (0..length).map(|_| byte()).collect()
    }
}
