//! A generator of random numbers (splitmix64).

/// Where a stream of random numbers has come to.
pub struct Generator {
    state: u64,
}

impl Generator {
    /// The stream of a seed.
    pub fn new(seed: u64) -> Generator {
        Generator { state: seed }
    }

    /// The next 64 random bits.
    pub fn bits(&mut self) -> u64 {
        self.state = self.state.wrapping_add(0x9e37_79b9_7f4a_7c15);
        let mut bits = self.state;
        bits = (bits ^ (bits >> 30)).wrapping_mul(0xbf58_476d_1ce4_e5b9);
        bits = (bits ^ (bits >> 27)).wrapping_mul(0x94d0_49bb_1331_11eb);
        bits ^ (bits >> 31)
    }

    /// A number from 0 to `end - 1`.
    pub fn below(&mut self, end: usize) -> usize {
        (self.bits() % end as u64) as usize
    }

    /// A number from `low` to `high`.
    pub fn between(&mut self, low: i64, high: i64) -> i64 {
        low + (self.bits() % (high - low + 1) as u64) as i64
    }

    /// A number from 0 to `high`, of any number of digits with about the same chance.
    pub fn of_any_size(&mut self, high: i64) -> i64 {
        let digits = high.to_string().len();
        let end = 10i64.pow(self.below(digits) as u32 + 1);
        self.between(0, high.min(end))
    }

    /// True in `percent` cases of a hundred.
    pub fn chance(&mut self, percent: usize) -> bool {
        self.below(100) < percent
    }

    /// One of several.
    pub fn pick<T: Copy>(&mut self, from: &[T]) -> T {
        from[self.below(from.len())]
    }
}

#[cfg(test)]
mod tests {
    use super::*;

    #[test]
    fn known_first_numbers() {
        let mut generator = Generator::new(0);
        assert_eq!(generator.bits(), 0xe220_a839_7b1d_cdaf);
        assert_eq!(generator.bits(), 0x6e78_9e6a_a1b9_65f4);
    }

    #[test]
    fn numbers_stay_within_their_ends() {
        let mut generator = Generator::new(3);
        for _ in 0..1_000 {
            assert!(generator.below(7) < 7);
            assert!((-3..=4).contains(&generator.between(-3, 4)));
            assert!((0..=1_020).contains(&generator.of_any_size(1_020)));
        }
    }
}
