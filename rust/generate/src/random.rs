//! Numbers drawn from a seed (splitmix64), the same on every machine.

pub struct Random(u64);

impl Random {
    /// The stream of one case of a seed; cases can be made one by one.
    pub fn new(seed: u64, case: u64) -> Self {
        let mut start = Self(seed);
        let mixed = start.next() ^ case.wrapping_mul(0xd6e8_feb8_6659_fd93);
        Self(mixed)
    }

    #[allow(clippy::should_implement_trait)]
    pub fn next(&mut self) -> u64 {
        self.0 = self.0.wrapping_add(0x9e37_79b9_7f4a_7c15);
        let mut z = self.0;
        z = (z ^ (z >> 30)).wrapping_mul(0xbf58_476d_1ce4_e5b9);
        z = (z ^ (z >> 27)).wrapping_mul(0x94d0_49bb_1331_11eb);
        z ^ (z >> 31)
    }

    /// A whole number below `end`, which is above 0.
    pub fn below(&mut self, end: usize) -> usize {
        (self.next() % end as u64) as usize
    }

    /// A whole number from `first` to `last`.
    pub fn whole(&mut self, first: usize, last: usize) -> usize {
        first + self.below(last - first + 1)
    }

    /// True in `percent` of a hundred draws.
    pub fn percent(&mut self, percent: usize) -> bool {
        self.below(100) < percent
    }

    pub fn pick<T: Copy>(&mut self, from: &[T]) -> T {
        from[self.below(from.len())]
    }

    /// From 0 to 1, 1 left out.
    pub fn unit(&mut self) -> f64 {
        (self.next() >> 11) as f64 / (1u64 << 53) as f64
    }

    pub fn within(&mut self, low: f64, high: f64) -> f64 {
        low + (high - low) * self.unit()
    }

    /// Any pattern of bits.
    pub fn pattern(&mut self) -> f32 {
        f32::from_bits(self.next() as u32)
    }

    /// From `low` to `high`, both positive, every exponent about equally often.
    pub fn sized(&mut self, low: f32, high: f32) -> f32 {
        f32::from_bits(self.whole(low.to_bits() as usize, high.to_bits() as usize) as u32)
    }

    /// Of either sign and of every size from zero and the subnormal ones to `high`.
    pub fn signed(&mut self, high: f32) -> f32 {
        let size = self.sized(0.0, high);
        if self.percent(50) {
            -size
        } else {
            size
        }
    }
}
