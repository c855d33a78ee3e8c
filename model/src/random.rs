//! Seeded numbers for histories and stores that can be made again (a helper of the tests, no section of 01).

/// A small generator (splitmix64): the same seed gives the same numbers everywhere.
#[derive(Clone, Debug)]
pub struct Rng {
    state: u64,
}

impl Rng {
    pub fn new(seed: u64) -> Rng {
        Rng { state: seed }
    }

    pub fn any(&mut self) -> u64 {
        self.state = self.state.wrapping_add(0x9e37_79b9_7f4a_7c15);
        let mut z = self.state;
        z = (z ^ (z >> 30)).wrapping_mul(0xbf58_476d_1ce4_e5b9);
        z = (z ^ (z >> 27)).wrapping_mul(0x94d0_49bb_1331_11eb);
        z ^ (z >> 31)
    }

    /// A number below `bound`, which is not 0.
    pub fn below(&mut self, bound: u64) -> u64 {
        self.any() % bound
    }

    /// A number from `low` to `high`, both included.
    pub fn within(&mut self, low: u64, high: u64) -> u64 {
        match (high - low).checked_add(1) {
            Some(span) => low + self.below(span),
            None => self.any(),
        }
    }

    /// True in so many of 1,000 cases.
    pub fn per_mille(&mut self, chance: u64) -> bool {
        self.below(1000) < chance
    }

    pub fn pick<T: Copy>(&mut self, from: &[T]) -> T {
        from[self.below(from.len() as u64) as usize]
    }

    /// A row: each of its halves small, greatest or all but greatest, or any.
    pub fn row(&mut self) -> u64 {
        let half = |bits: u32| match bits >> 30 {
            0 => bits & 3,
            1 => bits % 100_000,
            2 => u32::MAX - (bits & 3),
            _ => bits,
        };
        let any = self.any();
        u64::from(half((any >> 32) as u32)) << 32 | u64::from(half(any as u32))
    }

    /// A word of any size: small, near a power of two, or any.
    pub fn word(&mut self) -> u64 {
        match self.below(4) {
            0 => self.below(10),
            1 => self.below(100_000),
            2 => (1u64 << self.below(64)).wrapping_add(self.below(3)).wrapping_sub(1),
            _ => self.any(),
        }
    }
}
