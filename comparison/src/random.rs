//! Numbers from a seed (SplitMix64), the same on every machine.

pub struct Random {
    state: u64,
}

impl Random {
    pub fn new(seed: u64) -> Random {
        Random { state: seed }
    }

    /// The numbers of the part with this index under a seed, so that each list can be made again by itself.
    pub fn part(seed: u64, index: u64) -> Random {
        let mut from = Random::new(seed);
        let start = from.next();
        Random::new(start ^ Random::new(index).next())
    }

    pub fn next(&mut self) -> u64 {
        self.state = self.state.wrapping_add(0x9E37_79B9_7F4A_7C15);
        let mut z = self.state;
        z = (z ^ (z >> 30)).wrapping_mul(0xBF58_476D_1CE4_E5B9);
        z = (z ^ (z >> 27)).wrapping_mul(0x94D0_49BB_1331_11EB);
        z ^ (z >> 31)
    }

    /// From 0 to below the limit.
    pub fn below(&mut self, limit: u64) -> u64 {
        self.next() % limit
    }

    /// From the least to the greatest, both included. If they cross, the least.
    pub fn range(&mut self, least: i64, greatest: i64) -> i64 {
        if greatest <= least {
            return least;
        }
        least + self.below((greatest - least + 1) as u64) as i64
    }

    /// True once in so many.
    pub fn one_in(&mut self, many: u64) -> bool {
        self.below(many) == 0
    }

    pub fn pick<T: Copy>(&mut self, values: &[T]) -> T {
        values[self.below(values.len() as u64) as usize]
    }

    pub fn byte(&mut self) -> u8 {
        self.next() as u8
    }

    /// From 0 to the greatest, small amounts as often as large ones.
    pub fn amount(&mut self, greatest: i64) -> i64 {
        let bits = 64 - (greatest as u64).leading_zeros() as u64;
        let up_to = (1i64 << self.below(bits + 1)).min(greatest);
        self.range(0, up_to)
    }
}
