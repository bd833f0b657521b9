//! A small seeded generator of numbers, so that a run can be had again.

/// SplitMix64.
pub struct Random {
    state: u64,
}

impl Random {
    pub fn new(seed: u64) -> Random {
        Random { state: seed }
    }

    /// The numbers of one stream of a seed; streams don't share theirs.
    pub fn of_stream(seed: u64, stream: u64) -> Random {
        let start = Random::new(seed).draw();
        Random::new(start ^ Random::new(!stream).draw())
    }

    pub fn draw(&mut self) -> u64 {
        self.state = self.state.wrapping_add(0x9e37_79b9_7f4a_7c15);
        let mut mixed = self.state;
        mixed = (mixed ^ (mixed >> 30)).wrapping_mul(0xbf58_476d_1ce4_e5b9);
        mixed = (mixed ^ (mixed >> 27)).wrapping_mul(0x94d0_49bb_1331_11eb);
        mixed ^ (mixed >> 31)
    }

    /// 0 to one less than the bound, which isn't 0.
    pub fn below(&mut self, bound: u64) -> u64 {
        ((u128::from(self.draw()) * u128::from(bound)) >> 64) as u64
    }

    /// Both ends included; `high` isn't 2^64 - 1 from 0.
    pub fn between(&mut self, low: u64, high: u64) -> u64 {
        low + self.below(high - low + 1)
    }

    /// Both ends included, small numbers as likely as large ones.
    pub fn wide(&mut self, low: u64, high: u64) -> u64 {
        let bits = 64 - (high - low).leading_zeros();
        let most = (1u64 << self.between(0, bits.into()).min(63)).min(high - low);
        low + self.between(0, most)
    }

    pub fn one_in(&mut self, times: u64) -> bool {
        self.below(times) == 0
    }

    pub fn pick<T: Copy>(&mut self, from: &[T]) -> T {
        from[self.below(from.len() as u64) as usize]
    }

    /// Some place of a list that isn't empty.
    pub fn place<T>(&mut self, of: &[T]) -> usize {
        self.below(of.len() as u64) as usize
    }

    pub fn shuffle<T>(&mut self, items: &mut [T]) {
        for last in (1..items.len()).rev() {
            items.swap(last, self.below(last as u64 + 1) as usize);
        }
    }

    /// Different numbers below the bound.
    pub fn distinct(&mut self, count: u64, bound: u64) -> Vec<u64> {
        let mut numbers: Vec<u64> = (0..bound).collect();
        self.shuffle(&mut numbers);
        numbers.truncate(count as usize);
        numbers
    }
}
