// A small generator of numbers, so that every run of a benchmark sees the same frames. No benchmark uses all of it.
#![allow(dead_code)]
pub struct Random(pub u64);

impl Random {
    fn next(&mut self) -> u64 {
        self.0 ^= self.0 << 13;
        self.0 ^= self.0 >> 7;
        self.0 ^= self.0 << 17;
        self.0
    }

    pub fn below(&mut self, n: u64) -> u64 {
        self.next() % n
    }

    pub fn one_of(&mut self, list: &[u64]) -> u64 {
        list[self.below(list.len() as u64) as usize]
    }

    // A spell between two frames: mostly short, now and then none, or as long as `most`.
    pub fn spell(&mut self, most: u64) -> u64 {
        match self.below(12) {
            0 => 0,
            1 => self.below(most),
            2 => self.below(1 << 40),
            3 => self.below(1 << 31),
            _ => self.below(20_000),
        }
    }
}
