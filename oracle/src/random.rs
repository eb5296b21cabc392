//! A seeded generator of numbers (splitmix64): the same seed gives the same numbers everywhere.

pub struct Random {
    state: u64,
}

impl Random {
    /// The numbers of listing `number` under a seed: they do not depend on the listings before it.
    pub fn new(seed: u64, number: u64) -> Random {
        let mut of_seed = Random { state: seed };
        let mut of_number = Random { state: number };
        Random { state: of_seed.next() ^ of_number.next().rotate_left(32) }
    }

    /// Any number of 64 bits.
    pub fn next(&mut self) -> u64 {
        self.state = self.state.wrapping_add(0x9E37_79B9_7F4A_7C15);
        let mut z = self.state;
        z = (z ^ (z >> 30)).wrapping_mul(0xBF58_476D_1CE4_E5B9);
        z = (z ^ (z >> 27)).wrapping_mul(0x94D0_49BB_1331_11EB);
        z ^ (z >> 31)
    }

    /// A number from 0 to `end` - 1.
    pub fn below(&mut self, end: usize) -> usize {
        (self.next() % end as u64) as usize
    }

    /// A number from `first` to `last`.
    pub fn between(&mut self, first: usize, last: usize) -> usize {
        first + self.below(last - first + 1)
    }

    pub fn chance(&mut self, percent: usize) -> bool {
        self.below(100) < percent
    }

    pub fn pick<T: Clone>(&mut self, from: &[T]) -> T {
        from[self.below(from.len())].clone()
    }

    /// A byte: mostly small, at times any.
    pub fn byte(&mut self) -> u8 {
        if self.chance(85) { self.below(8) as u8 } else { self.next() as u8 }
    }

    /// A number of 16 bits: mostly small, at times any, at times the greatest.
    pub fn word(&mut self) -> u16 {
        match self.below(20) {
            0 => self.next() as u16,
            1 => u16::MAX,
            _ => self.below(12) as u16,
        }
    }

    /// A number of 32 bits, likewise.
    pub fn long(&mut self) -> u32 {
        match self.below(20) {
            0 => self.next() as u32,
            1 => u32::MAX,
            _ => self.below(40) as u32,
        }
    }
}
