//! Random numbers from a seed, the same on every machine.

/// The generator known as splitmix64.
#[derive(Clone)]
pub struct Random {
    state: u64,
}

impl Random {
    pub fn new(seed: u64) -> Random {
        Random { state: seed }
    }

    /// A generator of its own for the place-th call of a seed, so that every call can be made again alone.
    pub fn of_place(seed: u64, place: u64) -> Random {
        let (mut by_seed, mut by_place) = (Random::new(seed), Random::new(!place));
        Random::new(by_seed.next().wrapping_add(by_place.next()))
    }

    pub fn next(&mut self) -> u64 {
        self.state = self.state.wrapping_add(0x9E37_79B9_7F4A_7C15);
        let mut mixed = self.state;
        mixed = (mixed ^ (mixed >> 30)).wrapping_mul(0xBF58_476D_1CE4_E5B9);
        mixed = (mixed ^ (mixed >> 27)).wrapping_mul(0x94D0_49BB_1331_11EB);
        mixed ^ (mixed >> 31)
    }

    /// A number below `end`, which is not 0.
    pub fn below(&mut self, end: u64) -> u64 {
        self.next() % end
    }

    pub fn small(&mut self, end: u32) -> u32 {
        self.below(u64::from(end)) as u32
    }

    pub fn place(&mut self, end: usize) -> usize {
        self.below(end as u64) as usize
    }

    /// A number from..=to.
    pub fn between(&mut self, from: u32, to: u32) -> u32 {
        from + self.below(u64::from(to - from) + 1) as u32
    }

    /// True in so many of a hundred cases.
    pub fn chance(&mut self, percent: u64) -> bool {
        self.below(100) < percent
    }

    pub fn pick<T: Copy>(&mut self, from: &[T]) -> T {
        from[self.place(from.len())]
    }

    /// Any 32-bit number, small and extreme ones often.
    pub fn wild(&mut self) -> u32 {
        match self.below(5) {
            0 => self.small(4),
            1 => self.small(300),
            2 => u32::MAX - self.small(3),
            3 => 1 << self.small(32),
            _ => self.next() as u32,
        }
    }

    /// Any 64-bit number, small and extreme ones often.
    pub fn wild_long(&mut self) -> u64 {
        match self.below(4) {
            0 => u64::from(self.wild()),
            1 => u64::MAX - self.below(3),
            2 => 1 << self.below(64),
            _ => self.next(),
        }
    }

    pub fn wild_table(&mut self, length: usize) -> Vec<u32> {
        (0..length).map(|_| self.wild()).collect()
    }

    pub fn wild_long_table(&mut self, length: usize) -> Vec<u64> {
        (0..length).map(|_| self.wild_long()).collect()
    }

    pub fn shuffle<T>(&mut self, table: &mut [T]) {
        for end in (1..table.len()).rev() {
            table.swap(end, self.place(end + 1));
        }
    }
}
