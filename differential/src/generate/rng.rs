//! A seeded pseudo-random generator (splitmix64).

pub struct Rng {
    state: u64,
}

const STEP: u64 = 0x9E37_79B9_7F4A_7C15;

impl Rng {
    /// The generator of one case: the same seed and index give the same case.
    pub fn of_case(seed: u64, index: u64) -> Self {
        let mut rng = Rng { state: seed };
        let mixed = rng.next_u64() ^ index;
        Rng { state: mixed }
    }

    pub fn next_u64(&mut self) -> u64 {
        self.state = self.state.wrapping_add(STEP);
        let mut mixed = self.state;
        mixed = (mixed ^ (mixed >> 30)).wrapping_mul(0xBF58_476D_1CE4_E5B9);
        mixed = (mixed ^ (mixed >> 27)).wrapping_mul(0x94D0_49BB_1331_11EB);
        mixed ^ (mixed >> 31)
    }

    /// A number from 0 to `bound` - 1.
    pub fn below(&mut self, bound: usize) -> usize {
        (self.next_u64() % bound as u64) as usize
    }

    /// A number from `low` to `high`, both included.
    pub fn between(&mut self, low: usize, high: usize) -> usize {
        low + self.below(high - low + 1)
    }

    /// True once in `times`.
    pub fn one_in(&mut self, times: usize) -> bool {
        self.below(times) == 0
    }

    /// One of the given values.
    pub fn pick<T: Copy>(&mut self, values: &[T]) -> T {
        values[self.below(values.len())]
    }

    /// A u16 that is a boundary of some kind half of the time.
    pub fn edge_u16(&mut self) -> u16 {
        const EDGES: [u16; 16] = [
            0, 1, 2, 3, 4, 5, 6, 9, 10, 255, 256, 257, 32_767, 32_768, 65_534, 65_535,
        ];
        match self.one_in(2) {
            true => self.pick(&EDGES),
            false => self.next_u64() as u16,
        }
    }

    /// A u64 that is a boundary of some kind half of the time.
    pub fn edge_u64(&mut self) -> u64 {
        const EDGES: [u64; 8] = [
            0,
            1,
            255,
            65_535,
            1 << 31,
            1 << 32,
            i64::MAX as u64,
            u64::MAX,
        ];
        match self.one_in(2) {
            true => self.pick(&EDGES),
            false => self.next_u64(),
        }
    }
}
