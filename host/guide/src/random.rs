//! The seeded source of numbers, and what is drawn from it.

/// A small deterministic source of numbers (splitmix64).
pub struct Random(u64);

impl Random {
    pub fn new(seed: u64) -> Random {
        Random(seed)
    }

    /// The source for a seed and a path of numbers under it.
    pub fn at(seed: u64, path: &[u64]) -> Random {
        let mut state = Random::new(seed).draw();
        for number in path {
            state = Random::new(state ^ number.wrapping_mul(0xD134_2543_DE82_EF95)).draw();
        }
        Random::new(state)
    }

    /// The next 64 bits.
    pub fn draw(&mut self) -> u64 {
        self.0 = self.0.wrapping_add(0x9E37_79B9_7F4A_7C15);
        let mut mixed = self.0;
        mixed = (mixed ^ mixed >> 30).wrapping_mul(0xBF58_476D_1CE4_E5B9);
        mixed = (mixed ^ mixed >> 27).wrapping_mul(0x94D0_49BB_1331_11EB);
        mixed ^ mixed >> 31
    }

    /// A number below a bound that is not 0.
    pub fn below(&mut self, bound: u64) -> u64 {
        ((u128::from(self.draw()) * u128::from(bound)) >> 64) as u64
    }

    /// True that often in a hundred.
    pub fn chance(&mut self, percent: u64) -> bool {
        self.below(100) < percent
    }

    /// An index below a bound that is not 0.
    pub fn index(&mut self, bound: usize) -> usize {
        self.below(bound as u64) as usize
    }

    /// A number from `least` to `most`.
    pub fn within(&mut self, least: usize, most: usize) -> usize {
        least + self.index(most - least + 1)
    }

    /// True once in so many times.
    pub fn one_in(&mut self, times: u64) -> bool {
        self.below(times) == 0
    }

    /// True every other time.
    pub fn flip(&mut self) -> bool {
        self.one_in(2)
    }

    /// A byte that is not 0.
    pub fn set_byte(&mut self) -> u8 {
        self.within(1, 255) as u8
    }

    /// One of these.
    pub fn pick<T: Copy>(&mut self, among: &[T]) -> T {
        among[self.index(among.len())]
    }

    /// A message: mostly any, at times 0, the greatest, or a small one.
    pub fn message(&mut self) -> u32 {
        match self.below(16) {
            0 => 0,
            1 => u32::MAX,
            2 => self.below(256) as u32,
            _ => self.draw() as u32,
        }
    }

    /// A message of two words, each at times 0 or 65,535, which the check takes for the same.
    pub fn words(&mut self) -> u32 {
        let mut word = || match self.below(4) {
            0 => 0,
            1 => 0xFFFF,
            _ => self.below(0x1_0000) as u32,
        };
        word() | word() << 16
    }
}
