//! A small seeded source of chance, so that a case is its seed and index.

/// Words at every edge of seven-bit length, of the sign and of a shift.
pub const EDGES: [u32; 18] = [
    0,
    1,
    2,
    31,
    32,
    127,
    128,
    16_383,
    16_384,
    2_097_151,
    2_097_152,
    268_435_455,
    268_435_456,
    0x7fff_ffff,
    0x8000_0000,
    0x8000_0001,
    u32::MAX - 1,
    u32::MAX,
];

/// The splitmix sequence: every seed gives a full-length stream.
pub struct Dice(u64);

impl Dice {
    pub fn new(seed: u64, index: u64) -> Self {
        let mut dice = Dice(seed ^ 0x5e_c0_4d);
        // Neighbouring indices must not give neighbouring streams.
        let base = dice.draw();
        dice.0 = base ^ index.wrapping_mul(0xd134_2543_de82_ef95);
        dice
    }

    pub fn draw(&mut self) -> u64 {
        self.0 = self.0.wrapping_add(0x9e37_79b9_7f4a_7c15);
        let mut mixed = self.0;
        mixed = (mixed ^ (mixed >> 30)).wrapping_mul(0xbf58_476d_1ce4_e5b9);
        mixed = (mixed ^ (mixed >> 27)).wrapping_mul(0x94d0_49bb_1331_11eb);
        mixed ^ (mixed >> 31)
    }

    /// A number from 0 to `end` - 1; `end` is at least 1.
    pub fn below(&mut self, end: u32) -> u32 {
        (((self.draw() >> 32) * u64::from(end)) >> 32) as u32
    }

    pub fn between(&mut self, first: u32, last: u32) -> u32 {
        first + self.below(last - first + 1)
    }

    pub fn percent(&mut self, share: u32) -> bool {
        self.below(100) < share
    }

    pub fn pick<T: Copy>(&mut self, choices: &[T]) -> T {
        choices[self.below(choices.len() as u32) as usize]
    }

    /// A choice by weight: the index into the weights.
    pub fn weighted(&mut self, weights: &[u32]) -> usize {
        let mut left = self.below(weights.iter().sum());
        for (index, &weight) in weights.iter().enumerate() {
            if left < weight {
                return index;
            }
            left -= weight;
        }
        unreachable!("the sum of the weights is above every draw")
    }

    /// A word: an edge, a small one, near an edge, or any.
    pub fn word(&mut self) -> u32 {
        match self.below(10) {
            0..=2 => self.pick(&EDGES),
            3..=6 => self.below(12),
            7 => self
                .pick(&EDGES)
                .wrapping_add(self.between(0, 4))
                .wrapping_sub(2),
            _ => self.draw() as u32,
        }
    }

    /// Puts a list into a random order.
    pub fn shuffle<T>(&mut self, list: &mut [T]) {
        for last in (1..list.len()).rev() {
            list.swap(last, self.below(last as u32 + 1) as usize);
        }
    }
}
