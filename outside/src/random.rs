//! A small deterministic generator (splitmix64). The same seed gives the same numbers on every machine.

use crate::reference::{WORD_MAX, WORD_MIN};

/// The generator and its state.
pub struct Random {
    state: u64,
}

impl Random {
    pub fn new(seed: u64) -> Random {
        Random { state: seed }
    }

    /// 64 random bits.
    pub fn draw(&mut self) -> u64 {
        self.state = self.state.wrapping_add(0x9E37_79B9_7F4A_7C15);
        let mut z = self.state;
        z = (z ^ (z >> 30)).wrapping_mul(0xBF58_476D_1CE4_E5B9);
        z = (z ^ (z >> 27)).wrapping_mul(0x94D0_49BB_1331_11EB);
        z ^ (z >> 31)
    }

    /// A number from 0 to count - 1.
    pub fn below(&mut self, count: u64) -> u64 {
        ((u128::from(self.draw()) * u128::from(count)) >> 64) as u64
    }

    /// A number from low to high, both included.
    pub fn between(&mut self, low: i32, high: i32) -> i32 {
        let count = (i64::from(high) - i64::from(low) + 1) as u64;
        (i64::from(low) + self.below(count) as i64) as i32
    }

    /// Any word.
    pub fn word(&mut self) -> i32 {
        self.between(WORD_MIN, WORD_MAX)
    }

    /// Any i32, all bits random.
    pub fn any_i32(&mut self) -> i32 {
        self.draw() as i32
    }

    /// An i64 of random size: as many small ones as large ones.
    pub fn any_size(&mut self) -> i64 {
        let shift = self.below(64);
        (self.draw() as i64) >> shift
    }

    /// One of the given things.
    pub fn pick<T: Copy>(&mut self, things: &[T]) -> T {
        things[self.below(things.len() as u64) as usize]
    }
}
