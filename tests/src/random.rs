//! A small generator of random numbers (splitmix64): the same seed, the same numbers.

use std::env;
use std::ops::RangeInclusive;

/// The seed of the tests unless ZONES_SEED gives another.
const SEED: u64 = 20_260_401;

pub struct Random(u64);

impl Random {
    pub fn new(seed: u64) -> Random {
        Random(seed)
    }

    /// The generator of one test: `test` keeps the tests apart.
    pub fn for_test(test: u64) -> Random {
        let seed = match env::var("ZONES_SEED") {
            Ok(text) => text.parse().expect("ZONES_SEED is a whole number"),
            Err(_) => SEED,
        };
        let mut first = Random(seed);
        Random(first.number() ^ test)
    }

    pub fn number(&mut self) -> u64 {
        self.0 = self.0.wrapping_add(0x9E37_79B9_7F4A_7C15);
        let mut z = self.0;
        z = (z ^ (z >> 30)).wrapping_mul(0xBF58_476D_1CE4_E5B9);
        z = (z ^ (z >> 27)).wrapping_mul(0x94D0_49BB_1331_11EB);
        z ^ (z >> 31)
    }

    pub fn word(&mut self) -> u32 {
        self.number() as u32
    }

    pub fn byte(&mut self) -> u8 {
        self.number() as u8
    }

    /// A number below `end`, which is not 0.
    pub fn below(&mut self, end: usize) -> usize {
        (self.number() % end as u64) as usize
    }

    pub fn within(&mut self, range: RangeInclusive<usize>) -> usize {
        range.start() + self.below(range.end() - range.start() + 1)
    }

    /// True once in `n`.
    pub fn one_in(&mut self, n: usize) -> bool {
        self.below(n) == 0
    }

    pub fn pick<T: Copy>(&mut self, from: &[T]) -> T {
        from[self.below(from.len())]
    }
}
