//! Random numbers that a seed fixes.

use std::collections::hash_map::RandomState;
use std::hash::{BuildHasher, Hasher};
use std::ops::Range;

/// A generator of the splitmix kind: small, fast, and good enough to choose events.
pub struct Random(u64);

impl Random {
    pub fn new(seed: u64) -> Random {
        Random(seed)
    }

    /// A generator of its own for one case, so that a case can be made again by itself.
    pub fn for_case(seed: u64, suite: &str, case: usize) -> Random {
        let mut state = seed ^ (case as u64).wrapping_mul(0xD6E8_FEB8_6659_FD93);
        for byte in suite.bytes() {
            state = Random(state ^ byte as u64).number();
        }
        Random(state)
    }

    /// The next number.
    pub fn number(&mut self) -> u64 {
        self.0 = self.0.wrapping_add(0x9E37_79B9_7F4A_7C15);
        let mut mixed = self.0;
        mixed = (mixed ^ (mixed >> 30)).wrapping_mul(0xBF58_476D_1CE4_E5B9);
        mixed = (mixed ^ (mixed >> 27)).wrapping_mul(0x94D0_49BB_1331_11EB);
        mixed ^ (mixed >> 31)
    }

    pub fn byte(&mut self) -> u8 {
        (self.number() >> 56) as u8
    }

    /// A number of the range, which is not empty.
    pub fn among(&mut self, range: Range<usize>) -> usize {
        range.start + ((self.number() >> 32) as usize) % (range.end - range.start)
    }

    pub fn drive(&mut self) -> u8 {
        self.among(0..4) as u8
    }

    /// True in so many of a thousand tries.
    pub fn chance(&mut self, per_mille: usize) -> bool {
        self.among(0..1000) < per_mille
    }

    /// One of these.
    pub fn pick<T: Copy>(&mut self, choices: &[T]) -> T {
        choices[self.among(0..choices.len())]
    }

    /// The index of one of these weights, each as likely as it is heavy.
    pub fn weighted(&mut self, weights: &[usize]) -> usize {
        let mut left = self.among(0..weights.iter().sum());
        for (index, &weight) in weights.iter().enumerate() {
            if left < weight {
                return index;
            }
            left -= weight;
        }
        unreachable!("what is left is below the sum of the weights")
    }
}

/// A seed that no run had before, as far as the system's own random keys go.
pub fn new_seed() -> u64 {
    RandomState::new().build_hasher().finish() % 1_000_000_000_000
}
