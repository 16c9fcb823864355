//! The words that the tests draw, and silence.

use mr74::SUBFRAME_SAMPLES;

pub const SILENCE: [i16; SUBFRAME_SAMPLES] = [0; SUBFRAME_SAMPLES];

/// Pseudo-random numbers, the same in every run.
pub struct Drawn(pub u32);

impl Drawn {
    pub fn below(&mut self, end: u32) -> u32 {
        self.0 = self.0.wrapping_mul(1664525).wrapping_add(1013904223);
        (self.0 >> 16) % end
    }

    pub fn words<const N: usize>(&mut self) -> [i16; N] {
        std::array::from_fn(|_| self.below(8001) as i16 - 4000)
    }
}
