//! The correlations of the impulse response with itself, whose sums are done once more.

use crate::{
    codec::mr74::{
        codebook::search::{fractional, product, rounded, scaled},
        energy::inverse_sqrt,
    },
    sums::Sum,
    words::SUBFRAME,
};

/// A sharpened impulse response and its energy.
pub struct Impulse {
    pub words: [i16; SUBFRAME],
    pub energy: Sum,
}

impl Impulse {
    pub fn new(words: [i16; SUBFRAME]) -> Self {
        let squares = words.iter().map(|&word| product(word, word));
        Self {
            words,
            energy: Sum::of(std::iter::once(2).chain(squares)),
        }
    }

    /// Whether the energy is so great that the words are halved.
    pub fn halves(&self) -> bool {
        self.energy.clipped >> 16 == i32::from(i16::MAX)
    }

    fn root(&self) -> i32 {
        inverse_sqrt(self.energy.clipped >> 1)
    }

    pub fn clips_root(&self) -> bool {
        self.root() >= 1 << 24
    }

    /// The words halved or normalized.
    pub fn scaled(&self, halves: bool) -> Scaled {
        const HEADROOM: i16 = 32440;
        if halves {
            return Scaled(self.words.map(|word| word >> 1));
        }
        let gain = fractional((scaled(self.root(), 7) >> 16) as i16, HEADROOM);
        Scaled(
            self.words
                .map(|word| rounded(scaled(product(word, gain), 9))),
        )
    }
}

/// How a Q15 product is rounded.
#[derive(Clone, Copy, PartialEq, Eq)]
pub enum Rounding {
    Down,
    ToZero,
}

impl Rounding {
    fn fractional(self, left: i16, right: i16) -> i16 {
        match self {
            Self::Down => fractional(left, right),
            // Neither of a matrix's factors leaves a word: only one of them can be -32768.
            Self::ToZero => (i32::from(left) * i32::from(right) / (1 << 15)) as i16,
        }
    }
}

/// A matrix, and which of its sums were clipped.
pub struct Sums {
    pub matrix: [[i16; SUBFRAME]; SUBFRAME],
    pub diagonal: bool,
    pub above: bool,
    pub below: bool,
    pub early: bool,
}

/// An impulse response that was halved or normalized.
pub struct Scaled([i16; SUBFRAME]);

impl Scaled {
    pub fn matrix(&self, signs: &[i16; SUBFRAME], rounding: Rounding) -> Sums {
        let mut sums = Sums {
            matrix: [[0; SUBFRAME]; SUBFRAME],
            diagonal: false,
            above: false,
            below: false,
            early: false,
        };
        for difference in 0..SUBFRAME {
            let mut sum = Sum::default();
            let later = &self.0[difference..];
            for (k, (&left, &right)) in self.0.iter().zip(later).enumerate() {
                sum.add(product(left, right));
                let j = SUBFRAME - 1 - k;
                let i = j - difference;
                let mut value = rounded(sum.clipped);
                if difference > 0 {
                    let sign = rounding.fractional(signs[i], signs[j]);
                    value = rounding.fractional(value, sign);
                }
                sums.matrix[i][j] = value;
                sums.matrix[j][i] = value;
                sums.early |= difference > 0 && sum.clips_early();
            }
            if difference == 0 {
                sums.diagonal = sum.clips();
            } else {
                sums.above |= sum.clips_above;
                sums.below |= sum.clips_below;
            }
        }
        sums
    }
}
