//! The terms at which a sum of products is clipped, found one by one in 64 bits: those where the
//! doubled product or the running sum leaves 32 bits, once where both do. The published sum tells
//! only whether there is any, and is asserted to tell the same.

use crate::{codec::mr74::gain::quantization::dot, words::SUBFRAME};

/// The ends of 32 bits.
pub const LOWER_END: i64 = i32::MIN as i64;
pub const UPPER_END: i64 = i32::MAX as i64;

/// The sums whose clips are counted: both first ones of the pitch gain, then those with the
/// innovation.
pub const PITCH_SUMS: usize = 2;
pub const SUMS: usize = 5;

/// How many terms of the energy sum and of the target sum are clipped.
pub fn of_pitch_gain(target: &[i16; SUBFRAME], adaptive: &[i16; SUBFRAME]) -> [u8; PITCH_SUMS] {
    [adaptive, target].map(|list| Terms::of(list, adaptive).clips())
}

/// The doubled product of a term, and the running sum with it, neither of them held to 32 bits.
struct Term {
    product: i64,
    sum: i64,
}

impl Term {
    fn is_clipped(&self) -> bool {
        leaves(self.product) || leaves(self.sum)
    }

    /// Whether the sum is clipped at this end.
    fn is_beyond(&self, end: i64) -> bool {
        leaves(self.sum) && held(self.sum) == end
    }
}

fn leaves(number: i64) -> bool {
    !(LOWER_END..=UPPER_END).contains(&number)
}

fn held(number: i64) -> i64 {
    number.clamp(LOWER_END, UPPER_END)
}

/// The terms of a sum that starts at 1.
pub struct Terms([Term; SUBFRAME]);

impl Terms {
    pub fn of(left: &[i16; SUBFRAME], right: &[i16; SUBFRAME]) -> Self {
        let mut sum = 1;
        let terms = Self(std::array::from_fn(|place| {
            let product = 2 * i64::from(left[place]) * i64::from(right[place]);
            sum = held(sum) + held(product);
            Term { product, sum }
        }));
        let (value, overflow) = dot(left, right);
        assert_eq!(held(sum), i64::from(value), "the sum found here");
        assert_eq!(terms.clips() > 0, overflow, "the clips found here");
        terms
    }

    /// How many terms are clipped.
    pub fn clips(&self) -> u8 {
        self.0.iter().filter(|term| term.is_clipped()).count() as u8
    }

    /// Whether the product of this term is clipped, -32768 by -32768.
    pub fn clips_product(&self, place: usize) -> bool {
        leaves(self.0[place].product)
    }

    /// Whether a product of 0 stands directly behind a term that clips the sum.
    pub fn has_zero_behind(&self) -> bool {
        let zero_behind = |pair: &[Term]| leaves(pair[0].sum) && pair[1].product == 0;
        self.0.windows(2).any(zero_behind)
    }

    pub fn clips_at_both_ends(&self) -> bool {
        [LOWER_END, UPPER_END]
            .iter()
            .all(|&end| self.0.iter().any(|term| term.is_beyond(end)))
    }

    /// Whether a term that is not 0 and not clipped brings the sum to exactly this number.
    pub fn reaches(&self, number: i64) -> bool {
        let reached = |term: &Term| term.sum == number && term.product != 0;
        self.0
            .iter()
            .any(|term| reached(term) && !term.is_clipped())
    }

    /// Whether the sum is clipped at this end, leaves it, comes back and is clipped there again.
    pub fn clips_again(&self, end: i64) -> bool {
        let mut terms = self.0.iter();
        terms.any(|term| term.is_beyond(end))
            && terms.any(|term| held(term.sum) != end)
            && terms.any(|term| term.is_beyond(end))
    }
}
