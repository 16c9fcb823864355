//! The oracle's side: the published Rust, as the build script compiles it, and the few answers
//! that no function of it gives.

// Declares `codec`, and as functions the division inside `pitch_gain`, `pitch_gain_ratio`, the
// gain row's `quantize` with a given prediction, of `PairQuantizer`, the sums inside
// `normalized_correlation`, `energy40` and `dot40`, the steps inside the detector's `push`,
// `open_loop_scaled` and `open_loop_correlation`, and its `candidate` before the cut to 16 bits,
// `open_loop_candidate`.
include!(concat!(env!("OUT_DIR"), "/published.rs"));

use crate::subframes::Refusal;
use codec::mr74::{codebook::search::product, logarithm, pitch};

/// The numbers of a bad exponent and of a bad fraction whose exponent is good.
pub const EXPONENT: u8 = 7;
pub const FRACTION: u8 = 14;

/// The published power, or the refusal that stands for the published `PowerDomainError`: of the
/// exponent where it is outside its domain, else of the fraction.
pub fn pow2(exponent: u8, fraction_q15: u16) -> Result<i32, Refusal> {
    const MAX_EXPONENT: u8 = 30;
    logarithm::pow2(exponent, fraction_q15).map_err(|_| {
        let (number, detail) = if exponent > MAX_EXPONENT {
            (EXPONENT, exponent.into())
        } else {
            (FRACTION, fraction_q15.into())
        };
        Refusal { number, detail }
    })
}

/// The published Rust subtracts products where it needs to and has no function for it.
pub fn msu(sum: i32, left: i16, right: i16) -> i32 {
    sum.saturating_sub(product(left, right))
}

/// The published flag of an overflow is left aside.
pub fn saturated(value: i64) -> i32 {
    codec::mr74::synthesis::saturated(value, &mut false)
}

/// Where `pitch_gain_ratio` can give the quotient: it halves its 16-bit argument, so it reaches
/// the lower half of the numerators, and it divides smaller numerators by positive denominators.
pub fn divides(numerator: i16, denominator: i16) -> bool {
    (0..=i16::MAX / 2).contains(&numerator) && numerator < denominator
}

/// The published quotient where there is one, elsewhere the rule, written here: 0 where the
/// numerator is negative or the denominator is not positive, 32767 where the quotient reaches 1.
pub fn divide(numerator: i16, denominator: i16) -> i16 {
    if divides(numerator, denominator) {
        pitch_gain_ratio(numerator * 2, denominator)
    } else if numerator < 0 || denominator <= 0 {
        0
    } else if numerator >= denominator {
        i16::MAX
    } else {
        ((i32::from(numerator) << 15) / i32::from(denominator)) as i16
    }
}

/// The search's own product and shift, the high word taken; its counts are at most 15.
pub fn product_high(left: i16, right: i16, count: u32) -> i16 {
    let product = pitch::search::product(left, right);
    (pitch::search::shift(product, count.min(15)) >> 16) as i16
}

/// Interpolation between two entries of a table, written here in 64 bits: the published functions
/// that interpolate do so within their own text.
pub fn interpolated(from: u16, to: u16, mantissa: u32) -> i64 {
    let fraction = i64::from((mantissa >> 10) & 0x7fff);
    let (from, to) = (i64::from(from), i64::from(to));
    (from << 16) - 2 * (from - to) * fraction
}
