//! Logarithm and power to the base 2.

use crate::entries;
pub use crate::{Refusal as PowerDomainError, entries::Logarithm};

pub fn log2(value: i32) -> Logarithm {
    entries::log2(value)
}

/// Refuses by 7 an exponent above 30, then by 14 a fraction above 32767.
pub fn pow2(exponent: u8, fraction_q15: u16) -> Result<i32, PowerDomainError> {
    let answer = entries::pow2(exponent, fraction_q15);
    PowerDomainError::check_signed(answer.number, answer.negative, answer.magnitude)?;
    Ok(answer.value)
}
