//! A searcher's numbers.

use mr74::entries::PitchState;

/// No accepted search keeps these.
pub fn odd(next: u8, upper: u8) -> PitchState {
    PitchState {
        samples: u16::MAX,
        fraction: -5,
        next,
        upper,
        start: 7,
    }
}
