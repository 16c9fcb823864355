//! The selection stages of the MR74 (7.4 kbit/s, IS-641 / TIA-136) speech encoder, proved, for Rust.
//!
//! Modules, names and arguments are those of the original, below `codec::mr74`, but for the
//! sharpening gain's type, for `quantize`, which takes the prediction, and for the resonance watch,
//! whose limit reads its count; README.md has the lines that change there. No call panics: what is
//! turned down is a [`Refusal`], and then nothing has changed; where the search of a served channel
//! is turned down, the channel's turn is over.
//! [`entries`] has the library's functions as they are, for lists of any length.

#![deny(unsafe_code)]

pub mod codebook;
pub mod encoder_filtering;
pub mod encoder_stability;
#[allow(unsafe_code)]
pub mod entries;
pub mod feed;
pub mod gain;
pub mod logarithm;
pub mod pitch;
mod refusal;

pub use refusal::Refusal;

pub const SUBFRAME_SAMPLES: usize = 40;

/// A subframe's words.
type Words = [i16; SUBFRAME_SAMPLES];
