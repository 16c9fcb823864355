//! The pulses: the search of a subframe's pulses and the reading of their words, which keep no
//! state.

mod calls;
mod cases;
mod choice;
mod limits;
mod matrix;
mod reader;
pub mod record;
mod search;
mod sources;
mod starts;

pub use calls::{Call, recorded};
pub use sources::{Drawn, GAINS, full_scale_call, speech_call};

use crate::compare::Function;

/// Track t holds the places t, t + 5, .. t + 35.
const TRACKS: usize = 5;
const PULSES: usize = 4;
const SIGN_WORDS: usize = 1 << PULSES;

pub fn functions() -> Vec<Function> {
    let mut functions = Vec::from(reader::functions());
    functions.extend(search::functions());
    functions
}
