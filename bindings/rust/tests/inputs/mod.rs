//! What the tests of the closed loop search on.

pub use crate::words::{Drawn, SILENCE};
use mr74::{
    entries::{PitchAnswer, PitchState},
    pitch::search::{EXCITATION_SAMPLES, Subframe},
};

pub const SILENT_EXCITATION: [i16; EXCITATION_SAMPLES] = [0; EXCITATION_SAMPLES];

pub const SUBFRAMES: [Subframe; 4] = [
    Subframe::One,
    Subframe::Two,
    Subframe::Three,
    Subframe::Four,
];

/// `entries::pitch_search` or `entries::preview`.
type Entry = fn(PitchState, &[i16], &[i16], &[i16], u16, u16, u8) -> PitchAnswer;

/// What an entry answers where every word is 0.
pub fn on_silence(entry: Entry, given: PitchState, lags: [u16; 2], subframe: u8) -> PitchAnswer {
    let [first, second] = lags;
    entry(
        given,
        &SILENT_EXCITATION,
        &SILENCE,
        &SILENCE,
        first,
        second,
        subframe,
    )
}
