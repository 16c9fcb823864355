//! The pulse search.

pub use crate::entries::SharpeningGain;
use crate::{Refusal, SUBFRAME_SAMPLES, Words, entries, pitch::PitchLag};

#[derive(Debug, Clone, PartialEq, Eq)]
pub struct SearchResult {
    pub pulse_positions: u16,
    pub pulse_signs: u16,
    pub innovation_q13: Words,
    pub filtered_q12: Words,
    pub sharpened_impulse_q12: Words,
}

/// TS 26.073 code_4i40_17bits. Refuses by 6 a lag outside 19 to 144, which no search and no reading
/// answers.
pub fn search(
    target: &[i16; SUBFRAME_SAMPLES],
    impulse_q12: &[i16; SUBFRAME_SAMPLES],
    lag: PitchLag,
    pitch_sharp_q14: SharpeningGain,
) -> Result<SearchResult, Refusal> {
    let mut result = SearchResult {
        pulse_positions: 0,
        pulse_signs: 0,
        innovation_q13: [0; SUBFRAME_SAMPLES],
        filtered_q12: [0; SUBFRAME_SAMPLES],
        sharpened_impulse_q12: [0; SUBFRAME_SAMPLES],
    };
    let answer = entries::pulse_search(
        target,
        impulse_q12,
        lag.samples,
        pitch_sharp_q14,
        &mut result.innovation_q13,
        &mut result.filtered_q12,
        &mut result.sharpened_impulse_q12,
    );
    Refusal::check(answer.number, answer.magnitude)?;
    result.pulse_positions = answer.positions;
    result.pulse_signs = answer.signs;
    Ok(result)
}
