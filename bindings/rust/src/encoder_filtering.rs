//! Target filtering.

use crate::{Refusal, SUBFRAME_SAMPLES, Words, entries, refusal::sure};

pub const LPC_ORDER: usize = 10;
pub const COEFFICIENTS: usize = LPC_ORDER + 1;
pub const INPUT_SAMPLES: usize = LPC_ORDER + SUBFRAME_SAMPLES;

#[derive(Debug, Clone, PartialEq, Eq)]
pub struct PreparedSubframe {
    pub residual_q0: Words,
    pub impulse_q12: Words,
    pub target_q0: Words,
    pub error_q0: Words,
}

/// TS 26.073 subframePreProc for MR74.
pub fn prepare(
    speech_q0: &[i16; INPUT_SAMPLES],
    coefficients_q12: &[i16; COEFFICIENTS],
    quantized_q12: &[i16; COEFFICIENTS],
    error_history_q0: &[i16; LPC_ORDER],
    weighting_history_q0: &[i16; LPC_ORDER],
) -> PreparedSubframe {
    let mut prepared = PreparedSubframe {
        residual_q0: [0; SUBFRAME_SAMPLES],
        impulse_q12: [0; SUBFRAME_SAMPLES],
        target_q0: [0; SUBFRAME_SAMPLES],
        error_q0: [0; SUBFRAME_SAMPLES],
    };
    let answer = entries::prepare(
        speech_q0,
        coefficients_q12,
        quantized_q12,
        error_history_q0,
        weighting_history_q0,
        &mut prepared.residual_q0,
        &mut prepared.impulse_q12,
        &mut prepared.target_q0,
        &mut prepared.error_q0,
    );
    sure(Refusal::check(answer.number, answer.magnitude));
    prepared
}

/// TS 26.073 Residu. The input begins with the ten preceding speech samples, oldest first.
pub fn residual(
    coefficients_q12: &[i16; COEFFICIENTS],
    samples: &[i16; INPUT_SAMPLES],
) -> [i16; SUBFRAME_SAMPLES] {
    let mut residual = [0; SUBFRAME_SAMPLES];
    let answer = entries::residual(coefficients_q12, samples, &mut residual);
    sure(Refusal::check(answer.number, answer.magnitude));
    residual
}
