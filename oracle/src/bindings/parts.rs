//! The numbers of a pitch gain and of a row, and their counts, which no published type has.

use super::{pitch_gain, quantize};
use crate::{
    codec::mr74::gain::TABLE,
    gain::{Call, PITCH_SUMS, SUMS},
};
use mr74::{
    Refusal,
    gain::quantization::{GainClips, PitchClips, QuantizedRow},
};

/// The gain, the correlations and the counts.
type Gain = (i16, [i16; 4], [u8; PITCH_SUMS]);
/// The index, its row of the table and the counts.
pub type Row = (u16, [i16; 3], [u8; SUMS]);

pub fn of_gain(call: &Call) -> Gain {
    let gain = pitch_gain(call);
    let PitchClips { energy, target } = gain.clips();
    (gain.gain_q14, gain.correlations, [energy, target])
}

pub fn of_published_gain(call: &Call) -> Gain {
    let gain = call.pitch_gain();
    (gain.gain_q14, gain.correlations, call.pitch_clips())
}

pub fn of_row(call: &Call) -> Result<Row, Refusal> {
    quantize(call).map(row)
}

pub fn row(row: QuantizedRow) -> Row {
    let GainClips {
        energy,
        target,
        innovation,
        target_innovation: product,
        adaptive_innovation: cross,
    } = row.clips();
    let numbers = [row.pitch_q14, row.correction_q12, row.energy_q10];
    let clips = [energy, target, innovation, product, cross];
    (row.index, numbers, clips)
}

pub fn of_published_row(call: &Call) -> Row {
    published_row(call, call.quantize())
}

/// The row of this index, which the published quantizer chose for the call.
pub fn published_row(call: &Call, index: u16) -> Row {
    (index, TABLE[usize::from(index)], call.clips())
}
