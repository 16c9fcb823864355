//! The pitch gain, and the choice of a row.

use crate::{
    Refusal, SUBFRAME_SAMPLES,
    entries::{self, GainAnswer},
    refusal::sure,
};

const RESONANCE_LIMIT_Q14: i16 = 15565;

#[derive(Debug, Clone, Copy, PartialEq, Eq)]
pub enum GainLimit {
    Unrestricted,
    Resonance,
}

impl GainLimit {
    pub fn pitch_q14(self) -> i16 {
        match self {
            Self::Unrestricted => i16::MAX,
            Self::Resonance => RESONANCE_LIMIT_Q14,
        }
    }

    fn choice(self) -> u8 {
        match self {
            Self::Unrestricted => 0,
            Self::Resonance => 1,
        }
    }

    /// Of a number that the library hands back: 0 or 1.
    pub(crate) fn of(choice: u8) -> Self {
        match choice {
            0 => Self::Unrestricted,
            _ => Self::Resonance,
        }
    }
}

/// At how many of a sum's 40 terms the doubled product or the running sum was clipped: the subframe
/// is too loud for a sum whose count is above 0, and then that sum was repeated with quarters of the
/// adaptive words. The repetition is not counted.
// In this order the two bytes are not read as one word of the answer, which would wait for both.
#[derive(Debug, Clone, Copy, PartialEq, Eq)]
pub struct PitchClips {
    /// Of the target by the adaptive words.
    pub target: u8,
    /// Of the adaptive words by themselves.
    pub energy: u8,
}

#[derive(Debug, Clone, Copy, PartialEq, Eq)]
pub struct PitchGain {
    pub gain_q14: i16,
    /// The energy and its exponent, the correlation and its exponent.
    pub correlations: [i16; 4],
    clips: PitchClips,
}

impl PitchGain {
    pub fn clips(&self) -> PitchClips {
        self.clips
    }
}

/// TS 26.073 G_pitch.
pub fn pitch_gain(
    target: &[i16; SUBFRAME_SAMPLES],
    adaptive: &[i16; SUBFRAME_SAMPLES],
) -> PitchGain {
    let answer = entries::pitch_gain(target, adaptive);
    sure(Refusal::check(answer.number, answer.magnitude));
    PitchGain {
        gain_q14: answer.gain_q14,
        correlations: [answer.yy, answer.yy_exponent, answer.xy, answer.xy_exponent],
        clips: PitchClips {
            energy: answer.energy_clips,
            target: answer.target_clips,
        },
    }
}

/// What the caller's gain decoder predicts: exponent -128 to 127, fraction 0 to 32767.
#[derive(Debug, Clone, Copy, PartialEq, Eq)]
pub struct Prediction {
    pub exponent: i16,
    pub fraction: u16,
}

/// The counts of [`PitchClips`], and those of the sums with the eighths of the filtered innovation,
/// which are not repeated.
#[derive(Debug, Clone, Copy, PartialEq, Eq)]
pub struct GainClips {
    pub energy: u8,
    pub target: u8,
    /// Of the eighths by themselves: 0 for all words.
    pub innovation: u8,
    /// Of the target by the eighths.
    pub target_innovation: u8,
    /// Of the adaptive words by the eighths.
    pub adaptive_innovation: u8,
}

/// The index that is sent, and its row of the table.
#[derive(Debug, Clone, Copy, PartialEq, Eq)]
pub struct QuantizedRow {
    pub index: u16,
    pub pitch_q14: i16,
    pub correction_q12: i16,
    pub energy_q10: i16,
    clips: GainClips,
}

impl QuantizedRow {
    pub fn clips(&self) -> GainClips {
        self.clips
    }

    pub(crate) fn of(answer: GainAnswer) -> Result<Self, Refusal> {
        Refusal::check_signed(answer.number, answer.negative, answer.magnitude)?;
        Ok(Self {
            index: answer.index,
            pitch_q14: answer.pitch_q14,
            correction_q12: answer.correction_q12,
            energy_q10: answer.energy_q10,
            clips: GainClips {
                energy: answer.energy_clips,
                target: answer.target_clips,
                innovation: answer.innovation_clips,
                target_innovation: answer.target_innovation_clips,
                adaptive_innovation: answer.adaptive_innovation_clips,
            },
        })
    }
}

/// TS 26.073 calc_filt_energies and Qua_gain for MR74: the lowest index of least distance within
/// the limit. Refuses by 7 a predicted exponent outside its range, then by 14 such a fraction.
pub fn quantize(
    target: &[i16; SUBFRAME_SAMPLES],
    adaptive: &[i16; SUBFRAME_SAMPLES],
    filtered_innovation_q12: &[i16; SUBFRAME_SAMPLES],
    prediction: Prediction,
    limit: GainLimit,
) -> Result<QuantizedRow, Refusal> {
    QuantizedRow::of(entries::quantize(
        target,
        adaptive,
        filtered_innovation_q12,
        prediction.exponent,
        prediction.fraction,
        limit.choice(),
    ))
}
