//! The resonance watch, as 02's customers call it: it chooses the limit of the gain stage by the
//! spectra and the pitch gains before it.

use crate::{
    Refusal, SUBFRAME_SAMPLES,
    encoder_filtering::LPC_ORDER,
    entries,
    gain::quantization::{GainLimit, Prediction, QuantizedRow},
    refusal::sure,
};

const HISTORY_GAINS: usize = 7;

/// The resonance watch. Any numbers are taken; the default is a fresh one.
#[derive(Debug, Clone, Default, PartialEq, Eq)]
pub struct Stability {
    /// How many spectra in a row had close values, held at 12. From 12 on the spectrum is resonant.
    pub count: u8,
    /// The pitch gains of the last rows, the oldest first.
    pub gains_q11: [i16; HISTORY_GAINS],
}

/// What the gain stage chose under the watch, and the limit within which the row lies.
#[derive(Debug, Clone, Copy, PartialEq, Eq)]
pub struct WatchedRow {
    pub row: QuantizedRow,
    pub limit: GainLimit,
}

impl Stability {
    pub fn reset(&mut self) {
        *self = Self::default();
    }

    /// TS 26.073 check_lsp, once a frame. Supply the line spectral pairs as cosines in Q15. Answers
    /// whether the spectrum is resonant.
    pub fn observe_spectrum(&mut self, lsp: &[i16; LPC_ORDER]) -> bool {
        let answer = entries::observe_spectrum(lsp, self.count);
        sure(Refusal::check(answer.number, answer.magnitude));
        self.count = answer.count;
        answer.resonant
    }

    /// TS 26.073 check_gp_clipping: the limit that `quantize` would choose for this pitch gain, for
    /// an encoder that needs it before the pulses. The spectrum is resonant by the count.
    pub fn limit(&self, pitch_gain_q14: i16) -> GainLimit {
        let answer = entries::watch_limit(pitch_gain_q14, self.count, &self.gains_q11);
        sure(Refusal::check(answer.number, answer.magnitude));
        GainLimit::of(answer.limit)
    }

    /// `gain::quantization::quantize` within the limit that the watch chooses, as it is before the
    /// call. Then, as in TS 26.073 update_gp_clipping, the row's pitch gain, shifted right by 3, is
    /// the newest of the stored ones, and the oldest has left. The pitch gain given, as a rule that
    /// of `pitch_gain`, chooses the limit and is not stored. Refuses by 7 and 14 as that function
    /// does, and then the watch is as it was.
    pub fn quantize(
        &mut self,
        target: &[i16; SUBFRAME_SAMPLES],
        adaptive: &[i16; SUBFRAME_SAMPLES],
        filtered_innovation_q12: &[i16; SUBFRAME_SAMPLES],
        prediction: Prediction,
        pitch_gain_q14: i16,
    ) -> Result<WatchedRow, Refusal> {
        let answer = entries::watched_gain(
            target,
            adaptive,
            filtered_innovation_q12,
            prediction.exponent,
            prediction.fraction,
            pitch_gain_q14,
            self.count,
            &mut self.gains_q11,
        );
        Ok(WatchedRow {
            row: QuantizedRow::of(answer.gain)?,
            limit: GainLimit::of(answer.limit),
        })
    }
}
