//! The open-loop detector.

use super::search::OpenLoopLag;
use crate::{Refusal, entries, refusal::sure};

const HALF_FRAME_SAMPLES: usize = 80;
const HISTORY_SAMPLES: usize = 143;

#[derive(Debug, Clone, PartialEq, Eq)]
pub struct Detector {
    pub history_q0: [i16; HISTORY_SAMPLES],
}

impl Default for Detector {
    fn default() -> Self {
        Self {
            history_q0: [0; HISTORY_SAMPLES],
        }
    }
}

impl Detector {
    pub fn reset(&mut self) {
        *self = Self::default();
    }

    /// TS 26.073 Pitch_ol for MR74 without DTX. Supply consecutive 80-sample intervals of
    /// perceptually weighted speech.
    pub fn push(&mut self, samples_q0: &[i16; HALF_FRAME_SAMPLES]) -> OpenLoopLag {
        let answer = entries::open_loop(samples_q0, &mut self.history_q0);
        sure(Refusal::check(answer.number, answer.magnitude));
        OpenLoopLag(answer.lag)
    }
}
