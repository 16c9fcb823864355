//! The resonance watch: chains of spectra, limits, and chains of gain stages with spectra between
//! them, where each side goes on from its own state.

mod limits;
mod observed;
mod published;
mod refusals;
mod spectra;
mod stage_cases;
mod stages;

pub use limits::{Watched, pitch_gain, stored_gain};
pub use observed::Runs;
pub use spectra::{Spectrum, speech_spectrum};
pub use stages::{Drawing, SUBFRAMES, Stage};

// What the published file names by `super`.
use crate::codec::mr74::{gain, spectral};

use crate::{
    compare::Function,
    gain::{Call, Nearest, choice},
    project::{LimitAnswer, SpectrumAnswer},
    subframes::Refusal,
};
use gain::{TABLE, quantization::GainLimit};
use published::Stability;
use spectral::LPC_ORDER;
use std::fmt;

/// The stored gains.
pub const GAINS: usize = 7;
pub type Gains = [i16; GAINS];
pub const FRESH_GAINS: Gains = [0; GAINS];

/// The count at which a spectrum is resonant.
pub const RESONANT: u8 = 12;
/// The pitch gain above which the limit may be the resonance one, and the sum as well.
pub const BOUND: i16 = 15565;
const EIGHTH: u32 = 3;

pub fn functions() -> [Function; 6] {
    [
        Function {
            name: "observe_spectrum",
            compare: observed::compare_chains,
        },
        Function {
            name: "observe_spectrum",
            compare: refusals::compare_spectra,
        },
        Function {
            name: "watch_limit",
            compare: limits::compare_limits,
        },
        Function {
            name: "watch_limit",
            compare: refusals::compare_limits,
        },
        Function {
            name: "watched_gain",
            compare: stages::compare_chains,
        },
        Function {
            name: "watched_gain",
            compare: refusals::compare_stages,
        },
    ]
}

/// The published watch, shown as it is shown itself.
#[derive(Clone, Default, PartialEq, Eq)]
pub struct Watch(Stability);

/// A published stage: the limit that was chosen, and the row within it.
pub struct Staged {
    pub limit: GainLimit,
    pub nearest: Nearest,
}

impl Watch {
    /// Any count and any gains.
    pub fn of(count: u8, gains: Gains) -> Self {
        Self(Stability::of(count, gains))
    }

    /// After twelve close spectra or more, no gain being stored yet.
    pub fn resonant() -> Self {
        Self::of(RESONANT, FRESH_GAINS)
    }

    pub fn count(&self) -> u8 {
        self.0.parts().0
    }

    pub fn gains(&self) -> Gains {
        self.0.parts().1
    }

    pub fn observe(&mut self, lsp: &[i16; LPC_ORDER]) -> bool {
        self.0.observe_spectrum(lsp)
    }

    /// The published limit takes whether the spectrum is resonant.
    pub fn limit(&self, pitch_gain_q14: i16) -> GainLimit {
        self.0.limit(self.count() >= RESONANT, pitch_gain_q14)
    }

    /// The stage as the published encoder runs it. The call's own limit is not looked at.
    pub fn stage(&mut self, call: &Call, pitch_gain_q14: i16) -> Staged {
        let limit = self.limit(pitch_gain_q14);
        let nearest = call.nearest_within(limit);
        let [row_gain_q14, ..] = TABLE[usize::from(nearest.index)];
        self.commit(row_gain_q14);
        Staged { limit, nearest }
    }

    /// Stores a pitch gain as after a stage.
    pub fn commit(&mut self, pitch_gain_q14: i16) {
        self.0.commit_gain(pitch_gain_q14);
    }
}

impl fmt::Debug for Watch {
    fn fmt(&self, f: &mut fmt::Formatter<'_>) -> fmt::Result {
        self.0.fmt(f)
    }
}

/// An answer of the library to a spectrum, by whether it is resonant or the refusal, and the count
/// after it.
fn spectrum_answer(answer: Result<bool, Refusal>, count: u8) -> SpectrumAnswer {
    let refusal = answer.err();
    SpectrumAnswer {
        number: refusal.map_or(0, |refusal| refusal.number),
        magnitude: refusal.map_or(0, |refusal| refusal.detail),
        resonant: answer.unwrap_or(false),
        count,
    }
}

/// An answer of the library by the limit or the refusal.
fn limit_answer(answer: Result<GainLimit, Refusal>) -> LimitAnswer {
    let refusal = answer.err();
    LimitAnswer {
        number: refusal.map_or(0, |refusal| refusal.number),
        magnitude: refusal.map_or(0, |refusal| refusal.detail),
        limit: answer.map_or(0, choice),
    }
}
