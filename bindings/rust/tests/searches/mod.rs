//! One search's inputs, as `Search` takes them.

use crate::inputs::{Drawn, SILENCE, SILENT_EXCITATION, SUBFRAMES};
use mr74::{
    Refusal, SUBFRAME_SAMPLES,
    pitch::search::{EXCITATION_SAMPLES, OpenLoopLag, Search, SearchedPitch, Subframe},
};

type Words = [i16; SUBFRAME_SAMPLES];

/// What is searched in a subframe.
pub struct Inputs {
    pub excitation: [i16; EXCITATION_SAMPLES],
    pub target: Words,
    pub impulse: Words,
    pub lags: [OpenLoopLag; 2],
    pub subframe: Subframe,
}

impl Inputs {
    /// The lags are 20 to 143. One subframe in four is drawn, the others are as expected.
    pub fn drawn(drawn: &mut Drawn, expected: Subframe) -> Self {
        Self {
            excitation: drawn.words(),
            target: drawn.words(),
            impulse: drawn.words(),
            lags: [(); 2].map(|()| lag(20 + drawn.below(124) as u16)),
            subframe: match drawn.below(4) {
                0 => SUBFRAMES[drawn.below(4) as usize],
                _ => expected,
            },
        }
    }

    pub fn silent(lags: [u16; 2], subframe: Subframe) -> Self {
        Self {
            excitation: SILENT_EXCITATION,
            target: SILENCE,
            impulse: SILENCE,
            lags: lags.map(lag),
            subframe,
        }
    }

    pub fn search(&self, searcher: &mut Search) -> Result<SearchedPitch, Refusal> {
        let (target, impulse) = (&self.target, &self.impulse);
        searcher.search(&self.excitation, target, impulse, self.lags, self.subframe)
    }
}

fn lag(samples: u16) -> OpenLoopLag {
    OpenLoopLag::try_new(samples).expect("a lag")
}
