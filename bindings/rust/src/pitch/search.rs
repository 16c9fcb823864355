//! The closed-loop search.

use super::{PitchLag, UpperLag};
pub use crate::Refusal as SearchError;
use crate::{
    SUBFRAME_SAMPLES,
    entries::{self, FramePitch, PitchAnswer, PitchState},
    refusal::sure,
};

const HISTORY_SAMPLES: usize = 154;
pub const EXCITATION_SAMPLES: usize = HISTORY_SAMPLES + SUBFRAME_SAMPLES;

#[derive(Debug, Clone, Copy, PartialEq, Eq)]
pub enum Subframe {
    One,
    Two,
    Three,
    Four,
}

impl Subframe {
    pub fn number(self) -> u8 {
        match self {
            Self::One => 1,
            Self::Two => 2,
            Self::Three => 3,
            Self::Four => 4,
        }
    }

    /// Of a number that the library hands back: 1 to 4, since a `Subframe` was given.
    pub(super) fn of(number: u8) -> Self {
        match number {
            1 => Self::One,
            2 => Self::Two,
            3 => Self::Three,
            _ => Self::Four,
        }
    }
}

/// A lag of 20 to 143 samples. Above 120 a player's search refuses it.
#[derive(Debug, Clone, Copy, PartialEq, Eq)]
pub struct OpenLoopLag(pub(super) u16);

impl OpenLoopLag {
    /// Refuses by 3.
    pub fn try_new(samples: u16) -> Result<Self, SearchError> {
        let answer = entries::open_loop_lag(samples);
        SearchError::check(answer.number, answer.magnitude)?;
        Ok(Self(answer.lag))
    }

    pub fn samples(self) -> u16 {
        self.0
    }
}

#[derive(Debug, Clone, Copy, PartialEq, Eq)]
pub struct SearchedPitch {
    pub lag: PitchLag,
    pub index: u8,
}

impl SearchedPitch {
    pub(super) fn of(sent: FramePitch) -> Self {
        Self {
            lag: PitchLag::of(sent.samples, sent.fraction),
            index: sent.index,
        }
    }
}

/// The default is a handset's.
#[derive(Debug, Clone, PartialEq, Eq)]
pub struct Search {
    pub previous: PitchLag,
    pub next: Subframe,
    pub upper: UpperLag,
    /// The first whole lag of the window that was searched last; 0 when fresh. The whole lag that
    /// was found there lies between `start - 1` and `start + 10`. No search depends on it.
    pub start: u16,
}

impl Default for Search {
    fn default() -> Self {
        Self::fresh(UpperLag::Handset)
    }
}

/// `entries::pitch_search` or `entries::preview`.
type Entry = fn(PitchState, &[i16], &[i16], &[i16], u16, u16, u8) -> PitchAnswer;

impl Search {
    /// A fresh search of an announcement player.
    pub fn player() -> Self {
        Self::fresh(UpperLag::Player)
    }

    /// Keeps the upper lag.
    pub fn reset(&mut self) {
        *self = Self::fresh(self.upper);
    }

    /// TS 26.073 Pitch_fr for MR74. Input contains chronological excitation history followed by the
    /// current LPC residual. A player's refuses by 3 the first open-loop lag above 120, whichever
    /// subframe it is; then 4 refuses a subframe that is not the one expected.
    pub fn search(
        &mut self,
        excitation: &[i16; EXCITATION_SAMPLES],
        target: &[i16; SUBFRAME_SAMPLES],
        impulse_q12: &[i16; SUBFRAME_SAMPLES],
        open_loop: [OpenLoopLag; 2],
        subframe: Subframe,
    ) -> Result<SearchedPitch, SearchError> {
        let entry = entries::pitch_search;
        let (found, after) =
            self.answered(entry, excitation, target, impulse_q12, open_loop, subframe)?;
        *self = after;
        Ok(found)
    }

    /// What `search` with the same arguments would answer, refusals too. The search stays as it is,
    /// so its `start` is that of its last window, not of the previewed one.
    pub fn preview(
        &self,
        excitation: &[i16; EXCITATION_SAMPLES],
        target: &[i16; SUBFRAME_SAMPLES],
        impulse_q12: &[i16; SUBFRAME_SAMPLES],
        open_loop: [OpenLoopLag; 2],
        subframe: Subframe,
    ) -> Result<SearchedPitch, SearchError> {
        let entry = entries::preview;
        let (shown, _) =
            self.answered(entry, excitation, target, impulse_q12, open_loop, subframe)?;
        Ok(shown)
    }

    /// What an entry answers, and the search after it.
    fn answered(
        &self,
        entry: Entry,
        excitation: &[i16; EXCITATION_SAMPLES],
        target: &[i16; SUBFRAME_SAMPLES],
        impulse_q12: &[i16; SUBFRAME_SAMPLES],
        open_loop: [OpenLoopLag; 2],
        subframe: Subframe,
    ) -> Result<(SearchedPitch, Self), SearchError> {
        let [first, second] = open_loop;
        let answer = entry(
            self.state(),
            excitation,
            target,
            impulse_q12,
            first.0,
            second.0,
            subframe.number(),
        );
        SearchError::check(answer.number, answer.magnitude)?;
        let pitch = SearchedPitch {
            lag: PitchLag::of(answer.samples, answer.fraction),
            index: answer.index,
        };
        Ok((pitch, Self::of(answer.state())))
    }
}

/// TS 26.073 Convolve truncates the scaled result without a rounding bias.
pub fn convolve(
    input: &[i16; SUBFRAME_SAMPLES],
    impulse_q12: &[i16; SUBFRAME_SAMPLES],
) -> [i16; SUBFRAME_SAMPLES] {
    let mut output = [0; SUBFRAME_SAMPLES];
    let answer = entries::convolve(input, impulse_q12, &mut output);
    sure(SearchError::check(answer.number, answer.magnitude));
    output
}
