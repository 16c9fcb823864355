//! A whole frame in one call.

use super::{
    open_loop::Detector,
    search::{EXCITATION_SAMPLES, OpenLoopLag, Search, SearchedPitch},
};
use crate::{
    Refusal, SUBFRAME_SAMPLES,
    entries::{self, SubframeLists},
};

pub const FRAME_SAMPLES: usize = 160;

/// What the encoder had at a subframe.
#[derive(Debug, Clone, Copy, PartialEq, Eq)]
pub struct SubframeInputs<'a> {
    pub excitation: &'a [i16; EXCITATION_SAMPLES],
    pub target: &'a [i16; SUBFRAME_SAMPLES],
    pub impulse_q12: &'a [i16; SUBFRAME_SAMPLES],
}

/// The open-loop lags of both half frames, and what is sent for each subframe.
#[derive(Debug, Clone, Copy, PartialEq, Eq)]
pub struct Frame {
    pub open_loop: [OpenLoopLag; 2],
    pub pitches: [SearchedPitch; 4],
}

/// What two calls of `Detector::push`, one for each half of the perceptually weighted speech, and
/// then four of `Search::search` with both lags answer, and the states after them. Refuses by 4,
/// before the detector is asked, a search that does not expect subframe one; a player's refuses by
/// 3 the first lag above 120. Where it refuses, detector and search are as before the frame.
pub fn frame(
    detector: &mut Detector,
    search: &mut Search,
    samples_q0: &[i16; FRAME_SAMPLES],
    subframes: [SubframeInputs<'_>; 4],
) -> Result<Frame, Refusal> {
    let sets = subframes.map(|had| SubframeLists {
        excitation: had.excitation,
        target: had.target,
        impulse_q12: had.impulse_q12,
    });
    let answer = entries::frame(search.state(), samples_q0, sets, &mut detector.history_q0);
    Refusal::check(answer.number, answer.magnitude)?;
    *search = Search::of(answer.searcher);
    Ok(Frame {
        open_loop: [answer.first_lag, answer.second_lag].map(OpenLoopLag),
        pitches: answer.pitches.map(SearchedPitch::of),
    })
}
