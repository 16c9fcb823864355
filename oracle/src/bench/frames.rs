//! A frame in one call, and the six calls that it stands for.

use crate::{
    calls::Call,
    codec::mr74::pitch::{
        open_loop::Detector,
        search::{OpenLoopLag, Search, SearchError, SearchedPitch, Subframe},
    },
    frames::Frame,
    open_loop::{HALF_FRAME, HISTORY},
    project::{
        FrameAnswer, OpenLoopAnswer, PitchAnswer, PitchState, fresh_pitch, open_loop, pitch_search,
    },
};

/// The library's detector and searcher.
pub struct Library {
    history: [i16; HISTORY],
    searcher: PitchState,
}

impl Library {
    pub fn fresh() -> Self {
        Self {
            history: [0; HISTORY],
            searcher: fresh_pitch(),
        }
    }

    pub fn frame(&mut self, frame: &Frame) -> FrameAnswer {
        let answer = frame.called(self.searcher, &mut self.history);
        self.searcher = answer.searcher;
        answer
    }

    pub fn six_calls(&mut self, frame: &Frame) -> ([OpenLoopAnswer; 2], [PitchAnswer; 4]) {
        let halves = halves(frame).map(|half| open_loop(half, &mut self.history));
        let lags = halves.map(|answer| answer.lag);
        let pitches = frame.searches.each_ref().map(|call| {
            let answer = pitch_search(
                self.searcher,
                &call.excitation,
                &call.target,
                &call.impulse,
                lags,
                call.subframe,
            );
            self.searcher = answer.state();
            answer
        });
        (halves, pitches)
    }
}

/// The published detector and search.
#[derive(Default)]
pub struct Published {
    detector: Detector,
    search: Search,
}

type Searched = Result<SearchedPitch, SearchError>;

impl Published {
    pub fn six_calls(&mut self, frame: &Frame) -> ([OpenLoopLag; 2], [Searched; 4]) {
        let lags = halves(frame).map(|half| self.detector.push(half));
        let mut search = |call: &Call, subframe| {
            let lists = call.lists().expect("lists of the search's lengths");
            self.search.search(
                lists.excitation,
                lists.target,
                lists.impulse,
                lags,
                subframe,
            )
        };
        let [one, two, three, four] = &frame.searches;
        let pitches = [
            search(one, Subframe::One),
            search(two, Subframe::Two),
            search(three, Subframe::Three),
            search(four, Subframe::Four),
        ];
        (lags, pitches)
    }
}

fn halves(frame: &Frame) -> [&[i16; HALF_FRAME]; 2] {
    frame.halves().expect("two half frames")
}
