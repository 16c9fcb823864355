//! Frames of searchers in numbers, those too that no call hands out: every expected number.

use super::{
    chains::{Chain, Feed},
    frame::{Frame, LISTS, States, answer},
};
use crate::{
    codec::mr74::pitch::open_loop::Detector,
    compare::{Line, compare},
    inputs::Inputs,
    project::{FrameAnswer, PitchState},
    states::{SEARCHES_MET, every_number, numbers_met},
    upper::Upper,
};

/// The numbers of a searcher besides the expected one that are taken with each of them.
const OTHERS: u64 = 56;

/// The frame, by its place, and the searcher.
type Asked = (usize, PitchState);

/// What is answered, and the history after it.
type Answered = (FrameAnswer, Vec<i16>);

pub fn compare_numbers() -> Vec<Line> {
    let frames = frames();
    let asked = asked(frames.len() as u64);
    let with = ["rule of 02, every expected number"];
    let ours = |(place, given): Asked| frames[place].ours(given);
    let expected = |(place, given): Asked| frames[place].expected(given);
    let mut lines = compare(&asked, ours, with, |asked| [expected(asked)]);
    let number = |asked| expected(asked).0.number;
    lines.push(numbers_met(&asked, number, &SEARCHES_MET));
    lines
}

fn asked(frames: u64) -> Inputs<impl Fn(u64) -> Option<Asked> + Sync> {
    Inputs {
        count: (frames * OTHERS) << 8,
        at: move |index| {
            let (next, rest) = (index % 256, index >> 8);
            let (state, ..) = every_number(next | (rest / frames) << 16);
            Some(((rest % frames) as usize, state))
        },
    }
}

/// A frame, and the detector that it is called with.
#[derive(Clone)]
struct Fixed {
    frame: Frame,
    detector: Detector,
}

/// Frames without an open-loop lag above 120, with such a first one and with such a second one.
/// Each has every list a word too short in turn, and then none.
fn frames() -> Vec<Fixed> {
    const ABOVE: [[bool; 2]; 3] = [[false; 2], [true, false], [false, true]];
    let mut frames = Vec::new();
    for fixed in ABOVE.map(Fixed::drawn) {
        for place in 0..=LISTS {
            let mut fixed = fixed.clone();
            fixed.frame.shorten(place);
            frames.push(fixed);
        }
    }
    frames
}

impl Fixed {
    /// A frame of which these lags are above 120.
    fn drawn(above: [bool; 2]) -> Self {
        let feed = Feed::default();
        let mut chain = Chain::at(0, &feed);
        let mut states = States::fresh(Upper::Handset);
        loop {
            let frame = chain.frame(&states);
            let detector = states.detector.clone();
            let lags = frame.pushed(&mut states.detector).expect("half frames");
            if lags.map(|lag| lag > 120) == above {
                return Self { frame, detector };
            }
        }
    }

    fn ours(&self, given: PitchState) -> Answered {
        let mut history = self.frame.history(&self.detector);
        (self.frame.called(given, &mut history), history)
    }

    fn expected(&self, given: PitchState) -> Answered {
        let found = self.frame.published(given, &self.detector);
        let history = match &found {
            Ok(parts) => parts.after.detector.history_q0.to_vec(),
            Err(_) => self.frame.history(&self.detector),
        };
        (answer(&found, given), history)
    }
}
