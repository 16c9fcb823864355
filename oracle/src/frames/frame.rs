//! A frame: its lists, what the published Rust answers to its parts, and the faults that make it
//! refused.

use crate::{
    calls::Call,
    codec::mr74::pitch::{
        open_loop::Detector,
        search::{SearchedPitch, Subframe},
    },
    inputs::Random,
    open_loop::{HALF_FRAME, HISTORY, lent_history},
    project::{self, FrameAnswer, FramePitch, PitchState},
    refusals::Lengths,
    search::Searcher,
    states::{FRACTIONS, SAMPLES, STARTS, UPPERS},
    subframes::{Refusal, number},
    upper::Upper,
    words::{EXCITATION, SUBFRAME, shortened},
};
use std::{fmt, iter};

/// The samples, three lists of each subframe, and the history, in the order of their checks.
pub const LISTS: usize = 14;
#[rustfmt::skip]
const NEEDED: [usize; LISTS] = [
    2 * HALF_FRAME,
    EXCITATION, SUBFRAME, SUBFRAME,
    EXCITATION, SUBFRAME, SUBFRAME,
    EXCITATION, SUBFRAME, SUBFRAME,
    EXCITATION, SUBFRAME, SUBFRAME,
    HISTORY,
];

/// The published detector and searcher.
#[derive(Clone, PartialEq, Eq)]
pub struct States {
    pub detector: Detector,
    pub searcher: Searcher,
}

impl States {
    pub fn fresh(upper: Upper) -> Self {
        Self {
            detector: Detector::default(),
            searcher: Searcher::fresh(upper),
        }
    }

    /// A reset keeps the upper lag.
    pub fn reset(&mut self) {
        self.detector.reset();
        self.searcher.reset();
    }
}

/// One call of the frame. The lists may have any length, the searcher any numbers.
#[derive(Clone)]
pub struct Frame {
    pub samples: Vec<i16>,
    /// The single searches that the frame stands for.
    pub searches: [Call; 4],
    /// The length of the list that is lent as the history.
    history_length: usize,
    /// What is given as the searcher, where that is not the one that the frame before left.
    pub searcher: Option<PitchState>,
}

/// What the published Rust answers to the parts of a frame, and the states after them.
pub struct Parts {
    pub lags: [u16; 2],
    pub pitches: [SearchedPitch; 4],
    pub after: States,
}

impl Frame {
    pub fn new(samples: Vec<i16>, searches: [Call; 4]) -> Self {
        Self {
            samples,
            searches,
            history_length: HISTORY,
            searcher: None,
        }
    }

    pub fn lengths(&self) -> Lengths<LISTS> {
        let sets = self.sets().into_iter().flatten();
        let lists = iter::once(self.samples.as_slice()).chain(sets);
        let mut lengths = lists.map(<[i16]>::len).chain([self.history_length]);
        Lengths {
            needed: NEEDED,
            lengths: [(); LISTS].map(|()| lengths.next().expect("a list")),
        }
    }

    /// Each subframe's excitation, target and impulse response.
    pub fn sets(&self) -> [[&[i16]; 3]; 4] {
        let sets = self.searches.each_ref();
        sets.map(|set| [&set.excitation, &set.target, &set.impulse].map(Vec::as_slice))
    }

    /// The list that is lent as the history.
    pub fn history(&self, detector: &Detector) -> Vec<i16> {
        lent_history(&detector.history_q0, self.history_length)
    }

    /// What the library answers.
    pub fn called(&self, searcher: PitchState, history: &mut [i16]) -> FrameAnswer {
        project::frame(searcher, &self.samples, self.sets(), history)
    }

    /// Both half frames, where the samples have the right length.
    pub fn halves(&self) -> Option<[&[i16; HALF_FRAME]; 2]> {
        match self.samples.as_chunks() {
            ([first, second], []) => Some([first, second]),
            _ => None,
        }
    }

    /// The open-loop lags of both half frames, one pushed after the other.
    pub fn pushed(&self, detector: &mut Detector) -> Option<[u16; 2]> {
        let halves = self.halves()?;
        Some(halves.map(|half| detector.push(half).samples()))
    }

    /// The published parts, with the checks of 01 that their types make needless. By 02 all lengths
    /// are checked first, and then that subframe 1 is expected.
    pub fn published(&self, given: PitchState, detector: &Detector) -> Result<Parts, Refusal> {
        self.lengths().checked()?;
        let mut searcher = Searcher::of(given)?;
        if searcher.search.next != Subframe::One {
            return Err(Refusal {
                number: 4,
                detail: number(searcher.search.next).into(),
            });
        }
        let mut detector = detector.clone();
        let lags = self.pushed(&mut detector).expect("two half frames");
        let open_loop = searcher.upper.open_loop(lags)?;
        let mut search = |call: &Call, subframe| searcher.found(call.lists()?, open_loop, subframe);
        let [one, two, three, four] = &self.searches;
        let pitches = [
            search(one, Subframe::One)?,
            search(two, Subframe::Two)?,
            search(three, Subframe::Three)?,
            search(four, Subframe::Four)?,
        ];
        Ok(Parts {
            lags,
            pitches,
            after: States { detector, searcher },
        })
    }

    /// Gives one list another length or two lists, or the searcher other numbers, or all of that,
    /// so that the order of the checks is seen too.
    pub fn add_faults(&mut self, random: &mut Random, searcher: PitchState) {
        let faults = 1 + random.below(7);
        if faults & 1 != 0 {
            self.change_lengths(random);
        }
        let mut numbers = searcher;
        if faults & 2 != 0 {
            numbers.next = other_next(random);
        }
        if faults & 4 != 0 {
            change_numbers(random, &mut numbers);
        }
        self.searcher = Some(numbers).filter(|&numbers| numbers != searcher);
    }

    /// Gives one list another length, or two lists.
    pub fn change_lengths(&mut self, random: &mut Random) {
        self.resize(Lengths::one_or_two(random, NEEDED).lengths);
    }

    /// Takes the last word from the list at this place, if there is one there.
    pub fn shorten(&mut self, place: usize) {
        let mut lengths = NEEDED;
        if let Some(length) = lengths.get_mut(place) {
            *length -= 1;
        }
        self.resize(lengths);
    }

    fn resize(&mut self, lengths: [usize; LISTS]) {
        let sets = self.searches.iter_mut();
        let sets = sets.flat_map(|set| [&mut set.excitation, &mut set.target, &mut set.impulse]);
        let lists = iter::once(&mut self.samples).chain(sets);
        for (list, length) in lists.zip(lengths) {
            list.resize(length, i16::MAX);
        }
        self.history_length = lengths[LISTS - 1];
    }
}

/// A subframe that is expected other than subframe 1, or a number that is no subframe.
fn other_next(random: &mut Random) -> u8 {
    match random.below(8) {
        0 => 0,
        1 => 5,
        2 => 5 + random.below(251) as u8,
        _ => 2 + random.below(3) as u8,
    }
}

/// Other numbers, with the same upper lag and the same subframe expected.
fn change_numbers(random: &mut Random, numbers: &mut PitchState) {
    let mut choice = || random.below(8) as usize;
    numbers.samples = SAMPLES[choice()];
    numbers.fraction = FRACTIONS[choice()];
    numbers.start = STARTS[choice()];
    let upper = UPPERS[choice() % UPPERS.len()];
    if Upper::of(upper) == Upper::of(numbers.upper) {
        numbers.upper = upper;
    }
}

/// The pitch of a refused subframe.
pub const REFUSED: FramePitch = FramePitch {
    index: 0,
    samples: 0,
    fraction: 0,
};

/// A pitch in the form of the library's.
pub fn pitch(SearchedPitch { lag, index }: SearchedPitch) -> FramePitch {
    FramePitch {
        index,
        samples: lag.samples(),
        fraction: lag.fraction().thirds(),
    }
}

/// The answer in the form of the library's. Of a refused frame, the searcher that was given.
pub fn answer(found: &Result<Parts, Refusal>, given: PitchState) -> FrameAnswer {
    match found {
        Ok(parts) => FrameAnswer {
            number: 0,
            magnitude: 0,
            first_lag: parts.lags[0],
            second_lag: parts.lags[1],
            pitches: parts.pitches.map(pitch),
            searcher: parts.after.searcher.state(),
        },
        Err(refusal) => FrameAnswer {
            number: refusal.number,
            magnitude: refusal.detail,
            first_lag: 0,
            second_lag: 0,
            pitches: [REFUSED; 4],
            searcher: given,
        },
    }
}

impl fmt::Debug for Frame {
    fn fmt(&self, f: &mut fmt::Formatter<'_>) -> fmt::Result {
        write!(f, "samples ")?;
        shortened(&self.samples, f)?;
        write!(f, " {:?}", self.searches)?;
        write!(f, " history of {}", self.history_length)
    }
}
