//! The pitch stages' answers in the form of the library's, and what the published Rust has no
//! counterpart for: subframes as numbers, the refusals 1 and 2, and the starts of windows that
//! searchers and lag readers keep.

use crate::{
    codec::mr74::{
        codebook,
        pitch::{
            DeltaIndexError, PitchLag,
            search::{OpenLoopLag, SearchError, SearchedPitch, Subframe},
        },
    },
    project::{ACCEPTED, LengthAnswer, PitchAnswer, PitchState},
    search::Searcher,
    upper::Upper,
};

/// How far before its centre a window starts, and how far behind its start it ends, in subframes 1
/// and 3, then in 2 and 4.
pub const ABSOLUTE_RADIUS: u16 = 3;
const ABSOLUTE_SPAN: u16 = 6;
pub const RELATIVE_RADIUS: u16 = 5;
const RELATIVE_SPAN: u16 = 9;

/// What is turned down, by its number in 01 or 02 and its detail.
#[derive(Debug, Clone, Copy, PartialEq, Eq)]
pub struct Refusal {
    pub number: u8,
    pub detail: u64,
}

impl From<SearchError> for Refusal {
    fn from(error: SearchError) -> Self {
        match error {
            SearchError::OpenLoopLag(samples) => Self {
                number: 3,
                detail: samples.into(),
            },
            SearchError::SubframeOrder { expected, .. } => Self {
                number: 4,
                detail: number(expected).into(),
            },
        }
    }
}

impl From<DeltaIndexError> for Refusal {
    fn from(DeltaIndexError(index): DeltaIndexError) -> Self {
        Self {
            number: 5,
            detail: index.into(),
        }
    }
}

impl From<codebook::Error> for Refusal {
    fn from(error: codebook::Error) -> Self {
        let (codebook::Error::Positions(word) | codebook::Error::Signs(word)) = error;
        Self {
            number: 8,
            detail: word.into(),
        }
    }
}

/// Refuses the first length that is not the needed one.
pub fn check_lengths<const N: usize>(
    lengths: [usize; N],
    needed: [usize; N],
) -> Result<(), Refusal> {
    match lengths.into_iter().zip(needed).find(|(a, b)| a != b) {
        None => Ok(()),
        Some((length, _)) => Err(Refusal {
            number: 1,
            detail: length as u64,
        }),
    }
}

/// The answer of a function that refuses nothing but lengths.
pub fn length_answer(checked: Result<(), Refusal>) -> LengthAnswer {
    match checked {
        Ok(()) => ACCEPTED,
        Err(refusal) => LengthAnswer {
            number: refusal.number,
            magnitude: refusal.detail,
        },
    }
}

pub fn number(subframe: Subframe) -> u8 {
    match subframe {
        Subframe::One => 1,
        Subframe::Two => 2,
        Subframe::Three => 3,
        Subframe::Four => 4,
    }
}

pub fn subframe(number: u8) -> Result<Subframe, Refusal> {
    match number {
        1 => Ok(Subframe::One),
        2 => Ok(Subframe::Two),
        3 => Ok(Subframe::Three),
        4 => Ok(Subframe::Four),
        _ => Err(Refusal {
            number: 2,
            detail: number.into(),
        }),
    }
}

/// The first and the last whole lag that the search looks at, which the published search finds
/// within its own text.
pub fn window(searcher: &Searcher, open_loop: [OpenLoopLag; 2], subframe: Subframe) -> [usize; 2] {
    let (centre, radius, span) = if subframe.absolute() {
        let lag = open_loop[subframe.half()];
        (lag.samples(), ABSOLUTE_RADIUS, ABSOLUTE_SPAN)
    } else {
        let previous = searcher.search.previous;
        (previous.samples(), RELATIVE_RADIUS, RELATIVE_SPAN)
    };
    let start = start(searcher.upper, centre, radius, span);
    [start.into(), (start + span).into()]
}

/// The start of the window in subframes 2 and 4, of a search or of a reading.
pub fn relative_start(upper: Upper, previous: PitchLag) -> u16 {
    start(upper, previous.samples(), RELATIVE_RADIUS, RELATIVE_SPAN)
}

fn start(upper: Upper, centre: u16, radius: u16, span: u16) -> u16 {
    let highest = upper.samples() - span;
    centre.saturating_sub(radius).clamp(20, highest)
}

/// The start that a relative index counts from, as the published lag of that index shows it: whole
/// lag - floor((index + 2) / 3) + 1.
fn shown_start(lag: PitchLag, index: u8) -> u16 {
    lag.samples() - u16::from(index).div_ceil(3) + 1
}

/// The start that a searcher keeps after this published answer: in subframes 2 and 4 the one that
/// the answer shows, and there 01's window rule gives the same; in 1 and 3 the rule's.
pub fn searched_start(
    before: &Searcher,
    open_loop: [OpenLoopLag; 2],
    subframe: Subframe,
    SearchedPitch { lag, index }: SearchedPitch,
) -> u16 {
    let [start, _] = window(before, open_loop, subframe).map(|lag| lag as u16);
    if subframe.absolute() {
        return start;
    }
    let shown = shown_start(lag, index);
    assert_eq!(start, shown, "the start that is found here");
    shown
}

/// The start that a lag reader keeps after this published lag of this index.
pub fn read_start(subframe: u8, lag: PitchLag, index: u8) -> u16 {
    match subframe {
        2 | 4 => shown_start(lag, index),
        _ => 0,
    }
}

/// The library's state of a published search or reading, with the start beside it.
pub fn pitch_state(upper: Upper, previous: PitchLag, next: u8, start: u16) -> PitchState {
    PitchState {
        samples: previous.samples(),
        fraction: previous.fraction().thirds(),
        next,
        upper: upper.number(),
        start,
    }
}

/// An answer of the library that was accepted, or refused with the state as it was, and the state
/// after the call.
pub fn answer(answer: Result<(u8, PitchLag), Refusal>, after: PitchState) -> PitchAnswer {
    let (refusal, index, samples, fraction) = match answer {
        Ok((index, lag)) => (None, index, lag.samples(), lag.fraction().thirds()),
        Err(refusal) => (Some(refusal), 0, 0, 0),
    };
    PitchAnswer {
        number: refusal.map_or(0, |refusal| refusal.number),
        magnitude: refusal.map_or(0, |refusal| refusal.detail),
        index,
        samples,
        fraction,
        previous_samples: after.samples,
        previous_fraction: after.fraction,
        next: after.next,
        upper: after.upper,
        start: after.start,
    }
}
