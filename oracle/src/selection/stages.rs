//! The stages behind a feed, those of the published Rust, and what they make of a record by the
//! rules of 01.

use super::answers::{Answer, Answered};
use crate::{
    calls,
    codec::mr74::pitch::{PitchLag, open_loop::Detector},
    feed::{BODIES, words},
    filtering,
    gain::{self, SignedRefusal},
    project::PitchState,
    pulses,
    reader::{Reading, read},
    search::Searcher,
    subframes::{pitch_state, read_start},
    upper::Upper,
};

/// What is kept from record to record.
#[derive(Clone)]
pub struct Stages {
    pub detector: Detector,
    pub searcher: Searcher,
    pub reader: LagReader,
}

/// The upper lag, the lag that was read last, the subframe that is expected next, and the start that
/// is kept.
#[derive(Clone, Copy)]
pub struct LagReader {
    pub upper: Upper,
    pub previous: PitchLag,
    pub next: u8,
    pub start: u16,
}

impl Default for Stages {
    fn default() -> Self {
        Self::fresh([Upper::Handset; 2])
    }
}

impl Stages {
    /// With a searcher and a reader of these upper lags.
    pub fn fresh([searcher, reader]: [Upper; 2]) -> Self {
        Self {
            detector: Detector::default(),
            searcher: Searcher::fresh(searcher),
            reader: LagReader::fresh(reader),
        }
    }

    /// The answer to a whole record. A refused one leaves all as it was, a reset the upper lags.
    pub fn step(&mut self, kind: u8, body: &[u8]) -> Answered {
        match kind {
            0 => {
                *self = Self::fresh([self.searcher.upper, self.reader.upper]);
                Ok(Answer::Reset)
            }
            1 => {
                let samples = words(body).try_into().expect("a half frame");
                Ok(Answer::Open(self.detector.push(&samples).samples()))
            }
            2 => {
                let call = calls::recorded(body);
                Ok(Answer::Pitch(self.searcher.searched(&call)?))
            }
            3 => Ok(Answer::Pulses(pulses::recorded(body)?.search())),
            4 => Ok(Answer::Gain(gain::recorded(body)?.quantize())),
            5 => Ok(Answer::Filter(filtering::recorded(body).prepare())),
            _ => Ok(Answer::Lag(self.reader.read(body[0], body[1])?)),
        }
    }
}

impl Default for LagReader {
    fn default() -> Self {
        Self::fresh(Upper::Handset)
    }
}

impl LagReader {
    /// The lag is the fresh search's.
    pub fn fresh(upper: Upper) -> Self {
        Self {
            upper,
            previous: Searcher::fresh(upper).search.previous,
            next: 1,
            start: 0,
        }
    }

    pub fn state(&self) -> PitchState {
        pitch_state(self.upper, self.previous, self.next, self.start)
    }

    pub fn read(&mut self, subframe: u8, index: u8) -> Result<PitchLag, SignedRefusal> {
        let lag = read(Reading {
            upper: self.upper,
            previous: self.previous,
            expected: self.next,
            start: self.start,
            subframe,
            index,
        })?;
        *self = Self {
            previous: lag,
            next: subframe % 4 + 1,
            start: read_start(subframe, lag, index),
            ..*self
        };
        Ok(lag)
    }
}

/// A record at the start of a feed, and what follows it.
pub struct Head<'a> {
    pub kind: u8,
    pub body: &'a [u8],
    pub rest: &'a [u8],
}

/// The first record; none where the feed has ended. It is refused where its kind is bad or its body
/// is not all there.
pub fn first(feed: &[u8]) -> Option<Result<Head<'_>, SignedRefusal>> {
    let (&kind, after) = feed.split_first()?;
    let Some(&length) = BODIES.get(usize::from(kind)) else {
        let detail = kind.into();
        return Some(Err(SignedRefusal { number: 9, detail }));
    };
    let Some((body, rest)) = after.split_at_checked(length) else {
        let detail = after.len() as i64;
        return Some(Err(SignedRefusal { number: 10, detail }));
    };
    Some(Ok(Head { kind, body, rest }))
}
