//! Calls of the pulse search: the lists, the lag and the gain of one call, and those of a feed.

use super::TRACKS;
use crate::{
    codec::mr74::{
        codebook::search::{SearchResult, search},
        pitch::{Fraction, PitchLag},
    },
    feed::{self, Record, taken},
    project::PulsesAnswer,
    subframes::{Refusal, check_lengths},
    words::{SUBFRAME, shortened},
};
use std::{fmt, ops::RangeInclusive};

/// The lags that are not refused.
pub const LAGS: RangeInclusive<u16> = 19..=144;

/// The lists that are read and those that are written.
pub const READ: usize = 2;
pub const WRITTEN: usize = 3;
pub const LISTS: usize = READ + WRITTEN;

#[derive(Clone)]
pub struct Call {
    pub target: [i16; SUBFRAME],
    pub impulse: [i16; SUBFRAME],
    pub lag: u16,
    pub gain: i16,
}

impl Call {
    pub fn search(&self) -> SearchResult {
        let lag = PitchLag {
            samples: self.lag,
            fraction: Fraction::Zero,
        };
        search(&self.target, &self.impulse, lag, self.gain)
    }

    pub fn read(&self) -> [&[i16]; READ] {
        [&self.target, &self.impulse]
    }
}

impl fmt::Debug for Call {
    fn fmt(&self, f: &mut fmt::Formatter<'_>) -> fmt::Result {
        write!(f, "lag {} gain {} target ", self.lag, self.gain)?;
        shortened(&self.target, f)?;
        write!(f, " impulse ")?;
        shortened(&self.impulse, f)
    }
}

/// Refuses a list's length, then the lag.
pub fn checked(lengths: [usize; LISTS], lag: u16) -> Result<(), Refusal> {
    check_lengths(lengths, [SUBFRAME; LISTS])?;
    if LAGS.contains(&lag) {
        Ok(())
    } else {
        Err(Refusal {
            number: 6,
            detail: lag.into(),
        })
    }
}

/// An answer of the library, by the words of the pulses or the refusal.
pub fn answer(answer: Result<(u16, u16), Refusal>) -> PulsesAnswer {
    let (refusal, (positions, signs)) = match answer {
        Ok(words) => (None, words),
        Err(refusal) => (Some(refusal), (0, 0)),
    };
    PulsesAnswer {
        number: refusal.map_or(0, |refusal| refusal.number),
        magnitude: refusal.map_or(0, |refusal| refusal.detail),
        positions,
        signs,
    }
}

/// The lists that are written, with their names.
pub fn named(lists: [&[i16]; WRITTEN]) -> [(&str, &[i16]); WRITTEN] {
    let [innovation, filtered, sharpened] = lists;
    [
        ("innovation", innovation),
        ("filtered pulses", filtered),
        ("sharpened impulse response", sharpened),
    ]
}

/// The places of a track.
pub fn places(track: usize) -> impl DoubleEndedIterator<Item = usize> {
    (track..SUBFRAME).step_by(TRACKS)
}

/// The call of a feed's pulse record whose lag is not refused, of no other.
pub fn call(record: &Record) -> Option<Call> {
    if record.kind != 3 {
        return None;
    }
    recorded(&record.body).ok()
}

/// The call of a pulse record: target, impulse response, lag, gain.
pub fn recorded(body: &[u8]) -> Result<Call, Refusal> {
    let (lists, rest) = body.split_at(4 * SUBFRAME);
    let words = feed::words(lists);
    let mut words = words.as_slice();
    let call = Call {
        target: taken(&mut words),
        impulse: taken(&mut words),
        lag: rest[0].into(),
        gain: i16::from_be_bytes([rest[1], rest[2]]),
    };
    checked([SUBFRAME; LISTS], call.lag)?;
    Ok(call)
}
