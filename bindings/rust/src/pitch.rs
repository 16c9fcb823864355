//! Lags, and the lag reader.

pub mod dispatch;
pub mod frame;
pub mod open_loop;
pub mod search;

pub use crate::Refusal as DeltaIndexError;
use crate::entries::{self, PitchState};
use search::Subframe;

const PLAYER: u8 = 120;
const HANDSET: u8 = 143;

#[derive(Debug, Clone, Copy, PartialEq, Eq)]
pub enum Fraction {
    MinusThird,
    Zero,
    PlusThird,
}

impl Fraction {
    pub fn thirds(self) -> i16 {
        match self {
            Self::MinusThird => -1,
            Self::Zero => 0,
            Self::PlusThird => 1,
        }
    }

    fn of(thirds: i16) -> Self {
        match thirds {
            ..0 => Self::MinusThird,
            0 => Self::Zero,
            1.. => Self::PlusThird,
        }
    }
}

/// The largest open-loop lag that a search takes, and the upper end of its windows. A reader
/// recovers what a search sends if both were made with the same one.
#[derive(Debug, Clone, Copy, PartialEq, Eq)]
pub enum UpperLag {
    /// Of an announcement player.
    Player,
    Handset,
}

impl UpperLag {
    /// 120 or 143.
    pub fn samples(self) -> u16 {
        self.number().into()
    }

    fn number(self) -> u8 {
        match self {
            Self::Player => PLAYER,
            Self::Handset => HANDSET,
        }
    }

    fn of(number: u8) -> Self {
        match number {
            PLAYER => Self::Player,
            _ => Self::Handset,
        }
    }

    fn fresh(self) -> PitchState {
        match self {
            Self::Player => entries::fresh_player(),
            Self::Handset => entries::fresh_pitch(),
        }
    }
}

/// The fields are public, so that the original's concealment can write them: no stage needs a lag
/// to be in a range that it does not check.
#[derive(Debug, Clone, Copy, PartialEq, Eq)]
pub struct PitchLag {
    pub samples: u16,
    pub fraction: Fraction,
}

impl PitchLag {
    pub fn from_absolute(index: u8) -> Self {
        // A fresh reader takes every index of subframe one.
        let answer = entries::read_lag(entries::fresh_pitch(), 1, index);
        Self::of(answer.samples, answer.fraction)
    }

    /// Of a handset. Refuses by 5 an index above 31.
    pub fn from_relative(index: u8, previous: Self) -> Result<Self, DeltaIndexError> {
        LagReader {
            previous,
            next: Subframe::Two,
            upper: UpperLag::Handset,
            start: 0,
        }
        .read(Subframe::Two, index)
    }

    pub fn samples(self) -> u16 {
        self.samples
    }

    pub fn fraction(self) -> Fraction {
        self.fraction
    }

    fn of(samples: u16, thirds: i16) -> Self {
        Self {
            samples,
            fraction: Fraction::of(thirds),
        }
    }
}

/// Reads the indexes that a search sends, subframe by subframe. The default is a handset's.
#[derive(Debug, Clone, PartialEq, Eq)]
pub struct LagReader {
    pub previous: PitchLag,
    pub next: Subframe,
    pub upper: UpperLag,
    /// The first whole lag of the window that the last reading used, if it was one of subframe two
    /// or four; 0 when fresh and after one and three. No reading depends on it.
    pub start: u16,
}

impl Default for LagReader {
    fn default() -> Self {
        Self::fresh(UpperLag::Handset)
    }
}

impl LagReader {
    /// A fresh reader of an announcement player.
    pub fn player() -> Self {
        Self::fresh(UpperLag::Player)
    }

    /// Keeps the upper lag.
    pub fn reset(&mut self) {
        *self = Self::fresh(self.upper);
    }

    /// Refuses by 4 a subframe that is not the one expected, then by 5 a relative index above 31.
    /// In subframes one and three a player's reader takes every index too.
    pub fn read(&mut self, subframe: Subframe, index: u8) -> Result<PitchLag, DeltaIndexError> {
        let answer = entries::read_lag(self.state(), subframe.number(), index);
        DeltaIndexError::check(answer.number, answer.magnitude)?;
        *self = Self::of(answer.state());
        Ok(PitchLag::of(answer.samples, answer.fraction))
    }
}

/// The numbers in which a searcher or a reader crosses to the library, and back.
macro_rules! crosses {
    ($end:ty) => {
        impl $end {
            fn fresh(upper: UpperLag) -> Self {
                Self::of(upper.fresh())
            }

            fn of(state: PitchState) -> Self {
                Self {
                    previous: PitchLag::of(state.samples, state.fraction),
                    next: Subframe::of(state.next),
                    upper: UpperLag::of(state.upper),
                    start: state.start,
                }
            }

            fn state(&self) -> PitchState {
                PitchState {
                    samples: self.previous.samples,
                    fraction: self.previous.fraction.thirds(),
                    next: self.next.number(),
                    upper: self.upper.number(),
                    start: self.start,
                }
            }
        }
    };
}
crosses!(LagReader);
crosses!(search::Search);
