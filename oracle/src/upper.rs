//! The upper lag of a searcher or a lag reader: its number in a state, and the copy of the published
//! Rust that has it. What goes into a copy and comes out of it is of the unchanged copy's types.

use crate::{
    calls::Lists,
    codec::mr74::pitch::{
        DeltaIndexError, Fraction, PitchLag,
        search::{OpenLoopLag, Search, SearchError, SearchedPitch, Subframe},
    },
    player::codec::mr74::pitch as player,
    project::{PitchState, fresh_pitch, fresh_player},
    subframes::Refusal,
};

/// The variants have the bindings' names.
#[derive(Debug, Clone, Copy, Default, PartialEq, Eq)]
pub enum Upper {
    #[default]
    Handset,
    Player,
}

impl Upper {
    /// 120 is the player's, every other number the handset's.
    pub fn of(number: u8) -> Self {
        match number {
            120 => Self::Player,
            _ => Self::Handset,
        }
    }

    pub fn samples(self) -> u16 {
        match self {
            Self::Handset => 143,
            Self::Player => 120,
        }
    }

    /// The number in a state.
    pub fn number(self) -> u8 {
        self.samples() as u8
    }

    /// The library's fresh searcher or reader.
    pub fn fresh(self) -> PitchState {
        match self {
            Self::Handset => fresh_pitch(),
            Self::Player => fresh_player(),
        }
    }

    /// The published lags, or the refusal of the first that is none.
    pub fn open_loop(self, [first, second]: [u16; 2]) -> Result<[OpenLoopLag; 2], Refusal> {
        let lag = |samples| {
            if self == Self::Player {
                player::search::OpenLoopLag::try_new(samples).map_err(SearchError::from)?;
            }
            OpenLoopLag::try_new(samples)
        };
        Ok([lag(first)?, lag(second)?])
    }

    pub fn reset(self, search: &mut Search) {
        match self {
            Self::Handset => search.reset(),
            Self::Player => on_copy(search, |copy| copy.reset()),
        }
    }

    /// The published search.
    pub fn search(
        self,
        search: &mut Search,
        lists: Lists<'_>,
        open_loop: [OpenLoopLag; 2],
        subframe: Subframe,
    ) -> Result<SearchedPitch, SearchError> {
        const TAKEN: &str = "a lag that the player's copy took";
        let Lists {
            excitation,
            target,
            impulse,
        } = lists;
        match self {
            Self::Handset => search.search(excitation, target, impulse, open_loop, subframe),
            Self::Player => {
                let open_loop = open_loop
                    .map(|lag| player::search::OpenLoopLag::try_new(lag.samples()).expect(TAKEN));
                let found = on_copy(search, |copy| {
                    copy.search(excitation, target, impulse, open_loop, subframe.into())
                })?;
                Ok(SearchedPitch {
                    lag: found.lag.into(),
                    index: found.index,
                })
            }
        }
    }

    /// The published lag of an absolute index.
    pub fn absolute(self, index: u8) -> PitchLag {
        match self {
            Self::Handset => PitchLag::from_absolute(index),
            Self::Player => player::PitchLag::from_absolute(index).into(),
        }
    }

    /// The published lag of a relative index.
    pub fn relative(self, index: u8, previous: PitchLag) -> Result<PitchLag, DeltaIndexError> {
        match self {
            Self::Handset => PitchLag::from_relative(index, previous),
            Self::Player => player::PitchLag::from_relative(index, previous.into())
                .map(PitchLag::from)
                .map_err(|player::DeltaIndexError(index)| DeltaIndexError(index)),
        }
    }
}

/// Does something to the player's copy of a search.
fn on_copy<T>(search: &mut Search, work: impl FnOnce(&mut player::search::Search) -> T) -> T {
    let mut copy = player::search::Search {
        previous: search.previous.into(),
        next: search.next.into(),
    };
    let made = work(&mut copy);
    *search = Search {
        previous: copy.previous.into(),
        next: copy.next.into(),
    };
    made
}

/// An enum of one copy, and its namesake of the other.
macro_rules! namesakes {
    ($one:ty, $other:ty: $($variant:ident)+) => {
        impl From<$one> for $other {
            fn from(value: $one) -> Self {
                match value {
                    $(<$one>::$variant => Self::$variant,)+
                }
            }
        }

        impl From<$other> for $one {
            fn from(value: $other) -> Self {
                match value {
                    $(<$other>::$variant => Self::$variant,)+
                }
            }
        }
    };
}

namesakes!(Fraction, player::Fraction: MinusThird Zero PlusThird);
namesakes!(Subframe, player::search::Subframe: One Two Three Four);

impl From<PitchLag> for player::PitchLag {
    fn from(lag: PitchLag) -> Self {
        Self {
            samples: lag.samples,
            fraction: lag.fraction.into(),
        }
    }
}

impl From<player::PitchLag> for PitchLag {
    fn from(lag: player::PitchLag) -> Self {
        Self {
            samples: lag.samples,
            fraction: lag.fraction.into(),
        }
    }
}

impl From<player::search::SearchError> for SearchError {
    fn from(error: player::search::SearchError) -> Self {
        match error {
            player::search::SearchError::OpenLoopLag(samples) => Self::OpenLoopLag(samples),
            player::search::SearchError::SubframeOrder { expected, received } => {
                Self::SubframeOrder {
                    expected: expected.into(),
                    received: received.into(),
                }
            }
        }
    }
}
