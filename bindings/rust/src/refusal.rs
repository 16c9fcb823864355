use std::{error::Error, fmt};

/// What is turned down, by its number, 1 to 10 or 14 to 17, and one detail.
#[derive(Debug, Clone, Copy, PartialEq, Eq)]
pub struct Refusal {
    pub number: u8,
    pub detail: i128,
}

impl Refusal {
    /// The refusal of an answer, unless its number is 0.
    pub(crate) fn check(number: u8, magnitude: u64) -> Result<(), Self> {
        Self::check_signed(number, 0, magnitude)
    }

    pub(crate) fn check_signed(number: u8, negative: u8, magnitude: u64) -> Result<(), Self> {
        let detail = match negative {
            0 => magnitude.into(),
            _ => -i128::from(magnitude),
        };
        match number {
            0 => Ok(()),
            _ => Err(Self { number, detail }),
        }
    }
}

/// Of a call whose lists have the lengths of its stage, and that can be refused for nothing else.
pub(crate) fn sure(answered: Result<(), Refusal>) {
    answered.expect("a length is refused, and these are the stage's own");
}

impl fmt::Display for Refusal {
    fn fmt(&self, f: &mut fmt::Formatter<'_>) -> fmt::Result {
        let Self { number, detail } = self;
        write!(f, "MR74 refusal {number}: ")?;
        match number {
            1 => write!(
                f,
                "a list of length {detail} is not as long as its stage needs"
            ),
            2 => write!(
                f,
                "{detail} is no subframe (1 to 4), or no limit choice (0 or 1)"
            ),
            3 => write!(
                f,
                "open-loop lag {detail} is outside 20 to 143, or above 120 for a player"
            ),
            4 => write!(f, "subframe {detail} is expected next"),
            5 => write!(f, "relative pitch index {detail} is above 31"),
            6 => write!(f, "pulse lag {detail} is outside 19 to 144"),
            7 => write!(
                f,
                "exponent {detail} is outside 0 to 30 (a power) or -128 to 127 (a prediction)"
            ),
            8 => write!(
                f,
                "pulse word {detail} is above 8191 (positions) or 15 (signs)"
            ),
            9 => write!(f, "feed record of kind {detail}, above 6"),
            10 => write!(f, "the feed ends after {detail} bytes of a record's body"),
            14 => write!(f, "fraction {detail} is above 32767"),
            15 => write!(f, "a list of {detail} channels is not one of 1 to 24"),
            16 => write!(f, "channel {detail} is not in the list"),
            17 => write!(f, "no channel waits"),
            _ => write!(f, "detail {detail}"),
        }
    }
}

impl Error for Refusal {}
