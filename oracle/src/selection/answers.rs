//! The answers to a feed's records, and their lines.

use super::stages::{Stages, first};
use crate::{
    codec::mr74::{
        codebook::search::SearchResult,
        encoder_filtering::PreparedSubframe,
        gain::TABLE,
        pitch::{PitchLag, search::SearchedPitch},
    },
    counts::cases,
    gain::SignedRefusal,
    record::push_line,
};

pub const TITLE: &str = "mr74 select\n";

pub enum Answer {
    Reset,
    Open(u16),
    Pitch(SearchedPitch),
    Pulses(SearchResult),
    /// The index of a row.
    Gain(u16),
    Filter(PreparedSubframe),
    Lag(PitchLag),
}

pub type Answered = Result<Answer, SignedRefusal>;

cases! {
    Reset => "reset",
    Open => "open",
    Pitch => "pitch",
    Pulses => "pulses",
    Gain => "gain",
    Filter => "filter",
    Lag => "lag",
    Refused2 => "refused 2",
    Refused3 => "refused 3",
    Refused4 => "refused 4",
    Refused5 => "refused 5",
    Refused6 => "refused 6",
    Refused7 => "refused 7",
    Refused9 => "refused 9",
    Refused10 => "refused 10",
    Refused14 => "refused 14",
}

impl Case {
    /// No record is refused by number 1, since its kind gives the lengths of its lists, nor by
    /// number 8, since no kind reads pulses.
    pub fn of(answered: &Answered) -> Self {
        match answered {
            Ok(answer) => answer.case(),
            Err(refusal) => match refusal.number {
                2 => Self::Refused2,
                3 => Self::Refused3,
                4 => Self::Refused4,
                5 => Self::Refused5,
                6 => Self::Refused6,
                7 => Self::Refused7,
                9 => Self::Refused9,
                10 => Self::Refused10,
                14 => Self::Refused14,
                number => panic!("a record refused by number {number}"),
            },
        }
    }
}

impl Answer {
    fn case(&self) -> Case {
        match self {
            Self::Reset => Case::Reset,
            Self::Open(_) => Case::Open,
            Self::Pitch(_) => Case::Pitch,
            Self::Pulses(_) => Case::Pulses,
            Self::Gain(_) => Case::Gain,
            Self::Filter(_) => Case::Filter,
            Self::Lag(_) => Case::Lag,
        }
    }

    pub fn name(&self) -> &'static str {
        match self {
            Self::Reset => "reset",
            Self::Open(_) => "open",
            Self::Pitch(_) => "pitch",
            Self::Pulses(_) => "pulses",
            Self::Gain(_) => "gain",
            Self::Filter(_) => "filter",
            Self::Lag(_) => "lag",
        }
    }

    /// The numbers that the line tells.
    pub fn fields(&self) -> Vec<i32> {
        match self {
            Self::Reset => Vec::new(),
            Self::Open(lag) => vec![i32::from(*lag)],
            Self::Pitch(SearchedPitch { lag, index }) => {
                let [samples, thirds, hertz] = lag_fields(*lag);
                vec![i32::from(*index), samples, thirds, hertz]
            }
            Self::Pulses(pulses) => vec![pulses.pulse_positions.into(), pulses.pulse_signs.into()],
            Self::Gain(index) => {
                let [pitch, correction, _] = TABLE[usize::from(*index)];
                vec![i32::from(*index), pitch.into(), correction.into()]
            }
            Self::Filter(prepared) => {
                let words = filter_words(prepared).into_iter();
                words.map(i32::from).collect()
            }
            Self::Lag(lag) => lag_fields(*lag).to_vec(),
        }
    }
}

/// The whole lag, its thirds and the frequency.
fn lag_fields(lag: PitchLag) -> [i32; 3] {
    let thirds = lag.fraction().thirds();
    [lag.samples().into(), thirds.into(), hertz(lag)]
}

/// 02, request 01: floor(24000 / (3 × lag + fraction)). A lag of the published Rust is 19 or more.
pub fn hertz(lag: PitchLag) -> i32 {
    24000 / (3 * i32::from(lag.samples()) + i32::from(lag.fraction().thirds()))
}

/// Residual, impulse response, target and error.
pub fn filter_words(prepared: &PreparedSubframe) -> Vec<i16> {
    [
        prepared.residual_q0,
        prepared.impulse_q12,
        prepared.target_q0,
        prepared.error_q0,
    ]
    .concat()
}

/// Adds the line of the record of this number.
pub fn push_answer(lines: &mut String, number: u64, answered: &Answered) {
    match answered {
        Ok(answer) => push_line(
            lines,
            &format!("{number} {}", answer.name()),
            answer.fields(),
        ),
        Err(refusal) => push_line(
            lines,
            &format!("{number} refused"),
            [refusal.number.into(), refusal.detail],
        ),
    }
}

/// The answers to a whole feed, as far as it is read.
pub fn answers(feed: &[u8]) -> Vec<Answered> {
    let mut stages = Stages::default();
    let mut answers = Vec::new();
    let mut rest = feed;
    while let Some(head) = first(rest) {
        match head {
            Ok(head) => {
                answers.push(stages.step(head.kind, head.body));
                rest = head.rest;
            }
            Err(refusal) => {
                answers.push(Err(refusal));
                break;
            }
        }
    }
    answers
}

/// All that the program prints for a feed.
pub fn printed(feed: &[u8]) -> String {
    let mut lines = TITLE.to_string();
    for (number, answered) in (1..).zip(answers(feed)) {
        push_answer(&mut lines, number, &answered);
    }
    lines
}
