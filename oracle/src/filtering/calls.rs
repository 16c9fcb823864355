//! Calls of `residual` and of `prepare`: the lists of one call, and those of a feed.

use super::{COEFFICIENTS, INPUT, ORDER};
use crate::{
    codec::mr74::encoder_filtering::{PreparedSubframe, prepare, residual},
    feed::{self, Record, taken},
    words::SUBFRAME,
};

/// The lists of a call of `prepare`. A call of `residual` takes the coefficients and the speech.
#[derive(Clone, PartialEq, Eq)]
pub struct Call {
    pub speech: [i16; INPUT],
    pub coefficients: [i16; COEFFICIENTS],
    pub quantized: [i16; COEFFICIENTS],
    /// The ten words before those that are filtered, the oldest first.
    pub error_history: [i16; ORDER],
    pub weighting_history: [i16; ORDER],
}

impl Call {
    /// The lists in the order of `prepare`.
    pub fn lists(&self) -> [&[i16]; 5] {
        [
            &self.speech,
            &self.coefficients,
            &self.quantized,
            &self.error_history,
            &self.weighting_history,
        ]
    }

    pub fn residual(&self) -> [i16; SUBFRAME] {
        residual(&self.coefficients, &self.speech)
    }

    pub fn prepare(&self) -> PreparedSubframe {
        prepare(
            &self.speech,
            &self.coefficients,
            &self.quantized,
            &self.error_history,
            &self.weighting_history,
        )
    }
}

/// The ten words before a list, and the list.
pub fn joined(before: &[i16; ORDER], words: &[i16; SUBFRAME]) -> [i16; INPUT] {
    let mut joined = [0; INPUT];
    joined[..ORDER].copy_from_slice(before);
    joined[ORDER..].copy_from_slice(words);
    joined
}

/// The call of a feed's filtering record, of no other.
pub fn call(record: &Record) -> Option<Call> {
    (record.kind == 5).then(|| recorded(&record.body))
}

/// The call of a filtering record.
pub fn recorded(body: &[u8]) -> Call {
    let words = feed::words(body);
    let mut rest = words.as_slice();
    Call {
        speech: taken(&mut rest),
        coefficients: taken(&mut rest),
        quantized: taken(&mut rest),
        error_history: taken(&mut rest),
        weighting_history: taken(&mut rest),
    }
}
