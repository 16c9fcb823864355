//! The pulse reader.

pub mod search;

pub use crate::Refusal as Error;
use crate::{SUBFRAME_SAMPLES, Words, entries};

const PULSES: usize = 4;

#[derive(Debug, Clone, Copy, PartialEq, Eq)]
pub struct Codebook {
    samples_q13: Words,
    positions: [usize; PULSES],
}

impl Codebook {
    /// Refuses by 8 positions above 8191, else signs above 15.
    pub fn try_new(pulse_positions: u16, pulse_signs: u16) -> Result<Self, Error> {
        let mut samples_q13 = [0; SUBFRAME_SAMPLES];
        let answer = entries::read_pulses(pulse_positions, pulse_signs, &mut samples_q13);
        Error::check(answer.number, answer.magnitude)?;
        Ok(Self {
            samples_q13,
            positions: [answer.first, answer.second, answer.third, answer.last],
        })
    }

    pub fn samples_q13(&self) -> &[i16; SUBFRAME_SAMPLES] {
        &self.samples_q13
    }

    pub fn positions(&self) -> &[usize; PULSES] {
        &self.positions
    }
}
