//! Pushes of the detector: the lists of one push, those of a feed, and the lengths that make a push
//! refused.

use super::{HALF_FRAME, HISTORY};
use crate::{
    feed::{self, Record},
    inputs::Random,
    refusals::other_than,
    subframes::{Refusal, check_lengths},
};

/// What one place in a chain does.
#[derive(Clone)]
pub enum Step {
    Reset,
    Push(Push),
}

/// One push. Both lists may have any length.
#[derive(Clone)]
pub struct Push {
    pub samples: Vec<i16>,
    /// The length of the list that is lent as the history.
    pub history_length: usize,
}

impl Push {
    pub fn new(samples: Vec<i16>) -> Self {
        Self {
            samples,
            history_length: HISTORY,
        }
    }

    /// The samples where both lists have the lengths that the detector needs, else 01's refusal,
    /// which the published types make needless.
    pub fn accepted(&self) -> Result<&[i16; HALF_FRAME], Refusal> {
        check_lengths(
            [self.samples.len(), self.history_length],
            [HALF_FRAME, HISTORY],
        )?;
        let samples = self.samples.as_slice().try_into();
        Ok(samples.expect("a length that was checked"))
    }

    /// The list that is lent as the history.
    pub fn history(&self, own: &[i16; HISTORY]) -> Vec<i16> {
        lent_history(own, self.history_length)
    }

    /// Gives one of the lists another length, or both, so that the order of the checks is seen
    /// too.
    pub fn add_faults(&mut self, random: &mut Random) {
        let faults = 1 + random.below(3);
        if faults & 1 != 0 {
            let length = wrong_length(random, HALF_FRAME);
            self.samples.resize(length, i16::MAX);
        }
        if faults & 2 != 0 {
            self.history_length = wrong_length(random, HISTORY);
        }
    }
}

/// The list of this length that is lent as the history: the detector's own words, or another made
/// of them.
pub fn lent_history(own: &[i16; HISTORY], length: usize) -> Vec<i16> {
    own.iter().cycle().take(length).copied().collect()
}

/// Another length than the needed one. Some agree with it in their low byte.
fn wrong_length(random: &mut Random, needed: usize) -> usize {
    const LENGTHS: [usize; 9] = [0, 1, 79, 80, 81, 142, 143, 144, 160];
    other_than(needed, || match random.below(16) {
        0 => needed + 256,
        1 => needed + 512,
        2..5 => random.below(300) as usize,
        _ => LENGTHS[random.below(LENGTHS.len() as u64) as usize],
    })
}

/// The step of a feed's record: a reset or a half frame, no other.
pub fn step(record: &Record) -> Option<Step> {
    match record.kind {
        0 => Some(Step::Reset),
        1 => Some(Step::Push(Push::new(feed::words(&record.body)))),
        _ => None,
    }
}
