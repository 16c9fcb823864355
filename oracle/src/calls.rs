//! Calls of the search: the lists, the lags and the subframe of one call, those of a feed, and the
//! faults that make a call refused.

use crate::{
    feed::{self, Record},
    inputs::Random,
    subframes::{Refusal, check_lengths},
    upper::Upper,
    words::{EXCITATION, SUBFRAME, shortened},
};
use std::fmt;

/// What one place in a chain does.
#[derive(Clone, Debug)]
pub enum Step {
    Reset,
    Search(Call),
}

/// One call of the search. The lists may have any length, the numbers any value.
#[derive(Clone, PartialEq, Eq)]
pub struct Call {
    pub excitation: Vec<i16>,
    pub target: Vec<i16>,
    pub impulse: Vec<i16>,
    pub open_loop: [u16; 2],
    pub subframe: u8,
}

/// The lists of a call that have the lengths which the search needs.
#[derive(Clone, Copy)]
pub struct Lists<'a> {
    pub excitation: &'a [i16; EXCITATION],
    pub target: &'a [i16; SUBFRAME],
    pub impulse: &'a [i16; SUBFRAME],
}

impl Call {
    pub fn lists(&self) -> Result<Lists<'_>, Refusal> {
        const LENGTH: &str = "a length that was checked";
        check_lengths(
            [self.excitation.len(), self.target.len(), self.impulse.len()],
            [EXCITATION, SUBFRAME, SUBFRAME],
        )?;
        Ok(Lists {
            excitation: self.excitation.as_slice().try_into().expect(LENGTH),
            target: self.target.as_slice().try_into().expect(LENGTH),
            impulse: self.impulse.as_slice().try_into().expect(LENGTH),
        })
    }

    /// Gives the call one fault or several, so that the order of the checks is seen too.
    pub fn add_faults(&mut self, random: &mut Random, expected: u8, upper: Upper) {
        let faults = 1 + random.below(15);
        if faults & 1 != 0 {
            self.change_lengths(random);
        }
        if faults & 2 != 0 {
            self.subframe = match random.below(4) {
                0 => 0,
                1 => 5,
                _ => 5 + random.below(251) as u8,
            };
        } else if faults & 8 != 0 {
            let further = random.below(3) as u8;
            self.subframe = (expected + further) % 4 + 1;
        }
        if faults & 4 != 0 {
            let bad = 1 + random.below(3);
            for (place, lag) in self.open_loop.iter_mut().enumerate() {
                if bad >> place & 1 != 0 {
                    *lag = bad_lag(random, upper);
                }
            }
        }
    }

    fn change_lengths(&mut self, random: &mut Random) {
        const LENGTHS: [usize; 10] = [0, 1, 39, 40, 41, 80, 193, 194, 195, 1000];
        let bad = 1 + random.below(7);
        let lists = [&mut self.excitation, &mut self.target, &mut self.impulse];
        for (place, list) in lists.into_iter().enumerate() {
            if bad >> place & 1 != 0 {
                let needed = list.len();
                while list.len() == needed {
                    list.resize(LENGTHS[random.below(LENGTHS.len() as u64) as usize], 0);
                }
            }
        }
    }
}

/// A number that is no open-loop lag: one beside them, for a player also one of the handset's, one
/// whose low byte may be a lag, or another.
fn bad_lag(random: &mut Random, upper: Upper) -> u16 {
    let above = upper.samples() + 1;
    match random.below(4) {
        0 => 19,
        1 => match upper {
            Upper::Handset => above,
            Upper::Player => above + (random.below(2) * random.below(23)) as u16,
        },
        2 => 256 + random.below(1 << 15) as u16,
        _ => [0, 1, 18, 145, 255, u16::MAX][random.below(6) as usize],
    }
}

impl fmt::Debug for Call {
    fn fmt(&self, f: &mut fmt::Formatter<'_>) -> fmt::Result {
        let [first, second] = self.open_loop;
        write!(f, "subframe {} lags {first} {second}", self.subframe)?;
        for (name, list) in [
            ("excitation", &self.excitation),
            ("target", &self.target),
            ("impulse", &self.impulse),
        ] {
            write!(f, " {name} ")?;
            shortened(list, f)?;
        }
        Ok(())
    }
}

/// The step of a feed's record: a reset or a search, no other.
pub fn step(record: &Record) -> Option<Step> {
    match record.kind {
        0 => Some(Step::Reset),
        2 => Some(Step::Search(recorded(&record.body))),
        _ => None,
    }
}

/// The call of a pitch record: subframe, excitation, target, impulse response, two lags.
pub fn recorded(body: &[u8]) -> Call {
    let (words, lags) = body[1..].split_at(2 * (EXCITATION + 2 * SUBFRAME));
    let words = feed::words(words);
    let (excitation, rest) = words.split_at(EXCITATION);
    let (target, impulse) = rest.split_at(SUBFRAME);
    Call {
        excitation: excitation.to_vec(),
        target: target.to_vec(),
        impulse: impulse.to_vec(),
        open_loop: [lags[0].into(), lags[1].into()],
        subframe: body[0],
    }
}
