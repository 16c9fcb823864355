//! The places of a chain of calls that keep a state.

use crate::inputs::Random;

const PLACES: usize = 64;

/// Of so many places one is a reset and a few are made to be refused.
const RESET_OF: u64 = 32;
const REFUSED: u64 = 4;

pub enum Turn {
    Reset,
    Accepted,
    Refused,
}

/// The places of a chain that are done.
#[derive(Default)]
pub struct Turns(usize);

impl Turns {
    /// The next place; the first is a reset.
    pub fn next(&mut self, random: &mut Random) -> Option<Turn> {
        if self.0 == PLACES {
            return None;
        }
        self.0 += 1;
        Some(match random.below(RESET_OF) {
            _ if self.0 == 1 => Turn::Reset,
            0 => Turn::Reset,
            1..=REFUSED => Turn::Refused,
            _ => Turn::Accepted,
        })
    }
}
