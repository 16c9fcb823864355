//! The gain row: calls of `pitch_gain` and of `quantize`, which keep no state.

mod calls;
mod cases;
mod clip_cases;
mod clips;
mod correlations;
mod limits;
mod pitch_cases;
mod pitch_gain;
mod quantize;
pub mod record;
mod refusals;
mod rows;
mod sources;
mod ties;
mod wished;

pub use calls::{Call, LISTS, Nearest, SignedRefusal, answer, call, checked, choice, recorded};
pub use clips::{PITCH_SUMS, SUMS};
pub use refusals::{PAIRS, Pair, wrong_exponents};
pub use rows::{RESONANCE_ROWS, ROWS};
pub use sources::{Drawn, loud_call, speech_call};
pub use wished::tone_call;

use crate::{
    compare::{Function, Line, in_threads},
    feed,
};

/// The calls that each function is compared on and that are accepted, and those behind them that are
/// made for a number of clipped terms.
const ACCEPTED: u64 = 1_200_000;
const CLIPPED: u64 = 100_000;

pub fn functions() -> [Function; 4] {
    [
        Function {
            name: "pitch_gain",
            compare: compare::<pitch_gain::Tally>,
        },
        Function {
            name: "pitch_gain",
            compare: refusals::compare_pitch_gain,
        },
        Function {
            name: "quantize",
            compare: compare::<quantize::Tally>,
        },
        Function {
            name: "quantize",
            compare: refusals::compare_quantize,
        },
    ]
}

/// What was compared of one function, and which cases were met.
trait Compared: Send {
    fn new() -> Self;

    fn add(&mut self, part: Self);

    fn lines(self, with_feed: bool) -> Vec<Line>;

    fn compare_call(&mut self, drawn: &Drawn);
}

fn compare<T: Compared>() -> Vec<Line> {
    let feed = feed::steps("gain records", calls::call, |_| true);
    let mut tally = T::new();
    let parts = in_threads(ACCEPTED + CLIPPED, T::new, |tally, indexes| {
        for index in indexes {
            tally.compare_call(&match index {
                ..ACCEPTED => Drawn::at(index, &feed),
                _ => Drawn::of_clips(index),
            });
        }
    });
    for part in parts {
        tally.add(part);
    }
    tally.lines(!feed.is_empty())
}
