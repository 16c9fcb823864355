//! Target filtering: calls of `residual` and of `prepare`, which keep no state.

mod calls;
mod cases;
mod filters;
mod limits;
mod prepare;
pub mod record;
mod residual;
mod sources;

use crate::{
    compare::{Function, Line, in_threads},
    feed,
    words::SUBFRAME,
};
pub use calls::{Call, recorded};
pub use sources::{Drawn, loud_call, speech_call};

/// The words before those that are filtered, and the coefficients of a filter.
const ORDER: usize = 10;
const COEFFICIENTS: usize = ORDER + 1;
const INPUT: usize = ORDER + SUBFRAME;

/// The calls that each function is compared on: accepted ones and refused ones.
const ACCEPTED: u64 = 1_100_000;
const REFUSED: u64 = 30_000;

pub fn functions() -> [Function; 2] {
    [
        Function {
            name: "residual",
            compare: compare::<residual::Tally>,
        },
        Function {
            name: "prepare",
            compare: compare::<prepare::Tally>,
        },
    ]
}

/// What was compared of one function, and which cases were met.
trait Compared: Send {
    fn new() -> Self;

    fn add(&mut self, part: Self);

    fn lines(self, with_feed: bool) -> Vec<Line>;

    fn compare_call(&mut self, drawn: &Drawn);

    /// Compares a call whose lists have the wrong lengths of this index.
    fn compare_refusal(&mut self, index: u64);
}

fn compare<T: Compared>() -> Vec<Line> {
    let feed = feed::steps("filtering records", calls::call, |_| true);
    let mut tally = T::new();
    let parts = in_threads(REFUSED + ACCEPTED, T::new, |tally, indexes| {
        for index in indexes {
            match index.checked_sub(REFUSED) {
                None => tally.compare_refusal(index),
                Some(index) => tally.compare_call(&Drawn::at(index, &feed)),
            }
        }
    });
    for part in parts {
        tally.add(part);
    }
    tally.lines(!feed.is_empty())
}
