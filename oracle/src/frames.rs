//! A frame in one call, a handset's and a player's: chains of frames, each with the detector and
//! the searcher that the one before it left. What is expected is two published pushes and then four
//! published searches, or nothing at all.

mod cases;
mod chains;
mod frame;
mod numbers;

pub use chains::{Chain, Feed, Step, logged};
pub use frame::{Frame, REFUSED, States, pitch};

use crate::{
    compare::{Function, Line, in_threads},
    lent::Lent,
    project::{FrameAnswer, PitchState},
    selection,
    upper::Upper,
};
use cases::{Asked, Last, Met, Sources};
use frame::answer;
use std::fmt;

const CHAINS: u64 = 1_920;

pub fn functions() -> [Function; 2] {
    [
        Function {
            name: "frame",
            compare: || compare_chains(Upper::Handset),
        },
        Function {
            name: "frame_state",
            compare: numbers::compare_numbers,
        },
    ]
}

/// What was compared, answers, searchers and histories, and what frames met.
struct Tally {
    lines: [Line; 3],
    met: Met,
}

impl Tally {
    fn new() -> Self {
        let lines = [
            "pitch/open_loop.rs and pitch/search.rs, answers of frames",
            "pitch/search.rs, searchers after frames",
            "pitch/open_loop.rs, histories after frames",
        ];
        Self {
            lines: lines.map(Line::new),
            met: Met::new(),
        }
    }

    fn add(&mut self, part: Self) {
        for (line, part) in self.lines.iter_mut().zip(part.lines) {
            line.add(part);
        }
        self.met.add(part.met);
    }

    /// Compares the answer and then both states after the frame. The library goes on from the
    /// published ones, so that one difference brings no others.
    fn compare_frame(&mut self, place: &Place<'_>, states: &mut States) -> Last {
        let Place { frame, given, .. } = *place;
        let before = frame.history(&states.detector);
        let mut lent = Lent::new(&before);
        let library = frame.called(given, lent.words());
        let found = frame.published(given, &states.detector);
        let asked = Asked {
            frame,
            given,
            before: states,
            last: place.last,
        };
        self.met.count(&asked, &found, place.sources);
        let expected = answer(&found, given);
        let (last, kept) = match found {
            Ok(parts) => {
                *states = parts.after;
                (Last::Accepted, states.detector.history_q0.to_vec())
            }
            Err(_) => (Last::Refused, before),
        };
        let [answers, searchers, histories] = &mut self.lines;
        let [ours, other] = [library, expected].map(|answer| FrameAnswer {
            searcher: given,
            ..answer
        });
        answers.compare(place.chain, place, &ours, &other);
        searchers.compare(place.chain, place, &library.searcher, &expected.searcher);
        histories.compared += 1;
        if let Some([ours, other]) = lent.difference(&kept) {
            histories.difference(place.chain, place, &ours, &other);
        }
        last
    }
}

/// Compares the frames of this upper lag.
pub fn compare_chains(upper: Upper) -> Vec<Line> {
    let feed = Feed::of(&selection::sample());
    let parts = in_threads(CHAINS, Tally::new, |tally, chains| {
        chains.for_each(|index| compare_chain(tally, upper, index, &feed));
    });
    let mut tally = Tally::new();
    parts.into_iter().for_each(|part| tally.add(part));
    let cases = tally.met.line(upper, !feed.is_empty());
    tally.lines.into_iter().chain([cases]).collect()
}

/// A frame of a chain, as a report shows it.
struct Place<'a> {
    chain: u64,
    number: usize,
    /// What the words of an accepted frame count as.
    sources: Sources,
    last: Last,
    given: PitchState,
    frame: &'a Frame,
}

impl fmt::Debug for Place<'_> {
    fn fmt(&self, f: &mut fmt::Formatter<'_>) -> fmt::Result {
        let Self { chain, number, .. } = self;
        write!(
            f,
            "chain {chain} step {number} {:?} {:?}",
            self.given, self.frame
        )
    }
}

fn compare_chain(tally: &mut Tally, upper: Upper, index: u64, feed: &Feed) {
    let mut chain = Chain::at(index, feed);
    let mut states = States::fresh(upper);
    let mut last = Last::Reset;
    let mut number = 0;
    while let Some(step) = chain.next(&states) {
        number += 1;
        last = match &step {
            Step::Reset => {
                tally.met.count_reset();
                states.reset();
                Last::Reset
            }
            Step::Frame(frame) => {
                let place = Place {
                    chain: index,
                    number,
                    sources: chain.sources(),
                    last,
                    given: frame.searcher.unwrap_or(states.searcher.state()),
                    frame,
                };
                tally.compare_frame(&place, &mut states)
            }
        };
    }
}
