//! Chains of frames. The samples of each are drawn as those of pushes, its sets as the lists of
//! searches.

use super::{
    cases::Sources,
    frame::{Frame, States},
};
use crate::{
    calls::{self, Call},
    cases::Case as Searches,
    chains,
    feed::{self, Record},
    inputs::Random,
    open_loop::{self, Case as Pushes},
    turns::{Turn, Turns},
};

/// What one place in a chain does.
#[derive(Clone)]
pub enum Step {
    Reset,
    Frame(Box<Frame>),
}

/// A feed's frames with its resets, and what words are made of, its half frames and its searches.
/// Without a frame it has none of them.
#[derive(Default)]
pub struct Feed {
    steps: Vec<Step>,
    pushes: Vec<open_loop::Step>,
    searches: Vec<calls::Step>,
}

impl Feed {
    pub fn of(records: &[Record]) -> Self {
        let steps = logged(records);
        if !steps.iter().any(|step| matches!(step, Step::Frame(_))) {
            return Self::default();
        }
        Self {
            steps,
            pushes: records.iter().filter_map(open_loop::step).collect(),
            searches: records.iter().filter_map(calls::step).collect(),
        }
    }

    pub fn is_empty(&self) -> bool {
        self.steps.is_empty()
    }
}

/// The resets and the whole frames of a feed.
pub fn logged(records: &[Record]) -> Vec<Step> {
    let records: Vec<_> = records.iter().filter(|record| record.kind <= 2).collect();
    let mut rest = records.as_slice();
    let mut steps = Vec::new();
    while let Some((first, after)) = rest.split_first() {
        let whole = rest.split_first_chunk();
        match whole.and_then(|(records, after)| Some((recorded(records)?, after))) {
            Some((frame, after)) => {
                steps.push(Step::Frame(Box::new(frame)));
                rest = after;
            }
            None => {
                steps.extend((first.kind == 0).then_some(Step::Reset));
                rest = after;
            }
        }
    }
    steps
}

/// The frame of these records: two half frames, and pitch records of subframes 1 to 4.
fn recorded(records: &[&Record; 6]) -> Option<Frame> {
    if records.map(|record| record.kind) != [1, 1, 2, 2, 2, 2] {
        return None;
    }
    let [first, second, searches @ ..] = records;
    let samples = [first, second].map(|half| feed::words(&half.body)).concat();
    let searches = searches.map(|search| calls::recorded(&search.body));
    let in_order = searches.each_ref().map(|search| search.subframe) == [1, 2, 3, 4];
    in_order.then(|| Frame::new(samples, searches))
}

pub struct Chain<'a> {
    random: Random,
    pushes: open_loop::Chain<'a>,
    searches: chains::Chain<'a>,
    /// What is left of the feed as it stands, and whether the last step was of it.
    feed: &'a [Step],
    of_feed: bool,
    turns: Turns,
}

impl<'a> Chain<'a> {
    /// The chain of this index; the first begins with the feed, where there is one.
    pub fn at(index: u64, feed: &'a Feed) -> Self {
        // The sources of pushes, and those of searches: each is met with each.
        const PUSHES: u64 = 12;
        const SEARCHES: u64 = 8;
        let pushes = PUSHES + index;
        let searches = SEARCHES * pushes + index / PUSHES % SEARCHES;
        Self {
            random: Random::at(!index),
            pushes: open_loop::Chain::at(pushes, &feed.pushes),
            searches: chains::Chain::at(searches, &feed.searches),
            feed: match index {
                0 => &feed.steps,
                _ => &[],
            },
            of_feed: false,
            turns: Turns::default(),
        }
    }

    /// What the words of the last frame count as.
    pub fn sources(&self) -> Sources {
        match self.of_feed {
            true => (Pushes::Feed, Searches::Feed),
            false => (self.pushes.case(), self.searches.case()),
        }
    }

    /// The next step, which may lean on the states of the published Rust.
    pub fn next(&mut self, states: &States) -> Option<Step> {
        let next = self.feed.split_first();
        self.of_feed = next.is_some();
        if let Some((step, rest)) = next {
            self.feed = rest;
            return Some(step.clone());
        }
        Some(match self.turns.next(&mut self.random)? {
            Turn::Reset => Step::Reset,
            Turn::Accepted => Step::Frame(Box::new(self.frame(states))),
            Turn::Refused => {
                let mut frame = self.frame(states);
                frame.add_faults(&mut self.random, states.searcher.state());
                Step::Frame(Box::new(frame))
            }
        })
    }

    /// A frame without faults. It is accepted where subframe 1 is expected and no lag is above the
    /// upper one.
    pub fn frame(&mut self, states: &States) -> Frame {
        let States {
            mut detector,
            mut searcher,
        } = states.clone();
        let mut samples = Vec::new();
        let open_loop = [(); 2].map(|()| {
            let half = self.pushes.words(&detector.history_q0);
            samples.extend(half);
            let lag = detector.push(&half).samples();
            lag.min(searcher.upper.samples())
        });
        let searches = [(); 4].map(|()| {
            let call = Call {
                open_loop,
                ..self.searches.call_about(&searcher, open_loop)
            };
            searcher.searched(&call).expect("a search in order");
            call
        });
        Frame::new(samples, searches)
    }
}
