//! The recorded sample of the detector: chains of pushes and resets, as records of a feed.

use super::{
    cases::{Case, Pushed},
    chains::Chain,
    pushes::{Push, Step},
};
use crate::{
    codec::mr74::pitch::open_loop::Detector,
    counts::{Counted, Found},
    feed::bytes,
};

/// The kinds of the records.
const RESET: u8 = 0;
const OPEN: u8 = 1;

/// The chains that are looked at, and the steps that are taken of each at most.
const CHAINS: u64 = 2400;
const STEPS: usize = 18;

/// Some records and the cases that they met.
struct Sample {
    feed: Vec<u8>,
    records: usize,
    met: Found<Case>,
}

/// The chains that meet a case which none before them met, until all are met. No feed is among
/// them, so that the sample is the same without one.
pub fn sample() -> Vec<u8> {
    let mut sample = Sample::new();
    for index in 0..CHAINS {
        let chain = Sample::of_chain(index);
        if !chain.met.is_within(&sample.met) {
            sample.add(chain);
        }
    }
    for &(case, text) in Case::TEXTS {
        let met = case.is_unrecorded() || case.needs_feed() || sample.met.has(case);
        assert!(met, "no chain for the sample: {text}");
    }
    sample.feed
}

impl Sample {
    fn new() -> Self {
        Self {
            feed: Vec::new(),
            records: 0,
            met: Found::new(),
        }
    }

    /// The first steps of a chain.
    fn of_chain(index: u64) -> Self {
        let mut sample = Self::new();
        let mut chain = Chain::at(index, &[]);
        let mut detector = Detector::default();
        // The chain is drawn for a fresh detector.
        sample.reset(&mut detector);
        while sample.records < STEPS
            && let Some(step) = chain.next(&detector.history_q0)
        {
            match step {
                Step::Reset => sample.reset(&mut detector),
                Step::Push(push) => sample.push(&mut detector, chain.case(), &push),
            }
        }
        sample
    }

    fn reset(&mut self, detector: &mut Detector) {
        detector.reset();
        self.met.case(Case::Reset, true);
        self.record(RESET, &[]);
    }

    /// A record has the words of a half frame, and the program no other history than the detector's:
    /// of other pushes there is no record.
    fn push(&mut self, detector: &mut Detector, case: Case, push: &Push) {
        let Ok(samples) = push.accepted() else {
            return;
        };
        let before = detector.history_q0;
        let lag = detector.push(samples).samples();
        let pushed = Pushed {
            before: &before,
            samples,
            lag,
        };
        self.met.case(case, true);
        self.met.add(&pushed.cases().found);
        self.record(OPEN, samples);
    }

    fn record(&mut self, kind: u8, words: &[i16]) {
        self.records += 1;
        self.feed.push(kind);
        self.feed.extend(bytes(words));
    }

    fn add(&mut self, part: Sample) {
        self.feed.extend(part.feed);
        self.records += part.records;
        self.met.add(&part.met);
    }
}
