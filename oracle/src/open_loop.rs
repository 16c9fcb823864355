//! The open-loop detector: chains of pushes, where each side goes on from its own history.

mod cases;
mod chains;
mod longs;
mod pushes;
pub mod record;

pub use cases::Case;
pub use chains::Chain;
pub use pushes::{Step, lent_history, step};

use crate::{
    codec::mr74::pitch::open_loop::Detector,
    compare::{Function, Line, in_threads},
    counts::Cases,
    feed,
    lent::Lent,
    project::{self, OpenLoopAnswer},
    subframes::Refusal,
    words::shortened,
};
use cases::Pushed;
use longs::Longs;
use pushes::Push;
use std::fmt;

/// The new words of a push, and the old words that the detector keeps.
pub const HALF_FRAME: usize = 80;
pub const HISTORY: usize = 143;

/// The chains of any source, and those made for the greatest longs, which come after them.
const CHAINS: u64 = 24_000;
const GREATEST_CHAINS: u64 = 400;
/// One more than the greatest lag.
const LAGS: usize = HISTORY + 1;
const LEAST_LAG: usize = 20;

pub fn functions() -> [Function; 1] {
    [Function {
        name: "open_loop",
        compare: compare_chains,
    }]
}

/// What was compared, the sections' longs, which cases were met, and how often each lag was
/// answered.
struct Tally {
    answers: Line,
    histories: Line,
    longs: Longs,
    cases: Cases<Case>,
    lags: [u64; LAGS],
}

impl Tally {
    fn new() -> Self {
        Self {
            answers: Line::new("pitch/open_loop.rs, answers"),
            histories: Line::new("pitch/open_loop.rs, histories after"),
            longs: Longs::new(),
            cases: Cases::new(),
            lags: [0; LAGS],
        }
    }

    fn add(&mut self, part: Tally) {
        self.answers.add(part.answers);
        self.histories.add(part.histories);
        self.longs.add(part.longs);
        self.cases.add(part.cases);
        for (count, part) in self.lags.iter_mut().zip(part.lags) {
            *count += part;
        }
    }

    /// Each lag must be answered, so the one answered least often is a case too.
    fn lines(self, with_feed: bool) -> Vec<Line> {
        let least = self.lags[LEAST_LAG..].iter().min();
        let least = *least.expect("a lag");
        let mut cases = self.cases.counts(|case| with_feed || !case.needs_feed());
        cases.push(("answer of the lag that is answered least often", least));
        cases.extend(self.longs.cases());
        vec![
            self.answers,
            self.histories,
            self.longs.line(),
            Line::of_cases(cases),
        ]
    }

    /// Compares the answer and then the history after the step. Where the histories differ the
    /// library goes on from the published one, so that one difference brings no others.
    fn compare_step(
        &mut self,
        place: &Place<'_>,
        ours: &mut [i16; HISTORY],
        detector: &mut Detector,
    ) {
        // The list that was lent, and the words that are to be found there. A fresh detector has
        // zeros.
        let (lent, kept) = match place.step {
            Step::Reset => {
                self.cases.count(Case::Reset);
                detector.reset();
                (Lent::new(&[0; HISTORY]), detector.history_q0.to_vec())
            }
            Step::Push(push) => {
                let before = push.history(ours);
                let mut lent = Lent::new(&before);
                let answer = project::open_loop(&push.samples, lent.words());
                let expected = self.expected(place, detector, push);
                self.answers.compared += 1;
                if answer != expected {
                    self.answers
                        .difference(place.chain, place, &answer, &expected);
                }
                let kept = match before.len() {
                    HISTORY => detector.history_q0.to_vec(),
                    _ => before,
                };
                (lent, kept)
            }
        };
        self.histories.compared += 1;
        if let Some([library, expected]) = lent.difference(&kept) {
            self.histories
                .difference(place.chain, place, &library, &expected);
        }
        *ours = detector.history_q0;
    }

    /// The published answer in the form of the library's. Its cases are counted, that of the place
    /// with them if the push is accepted, and its longs checked.
    fn expected(
        &mut self,
        place: &Place<'_>,
        detector: &mut Detector,
        push: &Push,
    ) -> OpenLoopAnswer {
        let before = detector.history_q0;
        match push.accepted() {
            Ok(samples) => {
                let lag = detector.push(samples).samples();
                let pushed = Pushed {
                    before: &before,
                    samples,
                    lag,
                };
                let cases = pushed.cases();
                self.cases.count(place.case);
                self.cases.count_found(&cases.found);
                self.longs.check(place, cases.longs);
                self.lags[usize::from(lag)] += 1;
                answer(Ok(lag))
            }
            Err(refusal) => {
                self.cases.count(Case::of_refused(push));
                answer(Err(refusal))
            }
        }
    }
}

/// An answer of the library that was accepted, or refused.
fn answer(answer: Result<u16, Refusal>) -> OpenLoopAnswer {
    match answer {
        Ok(lag) => OpenLoopAnswer {
            number: 0,
            magnitude: 0,
            lag,
        },
        Err(refusal) => OpenLoopAnswer {
            number: refusal.number,
            magnitude: refusal.detail,
            lag: 0,
        },
    }
}

fn compare_chains() -> Vec<Line> {
    let feed = feed::steps("half frames", step, |step| matches!(step, Step::Push(_)));
    let mut tally = Tally::new();
    let parts = in_threads(CHAINS + GREATEST_CHAINS, Tally::new, |tally, chains| {
        for index in chains {
            compare_chain(tally, index, &feed);
        }
    });
    for part in parts {
        tally.add(part);
    }
    tally.lines(!feed.is_empty())
}

/// A step of a chain, as a report shows it.
struct Place<'a> {
    chain: u64,
    number: usize,
    /// What an accepted push counts as.
    case: Case,
    step: &'a Step,
}

impl fmt::Debug for Place<'_> {
    fn fmt(&self, f: &mut fmt::Formatter<'_>) -> fmt::Result {
        let Self { chain, number, .. } = self;
        write!(f, "chain {chain} step {number}")?;
        match self.step {
            Step::Reset => write!(f, " reset"),
            Step::Push(push) => {
                write!(f, " samples ")?;
                shortened(&push.samples, f)?;
                write!(f, " history of {}", push.history_length)
            }
        }
    }
}

fn compare_chain(tally: &mut Tally, index: u64, feed: &[Step]) {
    let mut chain = if index < CHAINS {
        Chain::at(index, feed)
    } else {
        Chain::greatest(index)
    };
    let mut detector = Detector::default();
    let mut ours = [0; HISTORY];
    let mut number = 0;
    while let Some(step) = chain.next(&detector.history_q0) {
        number += 1;
        let place = Place {
            chain: index,
            number,
            case: chain.case(),
            step: &step,
        };
        tally.compare_step(&place, &mut ours, &mut detector);
    }
}
