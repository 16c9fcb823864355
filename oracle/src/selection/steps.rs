//! The comparison of the library's step with the published Rust: the answer to each record, and the
//! state after it.

use super::{
    answers::{Answer, Answered, Case, filter_words},
    feeds::{Feed, Making},
    stages::Stages,
};
use crate::{
    compare::{Line, in_threads},
    counts::Cases,
    feed::Record,
    inputs::Random,
    lent::{Lent, unwritten},
    open_loop::HISTORY,
    project::{END, PitchState, StepAnswer, states, step, with_states},
    upper::Upper,
    words::SUBFRAME,
};

/// The words of a filtering record's answer.
pub const FILTER_WORDS: usize = 4 * SUBFRAME;

/// What was compared, which answers were met, and how often a feed's end and wrong lengths were.
pub struct Tally {
    answers: Line,
    states: Line,
    cases: Cases<Case>,
    ends: u64,
    lengths: u64,
}

/// What the library keeps from step to step.
pub struct Kept {
    pub states: [PitchState; 2],
    pub history: Vec<i16>,
}

impl Kept {
    fn fresh(uppers: [Upper; 2]) -> Self {
        Self {
            states: uppers.map(Upper::fresh),
            history: vec![0; HISTORY],
        }
    }

    fn of(stages: &Stages) -> Self {
        Self {
            states: [stages.searcher.state(), stages.reader.state()],
            history: stages.detector.history_q0.to_vec(),
        }
    }
}

/// The place of a step, as a report shows it.
struct Place<'a> {
    feed: &'a Feed,
    uppers: [Upper; 2],
    number: u64,
}

/// What a step has to answer, to write and to keep. Words that no filtering record writes stay.
pub struct Expected {
    pub answer: StepAnswer,
    pub words: Vec<i16>,
    pub kept: Kept,
}

impl Tally {
    fn new() -> Self {
        Self {
            answers: Line::new("published Rust, answers of the step"),
            states: Line::new("published Rust, states after the step"),
            cases: Cases::new(),
            ends: 0,
            lengths: 0,
        }
    }

    fn add(&mut self, part: Self) {
        self.answers.add(part.answers);
        self.states.add(part.states);
        self.cases.add(part.cases);
        self.ends += part.ends;
        self.lengths += part.lengths;
    }

    /// Compares the records of a feed one by one, then its end and steps that lend wrong lengths.
    fn compare_feed(&mut self, index: u64, feed: &Feed, uppers: [Upper; 2], sample: &[Record]) {
        let random = &mut Random::at(!feed.seed);
        let mut making = Making::new(*feed, Stages::fresh(uppers), sample);
        let mut kept = Kept::fresh(uppers);
        let mut number = 0;
        while let Some(made) = making.next() {
            number += 1;
            self.cases.count(Case::of(made.answered));
            let place = Place {
                feed,
                uppers,
                number,
            };
            let (bytes, at) = surrounded(random, made.bytes, made.answered);
            let expected = Expected::of(made.answered, made.stages);
            kept = self.compare(index, &place, (&bytes, at), kept, expected);
        }
        number += 1;
        let place = Place {
            feed,
            uppers,
            number,
        };
        let bytes: Vec<u8> = (0..random.below(4)).map(|_| random.word() as u8).collect();
        let expected = Expected::at_end(&making.stages);
        self.ends += 1;
        self.compare(index, &place, (&bytes, bytes.len()), kept, expected);
        self.compare_lengths(index, &place, &making.stages);
    }

    /// Compares the answer and then the state after one step, which it gives. Where the states
    /// differ the library goes on from the published one, so that one difference brings no others.
    fn compare(
        &mut self,
        index: u64,
        place: &Place<'_>,
        (feed, at): (&[u8], usize),
        kept: Kept,
        expected: Expected,
    ) -> Kept {
        let mut history = Lent::new(&kept.history);
        let mut words = Lent::new(&unwritten(expected.words.len()));
        let ours = step(feed, at, kept.states, history.words(), words.words());
        self.answers.compared += 1;
        let tell = |line: &mut Line, ours: String, expected: String| {
            line.tell_difference(index, || {
                let Place {
                    feed,
                    uppers,
                    number,
                } = place;
                format!("{feed} {uppers:?} record {number}: library {ours}, expected {expected}")
            });
        };
        if with_states(ours, expected.kept.states) != expected.answer {
            tell(
                &mut self.answers,
                format!("{ours:?}"),
                format!("{:?}", expected.answer),
            );
        } else if let Some([library, other]) = words.difference(&expected.words) {
            tell(
                &mut self.answers,
                format!("words {library:?}"),
                format!("{other:?}"),
            );
        }
        self.states.compared += 1;
        if states(&ours) != expected.kept.states {
            tell(
                &mut self.states,
                format!("{:?}", states(&ours)),
                format!("{:?}", expected.kept.states),
            );
        } else if let Some([library, other]) = history.difference(&expected.kept.history) {
            tell(
                &mut self.states,
                format!("history {library:?}"),
                format!("{other:?}"),
            );
        }
        expected.kept
    }

    /// Lists of wrong lengths are refused before anything else, and nothing is written.
    fn compare_lengths(&mut self, index: u64, place: &Place<'_>, stages: &Stages) {
        const LENGTHS: [[usize; 2]; 8] = [
            [0, FILTER_WORDS],
            [HISTORY - 1, FILTER_WORDS],
            [HISTORY + 1, 0],
            [HISTORY + 256, FILTER_WORDS + 1],
            [HISTORY, 0],
            [HISTORY, FILTER_WORDS - 1],
            [HISTORY, FILTER_WORDS + 1],
            [HISTORY, FILTER_WORDS + 256],
        ];
        // A reset, a bad kind, a record that is not all there, and the end.
        const FEEDS: [&[u8]; 4] = [&[0], &[7], &[1, 0], &[]];
        for [history, words] in LENGTHS {
            let wrong = if history == HISTORY { words } else { history };
            for feed in FEEDS {
                let kept = Kept {
                    history: vec![0x1234; history],
                    ..Kept::of(stages)
                };
                let after = Kept {
                    history: kept.history.clone(),
                    ..kept
                };
                let expected = Expected {
                    answer: with_states(refused(1, wrong as i64), kept.states),
                    words: unwritten(words),
                    kept: after,
                };
                self.lengths += 1;
                self.compare(index, place, (feed, 0), kept, expected);
            }
        }
    }
}

/// The record with other bytes before it and, unless it is not all there, behind it.
fn surrounded(random: &mut Random, record: Vec<u8>, answered: &Answered) -> (Vec<u8>, usize) {
    let [before, behind] = [(); 2].map(|()| random.below(4));
    let cut = matches!(answered, Err(refusal) if refusal.number == 10);
    let behind = if cut { 0 } else { behind };
    let mut bytes: Vec<u8> = (0..before).map(|_| random.word() as u8).collect();
    bytes.extend(record);
    bytes.extend((0..behind).map(|_| random.word() as u8));
    (bytes, before as usize)
}

/// An answer with this number and detail, and all else 0.
fn refused(number: u8, detail: i64) -> StepAnswer {
    StepAnswer {
        number,
        negative: (detail < 0).into(),
        magnitude: detail.unsigned_abs(),
        line: 0,
        first: 0,
        second: 0,
        third: 0,
        fourth: 0,
        searcher_samples: 0,
        searcher_fraction: 0,
        searcher_next: 0,
        searcher_upper: 0,
        searcher_start: 0,
        reader_samples: 0,
        reader_fraction: 0,
        reader_next: 0,
        reader_upper: 0,
        reader_start: 0,
    }
}

impl Expected {
    /// The answer to a record, and the stages after it.
    pub fn of(answered: &Answered, stages: &Stages) -> Self {
        let mut words = unwritten(FILTER_WORDS);
        let answer = match answered {
            Err(refusal) => refused(refusal.number, refusal.detail),
            Ok(answer) => {
                let mut fields = answer.fields();
                if let Answer::Filter(prepared) = answer {
                    words = filter_words(prepared);
                    fields.clear();
                }
                fields.resize(4, 0);
                StepAnswer {
                    line: Case::of(answered) as u8,
                    first: fields[0],
                    second: fields[1],
                    third: fields[2],
                    fourth: fields[3],
                    ..refused(0, 0)
                }
            }
        };
        Self::after(answer, words, stages)
    }

    pub fn at_end(stages: &Stages) -> Self {
        let answer = StepAnswer {
            line: END,
            ..refused(0, 0)
        };
        Self::after(answer, unwritten(FILTER_WORDS), stages)
    }

    fn after(answer: StepAnswer, words: Vec<i16>, stages: &Stages) -> Self {
        let kept = Kept::of(stages);
        Self {
            answer: with_states(answer, kept.states),
            words,
            kept,
        }
    }
}

/// Compares the step on these feeds, each with searchers and readers of these upper lags in turn.
pub fn compare(feeds: &[Feed], uppers: &[[Upper; 2]], sample: &[Record]) -> Vec<Line> {
    let mut tally = Tally::new();
    let parts = in_threads(feeds.len() as u64, Tally::new, |tally, indexes| {
        for index in indexes {
            let place = index as usize;
            let uppers = uppers[place % uppers.len()];
            tally.compare_feed(index, &feeds[place], uppers, sample);
        }
    });
    for part in parts {
        tally.add(part);
    }
    let mut cases = tally.cases.counts(|_| true);
    cases.push(("the feed's end", tally.ends));
    cases.push(("refused 1", tally.lengths));
    vec![tally.answers, tally.states, Line::of_cases(cases)]
}
