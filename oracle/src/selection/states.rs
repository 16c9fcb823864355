//! The library's step with searchers and readers in numbers, those too that no call hands out: each
//! kind of record, by 01's rule.

use super::{
    answers::{Answer, Answered},
    bodies::places,
    stages::{Stages, first},
    steps::{Expected, FILTER_WORDS},
};
use crate::{
    calls,
    compare::{Function, Line, compare},
    feed::BODIES,
    inputs::{Inputs, Random},
    lent::unwritten,
    open_loop::HISTORY,
    project::{END, PitchState, StepAnswer, step, with_states},
    states::{self, FRACTIONS, INDEXES, NUMBERS, SAMPLES, STARTS, UPPERS},
    upper::Upper,
    words::quiet,
};

const PITCH: u8 = 2;
const LAG: u8 = 6;

pub fn functions() -> [Function; 2] {
    [
        Function {
            name: "step_state",
            compare: || {
                let mut lines =
                    compare_steps("rule of 01, every two expected numbers", every_number);
                lines.push(answers_met());
                lines.push(uppers_met());
                lines
            },
        },
        Function {
            name: "step_state",
            compare: || compare_steps("rule of 01, every fraction, lag and start", every_word),
        },
    ]
}

/// Every two expected numbers, and some upper numbers.
fn every_number(index: u64) -> [PitchState; 2] {
    [(index, index / 3), (index >> 8, index / 5)].map(|(bits, rest)| PitchState {
        samples: SAMPLES[(bits >> 3) as usize % SAMPLES.len()],
        fraction: FRACTIONS[(bits >> 5) as usize % FRACTIONS.len()],
        next: bits as u8,
        upper: UPPERS[rest as usize % UPPERS.len()],
        start: STARTS[(bits + (bits >> 8)) as usize % STARTS.len()],
    })
}

/// Every fraction, every lag and every start, at some numbers.
fn every_word(index: u64) -> [PitchState; 2] {
    [index, !index].map(|bits| PitchState {
        samples: bits as u16,
        fraction: bits as i16,
        next: NUMBERS[(bits as u16 / 7) as usize % NUMBERS.len()],
        upper: UPPERS[bits as usize % UPPERS.len()],
        start: (bits as u16).swap_bytes(),
    })
}

/// A feed of one record, and what it has to answer where that depends on no state.
struct Sample {
    feed: Vec<u8>,
    stages: Stages,
    answered: Option<Answered>,
}

/// What is answered, and the lists after it.
#[derive(Debug, PartialEq)]
struct Stepped {
    answer: StepAnswer,
    history: Vec<i16>,
    words: Vec<i16>,
}

/// A sample by its place, and searcher and reader before it.
type Asked = (usize, [PitchState; 2]);

fn asked(
    samples: &[Sample],
    numbers: fn(u64) -> [PitchState; 2],
) -> Inputs<impl Fn(u64) -> Option<Asked> + Sync> {
    Inputs {
        count: (samples.len() as u64) << 16,
        at: move |index| Some(((index >> 16) as usize, numbers(index))),
    }
}

fn compare_steps(with: &'static str, numbers: fn(u64) -> [PitchState; 2]) -> Vec<Line> {
    let samples = samples();
    compare(
        &asked(&samples, numbers),
        |(place, given): Asked| ours(&samples[place], given),
        [with],
        |(place, given): Asked| [samples[place].expected(given)],
    )
}

/// How often each kind is accepted, and each number refused.
fn answers_met() -> Line {
    const ACCEPTED: u8 = 100;
    const MET: [(u8, &str); 15] = [
        (ACCEPTED, "reset"),
        (ACCEPTED + 1, "open"),
        (ACCEPTED + PITCH, "pitch"),
        (ACCEPTED + 3, "pulses"),
        (ACCEPTED + 4, "gain"),
        (ACCEPTED + 5, "filter"),
        (ACCEPTED + LAG, "lag"),
        (ACCEPTED + END, "the feed's end"),
        (2, "refused 2"),
        (3, "refused 3"),
        (4, "refused 4"),
        (5, "refused 5"),
        (6, "refused 6"),
        (9, "refused 9"),
        (10, "refused 10"),
    ];
    let samples = samples();
    let met = |(place, given): Asked| match samples[place].expected(given).answer {
        StepAnswer {
            number: 0, line, ..
        } => ACCEPTED + line,
        StepAnswer { number, .. } => number,
    };
    states::numbers_met(&asked(&samples, every_number), met, &MET)
}

/// How often searchers and readers of these upper numbers are reset, and those that a record uses
/// are accepted and refused.
fn uppers_met() -> Line {
    const MET: [(u8, &str); 10] = [
        (1, "reset of a player's searcher and reader"),
        (2, "reset of a player's searcher and a handset's reader"),
        (3, "reset of a handset's searcher and a player's reader"),
        (4, "reset of a handset's searcher and reader"),
        (5, "reset of an upper number that is not 120 or 143"),
        (6, "pitch of a player's searcher"),
        (
            7,
            "pitch of a searcher's upper number that is not 120 or 143",
        ),
        (8, "player's searcher refused 3"),
        (9, "lag of a player's reader"),
        (10, "lag of a reader's upper number that is not 120 or 143"),
    ];
    let samples = samples();
    let met = |(place, [searcher, reader]): Asked| {
        let sample = &samples[place];
        let number = sample.expected([searcher, reader]).answer.number;
        match (sample.feed.first(), number, searcher.upper, reader.upper) {
            (Some(&0), 0, 120, 120) => 1,
            (Some(&0), 0, 120, 143) => 2,
            (Some(&0), 0, 143, 120) => 3,
            (Some(&0), 0, 143, 143) => 4,
            (Some(&0), 0, ..) => 5,
            (Some(&PITCH), 0, 120, _) => 6,
            (Some(&PITCH), 0, 0..143, _) => 7,
            (Some(&PITCH), 3, 120, _) => 8,
            (Some(&LAG), 0, _, 120) => 9,
            (Some(&LAG), 0, _, 0..143) => 10,
            _ => 0,
        }
    };
    states::numbers_met(&asked(&samples, every_number), met, &MET)
}

/// The detector's words before the step.
fn old_words() -> [i16; HISTORY] {
    quiet(&mut Random::at(1), 2)
}

/// Each kind of record with what it refuses, a bad kind, a body that is not all there, and the end.
fn samples() -> Vec<Sample> {
    let random = &mut Random::at(2);
    let mut record = |kind: u8| -> Vec<u8> {
        let body = (0..BODIES[usize::from(kind)]).map(|_| random.word() as u8);
        [kind].into_iter().chain(body).collect()
    };
    let mut feeds = vec![
        vec![],
        vec![0],
        vec![7, 0],
        vec![1, 0],
        record(1),
        record(5),
    ];
    for lag in [40, 18] {
        let mut pulses = record(3);
        pulses[1 + places::PULSE_LAG] = lag;
        feeds.push(pulses);
    }
    for limit in [0, 2] {
        let mut gain = record(4);
        gain[1 + places::EXPONENT..].fill(0);
        gain[1 + places::LIMIT] = limit;
        feeds.push(gain);
    }
    for subframe in NUMBERS {
        for lag in [80, 19, 121] {
            let mut pitch = record(PITCH);
            pitch[1 + places::PITCH_SUBFRAME] = subframe;
            for place in places::PITCH_LAGS {
                pitch[1 + place] = lag;
            }
            feeds.push(pitch);
        }
        feeds.extend(INDEXES.map(|index| vec![LAG, subframe, index]));
    }
    feeds.into_iter().map(Sample::new).collect()
}

fn ours(sample: &Sample, [searcher, reader]: [PitchState; 2]) -> Stepped {
    let mut history = old_words().to_vec();
    let mut words = unwritten(FILTER_WORDS);
    let answer = step(
        &sample.feed,
        0,
        [searcher, reader],
        &mut history,
        &mut words,
    );
    Stepped {
        answer,
        history,
        words,
    }
}

impl Sample {
    fn new(feed: Vec<u8>) -> Self {
        let mut stages = Stages::default();
        stages.detector.history_q0 = old_words();
        let answered = match first(&feed) {
            None => None,
            Some(Err(refusal)) => Some(Err(refusal)),
            Some(Ok(head)) if head.kind == PITCH || head.kind == LAG => None,
            Some(Ok(head)) => Some(stages.step(head.kind, head.body)),
        };
        Self {
            feed,
            stages,
            answered,
        }
    }

    fn expected(&self, given: [PitchState; 2]) -> Stepped {
        let [mut searcher, mut reader] = given;
        let body = self.feed.get(1..).unwrap_or_default();
        let expected = match (&self.answered, self.feed.first()) {
            (Some(answered), kind) => {
                if kind == Some(&0) {
                    [searcher, reader] = given.map(|state| Upper::of(state.upper).fresh());
                }
                Expected::of(answered, &self.stages)
            }
            (None, Some(&PITCH)) => {
                let call = calls::recorded(body);
                let found = states::searched(searcher, &call, call.open_loop, call.subframe);
                if let Ok((_, after)) = found {
                    searcher = after;
                }
                let answered = found.map(|(found, _)| Answer::Pitch(found));
                let answered = answered.map_err(Into::into);
                Expected::of(&answered, &self.stages)
            }
            (None, Some(_)) => {
                let read = states::read(reader, body[0], body[1]);
                if let Ok((_, after)) = read {
                    reader = after;
                }
                let answered = read.map(|(lag, _)| Answer::Lag(lag));
                let answered = answered.map_err(Into::into);
                Expected::of(&answered, &self.stages)
            }
            (None, None) => Expected::at_end(&self.stages),
        };
        Stepped {
            answer: with_states(expected.answer, [searcher, reader]),
            history: expected.kept.history,
            words: expected.words,
        }
    }
}
