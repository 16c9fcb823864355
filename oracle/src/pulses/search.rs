//! The comparison of the pulse search.

use super::{
    SIGN_WORDS,
    calls::{Call, LAGS, LISTS, READ, WRITTEN, answer, call, checked, named},
    cases::{Case, Searched},
    sources::{self, Drawn, GAINS, SOURCES},
};
use crate::{
    compare::{Function, Line, in_threads},
    counts::Cases,
    feed,
    lent::{Answered, unwritten},
    project::{PulsesAnswer, SharpeningGain, pulse_search},
    words::SUBFRAME,
};

/// The searches that are compared and accepted.
const ACCEPTED: u64 = 1_100_000;
/// Of so many searches of each source one is looked at thoroughly.
const THOROUGH_OF: u64 = 4;

pub fn functions() -> [Function; 2] {
    [compare_accepted, compare_refused].map(|compare| Function {
        name: "pulse_search",
        compare,
    })
}

/// What was compared, and which cases were met.
struct Tally {
    answers: Line,
    sources: Cases<sources::Case>,
    cases: Cases<Case>,
    lags: [u64; *LAGS.end() as usize + 1],
    gains: [u64; GAINS.len()],
    places: [u64; SUBFRAME],
    signs: [u64; SIGN_WORDS],
}

impl Tally {
    fn new() -> Self {
        Self {
            answers: Line::new("codebook/search.rs"),
            sources: Cases::new(),
            cases: Cases::new(),
            lags: [0; _],
            gains: [0; _],
            places: [0; _],
            signs: [0; _],
        }
    }

    fn add(&mut self, part: Self) {
        self.answers.add(part.answers);
        self.sources.add(part.sources);
        self.cases.add(part.cases);
        add_counts(&mut self.lags, &part.lags);
        add_counts(&mut self.gains, &part.gains);
        add_counts(&mut self.places, &part.places);
        add_counts(&mut self.signs, &part.signs);
    }

    /// Each lag, place and sign word must occur, so the least frequent is a case too.
    fn lines(self, with_feed: bool) -> Vec<Line> {
        let least = |counts: &[u64]| *counts.iter().min().expect("a count");
        let mut cases = self.sources.counts(|case| with_feed || !case.needs_feed());
        cases.extend(self.cases.counts(Case::must_occur));
        cases.extend([
            (
                "search with the lag that is drawn least often",
                least(&self.lags[usize::from(*LAGS.start())..]),
            ),
            (
                "search with the gain at an end that is drawn least often",
                least(&self.gains),
            ),
            (
                "pulse at the place that is chosen least often",
                least(&self.places),
            ),
            ("sign word that is answered least often", least(&self.signs)),
        ]);
        let counted = self.cases.counts(|case| !case.must_occur());
        vec![
            self.answers,
            Line::of_cases(cases),
            Line::of_counts(counted),
        ]
    }

    fn compare_call(&mut self, drawn: &Drawn) {
        let call = &drawn.call;
        let answered = Answered::new([SUBFRAME; WRITTEN], |written| ours(call, written));
        let expected = call.search();
        let searched = Searched {
            call,
            answer: &expected,
        };
        let thorough = (drawn.index / SOURCES).is_multiple_of(THOROUGH_OF);
        let cases = searched.cases(thorough);
        self.sources.count(drawn.source);
        self.cases.count_found(&cases.found);
        self.lags[usize::from(call.lag)] += 1;
        if let Some(place) = GAINS.iter().position(|&gain| gain == call.gain) {
            self.gains[place] += 1;
        }
        for place in cases.pulses {
            self.places[place] += 1;
        }
        self.signs[usize::from(expected.pulse_signs)] += 1;
        answered.compare(
            &mut self.answers,
            (drawn.index, drawn),
            answer(Ok((expected.pulse_positions, expected.pulse_signs))),
            named([
                &expected.innovation_q13,
                &expected.filtered_q12,
                &expected.sharpened_impulse_q12,
            ]),
        );
    }
}

fn add_counts(counts: &mut [u64], part: &[u64]) {
    for (count, part) in counts.iter_mut().zip(part) {
        *count += part;
    }
}

fn ours(call: &Call, written: [&mut [i16]; WRITTEN]) -> PulsesAnswer {
    pulse_search(call.read(), call.lag, SharpeningGain(call.gain), written)
}

fn compare_accepted() -> Vec<Line> {
    let feed = feed::steps("pulse records", call, |_| true);
    let mut tally = Tally::new();
    let parts = in_threads(ACCEPTED, Tally::new, |tally, indexes| {
        for index in indexes {
            tally.compare_call(&Drawn::at(index, &feed));
        }
    });
    for part in parts {
        tally.add(part);
    }
    tally.lines(!feed.is_empty())
}

/// The lengths of a call's lists and its lag.
type Refused = ([usize; LISTS], u16);

/// Every combination of some lengths that has a wrong one, with good and bad lags; then every bad
/// lag.
fn refused_calls() -> [(&'static str, Vec<Refused>); 2] {
    const LENGTHS: [usize; 7] = [0, 1, 39, SUBFRAME, 41, 80, 256 + SUBFRAME];
    const SOME_LAGS: [u16; 7] = [0, 18, 19, 40, 144, 145, u16::MAX];
    let mut lengths = Vec::new();
    for index in 0..LENGTHS.len().pow(LISTS as u32) {
        let mut rest = index;
        let each = [(); LISTS].map(|()| {
            let length = LENGTHS[rest % LENGTHS.len()];
            rest /= LENGTHS.len();
            length
        });
        if each != [SUBFRAME; LISTS] {
            lengths.extend(SOME_LAGS.map(|lag| (each, lag)));
        }
    }
    let lags = (0..=u16::MAX).filter(|lag| !LAGS.contains(lag));
    let lags = lags.map(|lag| ([SUBFRAME; LISTS], lag)).collect();
    [
        ("rule of 01 for the lengths", lengths),
        ("rule of 01 for the lag", lags),
    ]
}

fn compare_refused() -> Vec<Line> {
    refused_calls()
        .into_iter()
        .map(|(with, calls)| {
            let mut line = Line::new(with);
            for (index, &(lengths, lag)) in (0..).zip(&calls) {
                compare_refusal(&mut line, index, lengths, lag);
            }
            line
        })
        .collect()
}

fn compare_refusal(line: &mut Line, index: u64, lengths: [usize; LISTS], lag: u16) {
    let (read, written) = lengths.split_at(READ);
    let read: [Vec<i16>; READ] = std::array::from_fn(|place| vec![i16::MAX; read[place]]);
    let written: [usize; WRITTEN] = written.try_into().expect("the lists to write");
    let gain = SharpeningGain(index as i16);
    let answered = Answered::new(written, |written| {
        pulse_search(read.each_ref().map(Vec::as_slice), lag, gain, written)
    });
    let [a, b, c] = written.map(unwritten);
    let refused = checked(lengths, lag).map(|()| unreachable!("a call that is refused"));
    answered.compare(
        line,
        (index, &(lengths, lag)),
        answer(refused),
        named([&a, &b, &c]),
    );
}
