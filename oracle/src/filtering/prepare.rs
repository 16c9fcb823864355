//! The comparison of `prepare`.

use super::{
    COEFFICIENTS, Compared, INPUT, ORDER,
    cases::{CHANGES, Case, FACTORS, PARTS, Prepared},
    filters,
    sources::{self, Drawn},
};
use crate::{
    compare::Line,
    counts::Cases,
    lent::{Answered, unwritten},
    project::{self, ACCEPTED},
    refusals::{Lengths, Refusals, refused},
    subframes::length_answer,
    words::SUBFRAME,
};

const READ: usize = 5;
const WRITTEN: usize = 4;
const LISTS: usize = READ + WRITTEN;
const NEEDED: [usize; LISTS] = [
    INPUT,
    COEFFICIENTS,
    COEFFICIENTS,
    ORDER,
    ORDER,
    SUBFRAME,
    SUBFRAME,
    SUBFRAME,
    SUBFRAME,
];
const REFUSALS: [[&str; 2]; LISTS] = refused!(
    "speech",
    "coefficients",
    "quantized coefficients",
    "error history",
    "weighting history",
    "residual",
    "impulse response",
    "target",
    "error"
);

/// What was compared, and which cases were met.
pub struct Tally {
    answers: Line,
    lengths: Line,
    sources: Cases<sources::Case>,
    cases: Cases<Case>,
    filters: [Cases<filters::Case>; PARTS.len()],
    factors: [u64; FACTORS],
    refusals: Refusals<LISTS>,
}

impl Compared for Tally {
    fn new() -> Self {
        Self {
            answers: Line::new("encoder_filtering.rs"),
            lengths: Line::new("rule of 01 for the lengths"),
            sources: Cases::new(),
            cases: Cases::new(),
            filters: PARTS.map(|_| Cases::new()),
            factors: [0; FACTORS],
            refusals: Refusals::new(REFUSALS),
        }
    }

    fn add(&mut self, part: Self) {
        self.answers.add(part.answers);
        self.lengths.add(part.lengths);
        self.sources.add(part.sources);
        self.cases.add(part.cases);
        for (filter, part) in self.filters.iter_mut().zip(part.filters) {
            filter.add(part);
        }
        for (count, part) in self.factors.iter_mut().zip(part.factors) {
            *count += part;
        }
        self.refusals.add(part.refusals);
    }

    /// Each factor must matter, so the one that does least often is a case too.
    fn lines(self, with_feed: bool) -> Vec<Line> {
        let least = self.factors.into_iter().min().expect("a factor");
        let mut cases = self.sources.counts(|case| with_feed || !case.needs_feed());
        cases.extend(self.cases.counts(|_| true));
        cases.push((
            "weight that a factor one less or one more would change, by the factor least often so",
            least,
        ));
        cases.extend(self.refusals.counts());
        let mut lines = vec![self.answers, self.lengths, Line::of_cases(cases)];
        for ((part, text), filter) in PARTS.into_iter().zip(self.filters) {
            let mut line = Line::of_cases(filter.counts(|case| part.reaches(case)));
            line.with = text;
            lines.push(line);
        }
        lines
    }

    fn compare_call(&mut self, drawn: &Drawn) {
        let call = &drawn.call;
        let answered = Answered::new([SUBFRAME; WRITTEN], |written| {
            project::prepare(call.lists(), written)
        });
        let expected = call.prepare();
        let prepared = Prepared {
            call,
            answer: &expected,
        };
        let mut cases = prepared.cases();
        // One of the changes for each call, else they would take most of the time.
        let change = (drawn.index / 64) as usize % CHANGES.len();
        prepared.find_change(&mut cases.found, change);
        self.sources.count_found(&drawn.cases());
        self.cases.count_found(&cases.found);
        for (filter, found) in self.filters.iter_mut().zip(&cases.filters) {
            filter.count_found(found);
        }
        for (count, matters) in self.factors.iter_mut().zip(cases.factors) {
            *count += u64::from(matters);
        }
        answered.compare(
            &mut self.answers,
            (drawn.index, drawn),
            ACCEPTED,
            named([
                &expected.residual_q0,
                &expected.impulse_q12,
                &expected.target_q0,
                &expected.error_q0,
            ]),
        );
    }

    fn compare_refusal(&mut self, index: u64) {
        let lengths = Lengths::at(index, NEEDED);
        let (read, written) = lengths.lengths.split_at(READ);
        let written: [usize; WRITTEN] = written.try_into().expect("the lists to write");
        let read: Vec<Vec<i16>> = read.iter().map(|&length| vec![i16::MAX; length]).collect();
        let answered = Answered::new(written, |written| {
            let read: [&Vec<i16>; READ] = std::array::from_fn(|place| &read[place]);
            project::prepare(read.map(Vec::as_slice), written)
        });
        let [a, b, c, d] = written.map(unwritten);
        self.refusals.count(&lengths);
        answered.compare(
            &mut self.lengths,
            (index, &lengths.lengths),
            length_answer(lengths.checked()),
            named([&a, &b, &c, &d]),
        );
    }
}

/// The lists that are written, with their names.
fn named(lists: [&[i16]; WRITTEN]) -> [(&str, &[i16]); WRITTEN] {
    let [residual, impulse, target, error] = lists;
    [
        ("residual", residual),
        ("impulse response", impulse),
        ("target", target),
        ("error", error),
    ]
}
