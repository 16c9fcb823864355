//! The comparison of `residual`.

use super::{
    COEFFICIENTS, Call, Compared, INPUT, filters,
    sources::{self, Drawn},
};
use crate::{
    compare::Line,
    counts::{Cases, Found},
    lent::{Answered, unwritten},
    project::{self, ACCEPTED},
    refusals::{Lengths, Refusals, refused},
    subframes::length_answer,
    words::SUBFRAME,
};

const NEEDED: [usize; 3] = [COEFFICIENTS, INPUT, SUBFRAME];
const REFUSALS: [[&str; 2]; 3] = refused!("coefficients", "samples", "residual");

/// What was compared, and which cases were met.
pub struct Tally {
    answers: Line,
    lengths: Line,
    sources: Cases<sources::Case>,
    filter: Cases<filters::Case>,
    refusals: Refusals<3>,
}

impl Compared for Tally {
    fn new() -> Self {
        Self {
            answers: Line::new("encoder_filtering.rs"),
            lengths: Line::new("rule of 01 for the lengths"),
            sources: Cases::new(),
            filter: Cases::new(),
            refusals: Refusals::new(REFUSALS),
        }
    }

    fn add(&mut self, part: Self) {
        self.answers.add(part.answers);
        self.lengths.add(part.lengths);
        self.sources.add(part.sources);
        self.filter.add(part.filter);
        self.refusals.add(part.refusals);
    }

    fn lines(self, with_feed: bool) -> Vec<Line> {
        let mut cases = self.sources.counts(|case| with_feed || !case.needs_feed());
        cases.extend(self.filter.counts(|_| true));
        cases.extend(self.refusals.counts());
        vec![self.answers, self.lengths, Line::of_cases(cases)]
    }

    fn compare_call(&mut self, drawn: &Drawn) {
        let call = &drawn.call;
        let answered = Answered::new([SUBFRAME], |[residual]| {
            project::residual(&call.coefficients, &call.speech, residual)
        });
        let expected = call.residual();
        self.sources.count_found(&drawn.cases());
        self.filter.count_found(&cases(call, &expected));
        answered.compare(
            &mut self.answers,
            (drawn.index, drawn),
            ACCEPTED,
            [("residual", &expected)],
        );
    }

    fn compare_refusal(&mut self, index: u64) {
        let lengths = Lengths::at(index, NEEDED);
        let [coefficients, samples, residual] = lengths.lengths;
        let answered = Answered::new([residual], |[residual]| {
            project::residual(
                &vec![i16::MAX; coefficients],
                &vec![i16::MIN; samples],
                residual,
            )
        });
        self.refusals.count(&lengths);
        answered.compare(
            &mut self.lengths,
            (index, &lengths.lengths),
            length_answer(lengths.checked()),
            [("residual", &unwritten(residual))],
        );
    }
}

/// The cases of a call that the published Rust answered.
pub fn cases(call: &Call, answer: &[i16; SUBFRAME]) -> Found<filters::Case> {
    let mut found = Found::new();
    let made = filters::residual(&mut found, &call.coefficients, &call.speech);
    assert_eq!(made, *answer, "the residual found here");
    found
}
