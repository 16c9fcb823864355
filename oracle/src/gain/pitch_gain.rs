//! The comparison of `pitch_gain`.

use super::{
    Compared,
    calls::pitch_answer,
    pitch_cases::{self, Case},
    sources::{self, Drawn},
};
use crate::{compare::Line, counts::Cases, project};

/// What was compared, and which cases were met.
pub struct Tally {
    answers: Line,
    sources: Cases<sources::Case>,
    cases: Cases<Case>,
}

impl Compared for Tally {
    fn new() -> Self {
        Self {
            answers: Line::new("gain/quantization.rs"),
            sources: Cases::new(),
            cases: Cases::new(),
        }
    }

    fn add(&mut self, part: Self) {
        self.answers.add(part.answers);
        self.sources.add(part.sources);
        self.cases.add(part.cases);
    }

    fn lines(self, with_feed: bool) -> Vec<Line> {
        let mut cases = self.sources.counts(|case| with_feed || !case.needs_feed());
        cases.extend(self.cases.counts(|_| true));
        vec![self.answers, Line::of_cases(cases)]
    }

    fn compare_call(&mut self, drawn: &Drawn) {
        let call = &drawn.call;
        let answer = project::pitch_gain(call.pitch_lists());
        let published = call.pitch_gain();
        self.sources.count(drawn.source);
        self.cases
            .count_found(&pitch_cases::cases(call, &published));
        self.answers.compared += 1;
        let expected = pitch_answer(Ok((published, call.pitch_clips())));
        if answer != expected {
            self.answers
                .difference(drawn.index, drawn, &answer, &expected);
        }
    }
}
