//! The recorded sample of target filtering: the calls, as records of a feed.

use super::{
    Call,
    cases::{CHANGES, Case, FACTORS, PARTS, Prepared},
    filters, residual,
    sources::{self, Drawn},
};
use crate::{counts::Found, selection::bodies};

/// The kind of a filtering record.
const FILTER: u8 = 5;

/// The records, and the calls that are looked at for those which meet a case.
const RECORDS: usize = 60;
const CALLS: u64 = 30_000;

/// The cases that some calls met.
struct Met {
    sources: Found<sources::Case>,
    residual: Found<filters::Case>,
    prepare: Found<Case>,
    filters: [Found<filters::Case>; PARTS.len()],
    factors: [bool; FACTORS],
}

impl Met {
    fn new() -> Self {
        Self {
            sources: Found::new(),
            residual: Found::new(),
            prepare: Found::new(),
            filters: PARTS.map(|_| Found::new()),
            factors: [false; FACTORS],
        }
    }

    fn by(drawn: &Drawn) -> Self {
        let call = &drawn.call;
        let prepared = Prepared {
            call,
            answer: &call.prepare(),
        };
        let mut cases = prepared.cases();
        for number in 0..CHANGES.len() {
            prepared.find_change(&mut cases.found, number);
        }
        Self {
            sources: drawn.cases(),
            residual: residual::cases(call, &call.residual()),
            prepare: cases.found,
            filters: cases.filters,
            factors: cases.factors,
        }
    }

    fn add(&mut self, other: &Self) {
        self.sources.add(&other.sources);
        self.residual.add(&other.residual);
        self.prepare.add(&other.prepare);
        for (filter, other) in self.filters.iter_mut().zip(&other.filters) {
            filter.add(other);
        }
        for (factor, other) in self.factors.iter_mut().zip(other.factors) {
            *factor |= other;
        }
    }

    /// Whether the other has all of these.
    fn is_within(&self, other: &Self) -> bool {
        let mut filters = self.filters.iter().zip(&other.filters);
        let mut factors = self.factors.iter().zip(other.factors);
        self.sources.is_within(&other.sources)
            && self.residual.is_within(&other.residual)
            && self.prepare.is_within(&other.prepare)
            && filters.all(|(filter, other)| filter.is_within(other))
            && factors.all(|(&factor, other)| !factor || other)
    }

    /// Asserts that no case is missing that a call without a feed can meet.
    fn assert_all(&self) {
        self.sources.assert_met(|case| !case.needs_feed());
        self.residual.assert_met(|_| true);
        self.prepare.assert_met(|_| true);
        for ((part, _), filter) in PARTS.iter().zip(&self.filters) {
            filter.assert_met(|case| part.reaches(case));
        }
        assert_eq!(self.factors, [true; FACTORS], "a factor without a call");
    }
}

/// The calls that meet a case which none before them met, then further ones of all sources. No feed
/// is among them, so that the sample is the same without one.
pub fn sample() -> Vec<u8> {
    let mut calls = Vec::new();
    let mut met = Met::new();
    for index in 0..CALLS {
        let drawn = Drawn::at(index, &[]);
        let by = Met::by(&drawn);
        if !by.is_within(&met) {
            met.add(&by);
            calls.push(drawn.call);
        }
    }
    met.assert_all();
    for index in CALLS.. {
        if calls.len() >= RECORDS {
            break;
        }
        calls.push(Drawn::at(index, &[]).call);
    }
    calls.iter().flat_map(record).collect()
}

/// The call, and again with its coefficients as the quantised ones too: the residual is then what
/// `residual` answers of the coefficients and the speech.
fn record(call: &Call) -> Vec<u8> {
    let alike = Call {
        quantized: call.coefficients,
        ..*call
    };
    assert_eq!(alike.prepare().residual_q0, call.residual(), "the residual");
    let records = [call, &alike].map(|call| [vec![FILTER], bodies::filtering(call)].concat());
    records.concat()
}
