//! The cases that the comparison of `prepare` must meet, found from the values inside the published
//! function.
//!
//! Its steps are done once more here, and what comes out is asserted to be what it answers.
//!
//! Neither the product nor the rounding of a weighted coefficient has a case of its clip, since no
//! words reach one: the factors are positive and at most 30802.

use super::{
    COEFFICIENTS, ORDER,
    calls::{Call, joined},
    filters::{self, residual, synthesis},
};
use crate::{
    codec::mr74::{
        encoder_filtering::{GAMMA_ONE_Q15, GAMMA_TWO_Q15, PreparedSubframe},
        postfilter::{product, rounded, weight},
    },
    counts::{Found, cases},
    words::SUBFRAME,
};

cases! {
    QuantizedZero => "quantized coefficients that start with 0",
    QuantizedLeast => "quantized coefficients that start with -32768",
    QuantizedGreatest => "quantized coefficients that start with 32767",
    NumeratorRounded => "numerator that cutting in place of rounding would change",
    NumeratorHalf => "numerator with a product exactly between two words",
    DenominatorRounded => "denominator that cutting in place of rounding would change",
    DenominatorHalf => "denominator with a product exactly between two words",
    NoSpeechBefore => "answer that ten zeros before the speech would change",
    NoErrorHistory => "answer that zeros for the error history would change",
    OtherErrorHistory => "answer that the weighting history for the error history would change",
    NoWeightingHistory => "answer that zeros for the weighting history would change",
    OtherWeightingHistory => "answer that the error history for the weighting history would change",
    OtherCoefficients => "answer that the quantized coefficients for the others would change",
    OtherQuantized => "answer that the coefficients for the quantized ones would change",
}

/// The filters of `prepare`, in its order.
#[derive(Clone, Copy)]
pub enum Part {
    FirstImpulse,
    Impulse,
    Residual,
    Error,
    Weighted,
    Target,
}

pub const PARTS: [(Part, &str); 6] = [
    (
        Part::FirstImpulse,
        "cases that must occur, impulse response before the last filter",
    ),
    (Part::Impulse, "cases that must occur, impulse response"),
    (Part::Residual, "cases that must occur, residual"),
    (Part::Error, "cases that must occur, error"),
    (
        Part::Weighted,
        "cases that must occur, target before the last filter",
    ),
    (Part::Target, "cases that must occur, target"),
];

impl Part {
    /// Whether there are words that meet the case in this filter.
    pub fn reaches(self, case: filters::Case) -> bool {
        match case {
            // The first filter of the impulse response starts from zeros, and its input is the
            // numerator. All words of that but the first are within 30802, and where the first is
            // multiplied the other products are 0.
            filters::Case::FirstProductMatters => !matches!(self, Self::FirstImpulse),
            // All coefficients of these filters but the first are within 30802 too.
            filters::Case::TapProduct | filters::Case::TapProductMatters => {
                !matches!(self, Self::Impulse | Self::Weighted | Self::Target)
            }
            _ => true,
        }
    }
}

/// The factors of both tables, each one less and one more.
pub const FACTORS: usize = 4 * ORDER;

/// A call that the published Rust answered.
pub struct Prepared<'a> {
    pub call: &'a Call,
    pub answer: &'a PreparedSubframe,
}

/// The cases that a call met, and those of its filters.
pub struct PreparedCases {
    pub found: Found<Case>,
    pub filters: [Found<filters::Case>; PARTS.len()],
    /// Whether a weighted coefficient would be another with that factor.
    pub factors: [bool; FACTORS],
}

impl Prepared<'_> {
    pub fn cases(&self) -> PreparedCases {
        let mut cases = PreparedCases {
            found: Found::new(),
            filters: PARTS.map(|_| Found::new()),
            factors: [false; FACTORS],
        };
        let Call {
            speech,
            coefficients,
            quantized,
            error_history,
            weighting_history,
        } = self.call;
        for (case, first) in [
            (Case::QuantizedZero, 0),
            (Case::QuantizedLeast, i16::MIN),
            (Case::QuantizedGreatest, i16::MAX),
        ] {
            cases.found.case(case, quantized[0] == first);
        }
        let numerator = cases.numerator(coefficients);
        let denominator = cases.denominator(coefficients);

        let [first_impulse, impulse, of_residual, error, weighted, target] = &mut cases.filters;
        let mut impulse_input = [0; SUBFRAME];
        impulse_input[..COEFFICIENTS].copy_from_slice(&numerator);
        let zeros = [0; ORDER];
        let impulse_q12 = synthesis(first_impulse, &zeros, quantized, &impulse_input);
        let impulse_q12 = synthesis(impulse, &zeros, &denominator, &impulse_q12);
        let residual_q0 = residual(of_residual, quantized, speech);
        let error_q0 = synthesis(error, error_history, quantized, &residual_q0);
        let input = joined(error_history, &error_q0);
        let target_q0 = residual(weighted, &numerator, &input);
        let target_q0 = synthesis(target, weighting_history, &denominator, &target_q0);
        let prepared = PreparedSubframe {
            residual_q0,
            impulse_q12,
            target_q0,
            error_q0,
        };
        assert_eq!(prepared, *self.answer, "the answer found here");
        cases
    }

    /// The case of the change of this number.
    pub fn find_change(&self, found: &mut Found<Case>, number: usize) {
        let (case, change) = CHANGES[number];
        let mut changed = self.call.clone();
        change(&mut changed);
        let matters = changed != *self.call && changed.prepare() != *self.answer;
        found.case(case, matters);
    }
}

impl PreparedCases {
    fn numerator(&mut self, coefficients: &[i16; COEFFICIENTS]) -> [i16; COEFFICIENTS] {
        let cases = [Case::NumeratorRounded, Case::NumeratorHalf];
        self.weighted(coefficients, &GAMMA_ONE_Q15, cases, 0)
    }

    fn denominator(&mut self, coefficients: &[i16; COEFFICIENTS]) -> [i16; COEFFICIENTS] {
        let cases = [Case::DenominatorRounded, Case::DenominatorHalf];
        self.weighted(coefficients, &GAMMA_TWO_Q15, cases, FACTORS / 2)
    }

    /// The published weighted coefficients; the first stays as it is.
    fn weighted(
        &mut self,
        coefficients: &[i16; COEFFICIENTS],
        factors: &[i16; ORDER],
        [is_rounded, is_half]: [Case; 2],
        first_factor: usize,
    ) -> [i16; COEFFICIENTS] {
        let mut words = *coefficients;
        for (place, (word, &factor)) in words[1..].iter_mut().zip(factors).enumerate() {
            let coefficient = *word;
            let exact = product(coefficient, factor);
            *word = rounded(exact);
            self.found.case(is_rounded, *word != (exact >> 16) as i16);
            self.found.case(is_half, exact & 0xffff == 0x8000);
            for (way, other) in [factor - 1, factor + 1].into_iter().enumerate() {
                let changes = rounded(product(coefficient, other)) != *word;
                self.factors[first_factor + 2 * place + way] = changes;
            }
        }
        assert_eq!(
            words,
            weight(coefficients, factors),
            "the weights found here"
        );
        words
    }
}

/// A change of one list.
type Change = fn(&mut Call);

/// The changes, and the case of an answer that each of them changes.
pub const CHANGES: [(Case, Change); 7] = [
    (Case::NoSpeechBefore, |call| call.speech[..ORDER].fill(0)),
    (Case::NoErrorHistory, |call| call.error_history.fill(0)),
    (Case::OtherErrorHistory, |call| {
        call.error_history = call.weighting_history
    }),
    (Case::NoWeightingHistory, |call| {
        call.weighting_history.fill(0)
    }),
    (Case::OtherWeightingHistory, |call| {
        call.weighting_history = call.error_history
    }),
    (Case::OtherCoefficients, |call| {
        call.coefficients = call.quantized
    }),
    (Case::OtherQuantized, |call| {
        call.quantized = call.coefficients
    }),
];
