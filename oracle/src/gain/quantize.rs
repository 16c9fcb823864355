//! The comparison of `quantize`.

use super::{
    Compared,
    calls::{EXPONENTS, Nearest, answer},
    cases::{CHANGES, Case, Quantized},
    rows::{RESONANCE_ROWS, ROWS},
    sources::{self, Drawn},
};
use crate::{codec::mr74::gain::quantization::GainLimit, compare::Line, counts::Cases, project};

const EXPONENT_COUNT: usize = (*EXPONENTS.end() - *EXPONENTS.start()) as usize + 1;

/// What was compared, and which cases were met.
pub struct Tally {
    answers: Line,
    /// The answers to the same calls with the other limit, and the laws of both answers.
    other_answers: Line,
    laws: Line,
    /// How often the rows of both limits are equal, and how often unequal.
    equal: u64,
    unequal: u64,
    sources: Cases<sources::Case>,
    cases: Cases<Case>,
    /// How often each row was chosen without a limit, and within the resonance limit.
    rows: [u64; ROWS],
    resonance_rows: [u64; RESONANCE_ROWS],
    /// How often the resonance limit turned each row away.
    turned_away: [u64; ROWS - RESONANCE_ROWS],
    exponents: [u64; EXPONENT_COUNT],
}

impl Compared for Tally {
    fn new() -> Self {
        Self {
            answers: Line::new("gain/quantization.rs"),
            other_answers: Line::new("gain/quantization.rs, with the other limit"),
            laws: Line::new("laws of both limits' rows and distances"),
            equal: 0,
            unequal: 0,
            sources: Cases::new(),
            cases: Cases::new(),
            rows: [0; _],
            resonance_rows: [0; _],
            turned_away: [0; _],
            exponents: [0; _],
        }
    }

    fn add(&mut self, part: Self) {
        self.answers.add(part.answers);
        self.other_answers.add(part.other_answers);
        self.laws.add(part.laws);
        self.equal += part.equal;
        self.unequal += part.unequal;
        self.sources.add(part.sources);
        self.cases.add(part.cases);
        for (counts, part) in [
            (self.rows.as_mut_slice(), part.rows.as_slice()),
            (&mut self.resonance_rows, &part.resonance_rows),
            (&mut self.turned_away, &part.turned_away),
            (&mut self.exponents, &part.exponents),
        ] {
            for (count, part) in counts.iter_mut().zip(part) {
                *count += part;
            }
        }
    }

    /// Each row and exponent must occur, so the least frequent is a case too.
    fn lines(self, with_feed: bool) -> Vec<Line> {
        let least = |counts: &[u64]| *counts.iter().min().expect("a count");
        let mut cases = self.sources.counts(|case| with_feed || !case.needs_feed());
        cases.extend(self.cases.counts(Case::must_occur));
        cases.extend([
            (
                "row that is chosen least often of all 128, unrestricted",
                least(&self.rows),
            ),
            (
                "row that is chosen least often of the first 96, within the resonance limit",
                least(&self.resonance_rows),
            ),
            (
                "row that the resonance limit turns away least often of the last 32",
                least(&self.turned_away),
            ),
            (
                "call with the exponent that is drawn least often",
                least(&self.exponents),
            ),
            ("rows of both limits equal", self.equal),
            ("rows of both limits unequal", self.unequal),
        ]);
        let counted = self.cases.counts(|case| !case.must_occur());
        vec![
            self.answers,
            self.other_answers,
            self.laws,
            Line::of_cases(cases),
            Line::of_counts(counted),
        ]
    }

    fn compare_call(&mut self, drawn: &Drawn) {
        let call = &drawn.call;
        let nearest = compare_answer(&mut self.answers, drawn);
        let other = compare_answer(&mut self.other_answers, &drawn.with_other_limit());
        self.check_laws(drawn, nearest, other);
        let row = usize::from(nearest.index);
        let quantized = Quantized { call, row };
        let mut cases = quantized.cases();
        // One of the changes for each call, else they would take most of the time.
        let change = (drawn.index / 64) as usize % CHANGES.len();
        quantized.find_change(&mut cases.found, change);
        self.sources.count(drawn.source);
        self.cases.count_found(&cases.found);
        match call.limit {
            GainLimit::Unrestricted => self.rows[row] += 1,
            GainLimit::Resonance => {
                self.resonance_rows[row] += 1;
                if let Some(row) = cases.unrestricted.checked_sub(RESONANCE_ROWS) {
                    self.turned_away[row] += 1;
                }
            }
        }
        self.exponents[(call.exponent - EXPONENTS.start()) as usize] += 1;
    }
}

impl Tally {
    /// 02, request 14: the rows of both limits are equal exactly where the unrestricted one is within
    /// the resonance limit, and the least distance within it is never below the unrestricted one.
    fn check_laws(&mut self, drawn: &Drawn, nearest: Nearest, other: Nearest) {
        let [unrestricted, resonance] = match drawn.call.limit {
            GainLimit::Unrestricted => [nearest, other],
            GainLimit::Resonance => [other, nearest],
        };
        let equal = resonance.index == unrestricted.index;
        self.equal += u64::from(equal);
        self.unequal += u64::from(!equal);
        self.laws.compared += 1;
        let within = usize::from(unrestricted.index) < RESONANCE_ROWS;
        if equal != within || resonance.distance < unrestricted.distance {
            self.laws.tell_difference(drawn.index, || {
                format!("{drawn:?}: unrestricted {unrestricted:?}, resonance {resonance:?}")
            });
        }
    }
}

/// Compares the library's answer with the published one, and gives the latter.
fn compare_answer(line: &mut Line, drawn: &Drawn) -> Nearest {
    let call = &drawn.call;
    let ours = project::quantize(call.lists(), call.exponent, call.fraction, call.choice());
    let nearest = call.nearest();
    let expected = answer(Ok((nearest.index, call.clips())));
    line.compare(drawn.index, drawn, &ours, &expected);
    nearest
}
