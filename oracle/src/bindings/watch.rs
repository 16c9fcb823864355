//! The resonance watch in chains: the answers to spectra, limits and stages, each with the watch
//! after it. The published watch has no stage of its own: it is the one that the published encoder
//! runs, refused by the rule of 02.

use super::{
    CHAINS, Told, compare_chain,
    parts::{Row, published_row, row},
    prediction, told,
};
use crate::{
    compare::{Line, in_threads},
    counts::{Cases, cases},
    gain::{Call, LISTS, SignedRefusal, checked},
    stability::{Drawing, SUBFRAMES, Stage, Watch, Watched},
    turns::Turn,
    words::SUBFRAME,
};
use mr74::encoder_stability::{Stability, WatchedRow};
use std::fmt::Debug;

cases! {
    Reset => "reset of a watch that is not fresh",
    Given => "watch that is given",
    Resonant => "resonant spectrum",
    Other => "spectrum that is not resonant",
    Unrestricted => "unrestricted stage",
    Resonance => "stage with the resonance limit",
    Refused7 => "refusal 7 that keeps a watch that is not fresh",
    Refused14 => "refusal 14 that keeps a watch that is not fresh",
}

struct Tally {
    line: Line,
    cases: Cases<Case>,
}

impl Tally {
    fn new() -> Self {
        Self {
            line: Line::new("encoder_stability.rs and gain/quantization.rs, answers and state"),
            cases: Cases::new(),
        }
    }
}

pub fn compare() -> Vec<Line> {
    let mut tally = Tally::new();
    let parts = in_threads(CHAINS, Tally::new, |tally, indexes| {
        for index in indexes {
            let mut chain = Chain::new(&mut tally.cases);
            chain.run(Drawing::at(index, &[]));
            compare_chain(&mut tally.line, index, &chain.steps);
        }
    });
    for part in parts {
        tally.line.add(part.line);
        tally.cases.add(part.cases);
    }
    vec![tally.line, Line::of_cases(tally.cases.counts(|_| true))]
}

/// Both watches, what they answered, and the cases met.
struct Chain<'a> {
    ours: Stability,
    other: Watch,
    steps: Vec<Told>,
    cases: &'a mut Cases<Case>,
}

/// A row, and the limit as it is shown.
type Staged = Result<(Row, String), (u8, i128)>;

impl<'a> Chain<'a> {
    fn new(cases: &'a mut Cases<Case>) -> Self {
        Self {
            ours: Stability::default(),
            other: Watch::default(),
            steps: Vec::new(),
            cases,
        }
    }

    fn run(&mut self, mut drawing: Drawing<'_>) {
        while let Some(turn) = drawing.turn() {
            match turn {
                Turn::Reset => self.reset(),
                Turn::Accepted => {
                    self.observe(&mut drawing);
                    for _ in 0..SUBFRAMES {
                        self.stage(drawing.stage());
                    }
                }
                Turn::Refused => {
                    let mut stage = drawing.stage();
                    (stage.call.exponent, stage.call.fraction) = drawing.pair();
                    self.stage(stage);
                }
            }
        }
    }

    /// What each side answered, then its watch.
    fn push<T: Debug, U: Debug>(&mut self, ours: T, other: U) {
        let ours = told(ours) + &told(&self.ours);
        self.steps.push([ours, told(other) + &told(&self.other)]);
    }

    fn is_fresh(&self) -> bool {
        self.other == Watch::default()
    }

    fn reset(&mut self) {
        if !self.is_fresh() {
            self.cases.count(Case::Reset);
        }
        self.ours.reset();
        self.other = Watch::default();
        self.push((), ());
    }

    fn observe(&mut self, drawing: &mut Drawing<'_>) {
        let lsp = drawing.spectrum();
        let resonant = self.other.observe(&lsp);
        self.cases.count(match resonant {
            true => Case::Resonant,
            false => Case::Other,
        });
        let ours = self.ours.observe_spectrum(&lsp);
        self.push(ours, resonant);
    }

    /// The limit told before the stage, then the stage.
    fn stage(&mut self, stage: Stage) {
        let Stage {
            call,
            pitch_gain,
            given,
        } = stage;
        if let Some(watched) = given {
            self.give(&watched);
        }
        self.push(self.ours.limit(pitch_gain), self.other.limit(pitch_gain));
        let ours = self.ours_staged(&call, pitch_gain);
        let other = self.other_staged(&call, pitch_gain);
        self.push(ours, other);
    }

    fn give(&mut self, watched: &Watched) {
        self.cases.count(Case::Given);
        self.ours = Stability {
            count: watched.count,
            gains_q11: watched.gains,
        };
        self.other = watched.watch();
    }

    fn ours_staged(&mut self, call: &Call, pitch_gain: i16) -> Staged {
        let staged = self.ours.quantize(
            &call.target,
            &call.adaptive,
            &call.filtered,
            prediction(call),
            pitch_gain,
        );
        match staged {
            Ok(WatchedRow { row: chosen, limit }) => Ok((row(chosen), told(limit))),
            Err(refusal) => Err((refusal.number, refusal.detail)),
        }
    }

    fn other_staged(&mut self, call: &Call, pitch_gain: i16) -> Staged {
        let refused = checked([SUBFRAME; LISTS], call.exponent, call.fraction, 0);
        if let Err(SignedRefusal { number, detail }) = refused {
            if !self.is_fresh() {
                self.cases.count(match number {
                    7 => Case::Refused7,
                    _ => Case::Refused14,
                });
            }
            return Err((number, detail.into()));
        }
        let staged = self.other.stage(call, pitch_gain);
        self.cases.count(match staged.limit.pitch_q14() {
            i16::MAX => Case::Unrestricted,
            _ => Case::Resonance,
        });
        let row = published_row(call, staged.nearest.index);
        Ok((row, told(staged.limit)))
    }
}
