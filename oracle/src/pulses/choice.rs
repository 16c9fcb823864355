//! The choice of the pulses, done once more to see its ties and its clips.

use super::{PULSES, TRACKS, calls::places};
use crate::{
    codec::mr74::codebook::search::{fractional, product, rounded},
    words::SUBFRAME,
};

/// What a choice met.
#[derive(Default, Clone, Copy)]
pub struct Met {
    pub sum_clip: bool,
    pub candidate_tie: bool,
    pub trial_tie: bool,
    /// A pulse of which all candidates are worse than none.
    pub no_candidate: bool,
    /// Such a pulse after those whose correlations are not 0.
    pub lost_correlation: bool,
    pub negative_energy: bool,
    /// Whether a trial replaced the first pulses.
    pub replaced: bool,
}

pub struct Choice<'a> {
    correlation: &'a [i16; SUBFRAME],
    eligible: &'a [bool; SUBFRAME],
    matrix: &'a [[i16; SUBFRAME]; SUBFRAME],
    /// Whether the later candidate is taken on a tie, and the later trial.
    pub later_on_tie: [bool; 2],
    /// Whether the correlation stays where no candidate is better than none.
    pub keeps_correlation: bool,
    pub met: Met,
}

/// A square of correlations and an energy, whose ratio is compared.
#[derive(Clone, Copy)]
struct Ratio {
    square: i16,
    energy: i16,
}

impl Ratio {
    const NONE: Self = Self {
        square: -1,
        energy: 1,
    };

    /// Above 0 where it is better than the other, 0 on a tie.
    fn against(self, other: Self) -> i32 {
        product(other.energy, self.square).saturating_sub(product(other.square, self.energy))
    }
}

impl<'a> Choice<'a> {
    pub fn new(
        correlation: &'a [i16; SUBFRAME],
        eligible: &'a [bool; SUBFRAME],
        matrix: &'a [[i16; SUBFRAME]; SUBFRAME],
    ) -> Self {
        Self {
            correlation,
            eligible,
            matrix,
            later_on_tie: [false; 2],
            keeps_correlation: false,
            met: Met::default(),
        }
    }

    pub fn pulses(&mut self) -> [usize; PULSES] {
        let mut best = [0, 1, 2, 3];
        let mut ratio = Ratio::NONE;
        for last_track in PULSES - 1..TRACKS {
            let mut tracks = [0, 1, 2, last_track];
            for _ in 0..PULSES {
                for first in places(tracks[0]).filter(|&place| self.eligible[place]) {
                    let (pulses, trial) = self.trial(first, tracks);
                    let better = trial.against(ratio);
                    self.met.trial_tie |= better == 0;
                    if better > 0 || better == 0 && self.later_on_tie[1] {
                        (best, ratio) = (pulses, trial);
                        self.met.replaced = true;
                    }
                }
                tracks.rotate_right(1);
            }
        }
        best
    }

    /// The pulses that follow a first one, each the best for those before it.
    fn trial(&mut self, first: usize, tracks: [usize; PULSES]) -> ([usize; PULSES], Ratio) {
        let matrix = self.matrix;
        let mut pulses = tracks;
        pulses[0] = first;
        let mut correlation = self.correlation[first];
        let mut base = product(matrix[first][first], 8192);
        let mut best = Ratio::NONE;
        for pulse in 1..PULSES {
            let [diagonal, cross] = if pulse == 1 {
                [8192, 16384]
            } else {
                [2048, 4096]
            };
            let mut none = true;
            let mut best_correlation = 0;
            best = Ratio::NONE;
            for place in places(tracks[pulse]) {
                let exact = i32::from(correlation) + i32::from(self.correlation[place]);
                let sum = correlation.saturating_add(self.correlation[place]);
                let mut energy = base + product(matrix[place][place], diagonal);
                for &before in pulses[..pulse].iter().rev() {
                    energy += product(matrix[before][place], cross);
                }
                let ratio = Ratio {
                    square: fractional(sum, sum),
                    energy: rounded(energy),
                };
                let better = ratio.against(best);
                self.met.sum_clip |= i32::from(sum) != exact;
                self.met.negative_energy |= ratio.energy < 0;
                self.met.candidate_tie |= better == 0;
                if better > 0 || better == 0 && self.later_on_tie[0] {
                    none = false;
                    best = ratio;
                    best_correlation = sum;
                    pulses[pulse] = place;
                }
            }
            self.met.no_candidate |= none;
            self.met.lost_correlation |= none && correlation > 0;
            if none && self.keeps_correlation {
                best_correlation = correlation;
            }
            correlation = best_correlation;
            base = if pulse == 1 {
                product(best.energy, 8192)
            } else {
                i32::from(best.energy) << 16
            };
        }
        (pulses, best)
    }
}

/// The places in order.
pub fn sorted(mut pulses: [usize; PULSES]) -> [usize; PULSES] {
    pulses.sort();
    pulses
}
