//! Spectra, each drawn in one of several ways, and the cases of one.

use super::{LPC_ORDER, Watch, spectral};
use crate::{
    counts::{Found, cases},
    inputs::Random,
    refusals::add_counts,
    sums::clip16,
    words::{mixed, uniform},
};
use std::ops::Range;

pub type Spectrum = [i16; LPC_ORDER];

/// The gaps, and the places of those that are looked at.
const GAP_COUNT: usize = LPC_ORDER - 1;
const LOWER: Range<usize> = 1..3;
const UPPER: Range<usize> = 3..8;
const LAST: usize = GAP_COUNT - 1;

const UPPER_BOUND: i16 = 1500;
/// The bounds of the lower gaps, by the second word.
const LOWER_BOUNDS: [i16; 3] = [600, 800, 1100];
/// The second words next to the two at which the lower bound changes.
const SECONDS: [i16; 4] = [30500, 30501, 32000, 32001];

cases! {
    Frequencies => "spectrum of drawn frequencies in order",
    Bounds => "spectrum of gaps about their bounds",
    Clipped => "spectrum made for a gap that is clipped",
    Uniform => "spectrum of random words",
    Mixed => "spectrum of extreme words or of words of a few units",
    FirstBelow => "gap 0 below -10000, not close",
    FirstAbove => "gap 0 above 10000, close",
    LastBelow => "gap 8 below -10000, not close",
    LastAbove => "gap 8 above 10000, close",
    Second30500 => "second word 30500: close, as by the bound 800 it would not be",
    Second30501 => "second word 30501: not close, as by the bound 1100 it would be",
    Second32000 => "second word 32000: close, as by the bound 600 it would not be",
    Second32001 => "second word 32001: not close, as by the bound 800 it would be",
    LowerAlone => "close by the lower gaps alone",
    UpperAlone => "close by the upper gaps alone",
    BothClose => "close by lower and upper gaps",
    LowerClipsAbove => "lower gap clipped at the upper end, not close",
    LowerClipsBelow => "lower gap clipped at the lower end, alone below its bound, as it would not be wrapped",
    UpperClipsAbove => "upper gap clipped at the upper end, not close",
    UpperClipsBelow => "upper gap clipped at the lower end, alone below its bound, as it would not be wrapped",
    Most => "gap that is looked at, of 32767 less -32768",
    Least => "gap that is looked at, of -32768 less 32767",
    Equal => "all words equal",
    Ordered => "words in order, not close",
}

/// `bounds!(GAP BOUND, ..)`: for each gap and bound the texts of its three cases.
macro_rules! bounds {
    ($($gap:literal $bound:literal),+) => {
        [$([
            concat!("gap ", $gap, " at the bound ", $bound, " less 1, alone below: close"),
            concat!("gap ", $gap, " at the bound ", $bound, ", none below: not close"),
            concat!("gap ", $gap, " at the bound ", $bound, " and 1, none below: not close"),
        ]),+]
    };
}

const BOUND_COUNT: usize = LOWER_BOUNDS.len() * 2 + 5;
const BOUND_TEXTS: [[&str; 3]; BOUND_COUNT] = bounds!(
    1 600, 1 800, 1 1100, 2 600, 2 800, 2 1100, 3 1500, 4 1500, 5 1500, 6 1500, 7 1500
);

/// How often each gap was one below its bound, at it and one above, where it or none decides.
#[derive(Default)]
pub struct BoundCounts([[u64; 3]; BOUND_COUNT]);

impl BoundCounts {
    pub fn add(&mut self, part: &Self) {
        add_counts(self.0.as_flattened_mut(), part.0.as_flattened());
    }

    pub fn counts(&self) -> impl Iterator<Item = (&'static str, u64)> {
        let texts = BOUND_TEXTS.as_flattened().iter();
        texts
            .zip(self.0.as_flattened())
            .map(|(&text, &count)| (text, count))
    }

    pub fn count(&mut self, gaps: &Gaps) {
        for gap in LOWER.start..UPPER.end {
            let near = match i32::from(gaps.clipped(gap)) - i32::from(gaps.bound(gap)) {
                -1 if gaps.below() == [gap] => 0,
                0 if gaps.below().is_empty() => 1,
                1 if gaps.below().is_empty() => 2,
                _ => continue,
            };
            let bound = match UPPER.contains(&gap) {
                true => 2 * LOWER_BOUNDS.len() + gap - UPPER.start,
                false => {
                    let lower = LOWER_BOUNDS
                        .iter()
                        .position(|&bound| bound == gaps.lower_bound);
                    let lower = lower.expect("a lower bound");
                    (gap - LOWER.start) * LOWER_BOUNDS.len() + lower
                }
            };
            self.0[bound][near] += 1;
        }
    }
}

/// The gaps of a spectrum, found once more here.
pub struct Gaps {
    exact: [i32; GAP_COUNT],
    lower_bound: i16,
    below: Vec<usize>,
}

impl Gaps {
    pub fn of(lsp: &Spectrum) -> Self {
        let exact = std::array::from_fn(|gap| i32::from(lsp[gap]) - i32::from(lsp[gap + 1]));
        let mut gaps = Self {
            exact,
            lower_bound: lower_bound(lsp[1]),
            below: Vec::new(),
        };
        gaps.below = gaps.below_with(gaps.lower_bound);
        gaps
    }

    pub fn is_close(&self) -> bool {
        !self.below.is_empty()
    }

    /// The gaps below their bounds.
    fn below(&self) -> &[usize] {
        &self.below
    }

    /// The same with another bound of the lower gaps.
    fn below_with(&self, lower_bound: i16) -> Vec<usize> {
        let lower = LOWER.filter(|&gap| self.clipped(gap) < lower_bound);
        let upper = UPPER.filter(|&gap| self.clipped(gap) < UPPER_BOUND);
        lower.chain(upper).collect()
    }

    fn bound(&self, gap: usize) -> i16 {
        match UPPER.contains(&gap) {
            true => UPPER_BOUND,
            false => self.lower_bound,
        }
    }

    fn clipped(&self, gap: usize) -> i16 {
        clip16(self.exact[gap])
    }

    pub fn cases(&self, lsp: &Spectrum) -> Found<Case> {
        const FAR: i32 = 10000;
        const WIDEST: i32 = u16::MAX as i32;
        let mut found = Found::new();
        let is_close = self.is_close();
        let [first, last] = [self.exact[0], self.exact[LAST]];
        found.case(Case::FirstBelow, first < -FAR && !is_close);
        found.case(Case::FirstAbove, first > FAR && is_close);
        found.case(Case::LastBelow, last < -FAR && !is_close);
        found.case(Case::LastAbove, last > FAR && is_close);

        // What the second word next to a change would give by the other bound.
        let changes = |other| self.below_with(other).is_empty() == is_close;
        let [wide, middle, narrow] = [1100, 800, 600];
        for (case, second, other) in [
            (Case::Second30500, SECONDS[0], middle),
            (Case::Second30501, SECONDS[1], wide),
            (Case::Second32000, SECONDS[2], narrow),
            (Case::Second32001, SECONDS[3], middle),
        ] {
            found.case(case, lsp[1] == second && changes(other));
        }

        let [lower, upper] =
            [LOWER, UPPER].map(|places| self.below.iter().any(|gap| places.contains(gap)));
        found.case(Case::LowerAlone, lower && !upper);
        found.case(Case::UpperAlone, upper && !lower);
        found.case(Case::BothClose, lower && upper);

        for (places, above, below) in [
            (LOWER, Case::LowerClipsAbove, Case::LowerClipsBelow),
            (UPPER, Case::UpperClipsAbove, Case::UpperClipsBelow),
        ] {
            for gap in places {
                let exact = self.exact[gap];
                let wrapped = exact as i16;
                let clips = [exact > i16::MAX.into(), exact < i16::MIN.into()];
                found.case(above, clips[0] && !is_close);
                let wraps_away = wrapped >= self.bound(gap);
                found.case(below, clips[1] && self.below == [gap] && wraps_away);
                found.case(Case::Most, exact == WIDEST);
                found.case(Case::Least, exact == -WIDEST);
            }
        }
        found.case(Case::Equal, self.exact == [0; GAP_COUNT]);
        found.case(Case::Ordered, lsp.is_sorted_by(|a, b| a >= b) && !is_close);
        found
    }
}

fn lower_bound(second: i16) -> i16 {
    match second {
        32001.. => LOWER_BOUNDS[0],
        30501.. => LOWER_BOUNDS[1],
        _ => LOWER_BOUNDS[2],
    }
}

/// A spectrum and how it is drawn.
pub fn spectrum(random: &mut Random) -> (Case, Spectrum) {
    match random.below(8) {
        0 => (Case::Frequencies, speech_spectrum(random)),
        1 => (Case::Uniform, uniform(random)),
        2 => (Case::Mixed, mixed(random)),
        3 => (Case::Clipped, clipped(random)),
        _ => (Case::Bounds, about_bounds(random)),
    }
}

/// A spectrum that is close, or one that is not.
pub fn spectrum_that(random: &mut Random, is_close: bool) -> (Case, Spectrum) {
    loop {
        let (case, lsp) = spectrum(random);
        let mut watch = Watch::default();
        watch.observe(&lsp);
        if (watch.count() != 0) == is_close {
            return (case, lsp);
        }
    }
}

/// The cosines of frequencies that go up, with about equal steps or with any.
pub fn speech_spectrum(random: &mut Random) -> Spectrum {
    const FREQUENCIES: u64 = 16384;
    let mut frequencies: Spectrum = match random.below(4) {
        0 => std::array::from_fn(|_| random.below(FREQUENCIES + 1) as i16),
        _ => {
            let spread = 1 + random.below(1200);
            std::array::from_fn(|place| {
                1489 * (place as i16 + 1) + random.below(spread) as i16 - spread as i16 / 2
            })
        }
    };
    frequencies.sort();
    spectral::lsf_to_lsp(&frequencies).expect("frequencies within their range")
}

/// Gaps at their bounds or a little wider, of which one may be just below its bound.
fn about_bounds(random: &mut Random) -> Spectrum {
    let second = match random.below(4) {
        0 => SECONDS[random.below(SECONDS.len() as u64) as usize],
        1 => 30400 + random.below(2368) as i16,
        _ => random.below(32768) as i16 - 8000,
    };
    let mut gaps = wide_gaps(random, second);
    let gap = any_gap(random);
    let bound = match LOWER.contains(&gap) {
        true => match random.below(4) {
            0 => LOWER_BOUNDS[random.below(LOWER_BOUNDS.len() as u64) as usize],
            _ => lower_bound(second),
        },
        false => UPPER_BOUND,
    };
    match random.below(8) {
        0 => {}
        1 => gaps[gap] = random.below(1500) as i32,
        _ => gaps[gap] = i32::from(bound) + random.below(3) as i32 - 1,
    }
    of_gaps(random, second, gaps)
}

/// One of the gaps is beyond an end of a word.
fn clipped(random: &mut Random) -> Spectrum {
    let gap = any_gap(random);
    let is_above = random.below(2) == 0;
    let beyond = match random.below(4) {
        0 => 0,
        _ => random.below(9000) as i32,
    };
    let second = match is_above {
        true => 26000 + random.below(6768) as i16,
        false => -14000 - random.below(8000) as i16,
    };
    let mut gaps = wide_gaps(random, second);
    gaps[gap] = match is_above {
        true => 32768 + beyond,
        false => -32769 - beyond,
    };
    of_gaps(random, second, gaps)
}

fn any_gap(random: &mut Random) -> usize {
    LOWER.start + random.below((UPPER.end - LOWER.start) as u64) as usize
}

/// Gaps at their bounds, or all so much wider at most.
fn wide_gaps(random: &mut Random, second: i16) -> [i32; GAP_COUNT] {
    let wider = [1, 2, 3, 50, 300][random.below(5) as usize];
    std::array::from_fn(|gap| {
        let bound = match UPPER.contains(&gap) {
            true => UPPER_BOUND,
            false => lower_bound(second),
        };
        i32::from(bound) + random.below(wider) as i32
    })
}

/// The words with these gaps. The first and the last word are any, often at an end.
fn of_gaps(random: &mut Random, second: i16, gaps: [i32; GAP_COUNT]) -> Spectrum {
    let mut word = i32::from(second);
    let mut lsp = [second; LPC_ORDER];
    for gap in LOWER.start..UPPER.end {
        word -= gaps[gap];
        lsp[gap + 1] = clip16(word);
    }
    for place in [0, LPC_ORDER - 1] {
        lsp[place] = match random.below(4) {
            0 => i16::MIN,
            1 => i16::MAX,
            2 => lsp[place.clamp(1, LAST)],
            _ => random.word() as i16,
        };
    }
    lsp
}
