//! The cases that the comparison of the detector must meet, found from the values inside the
//! published push.
//!
//! Its steps are done once more here, and what comes out is asserted to be what the published text
//! answers.
//!
//! Two clips of the published push have no case, since no words reach them. The left shift cannot
//! clip a word: below a total energy of 1048576 no word is above 724 in magnitude. And the cut to 16
//! bits changes no section's long: the correlation is at most the root of the new words' energy
//! times the root of the delayed words' energy, and the long is about half of it divided by the
//! latter, so half the former. That is at most about 23170 where no word was shifted right, the
//! squares of the new words being below 2^30, and about 25906 where each of them is at most 4096 in
//! magnitude. longs.rs checks the longs of every push.

use super::{HALF_FRAME, HISTORY, LAGS, LEAST_LAG, pushes::Push};
use crate::{
    codec::mr74::{
        energy::inverse_sqrt,
        pitch::open_loop::{candidate, fractional, multiply, product, shift_word},
    },
    counts::{Found, cases},
    published::{open_loop_candidate, open_loop_correlation, open_loop_scaled},
    sums::Sum,
};
use std::ops::RangeInclusive;

const INPUT: usize = HISTORY + HALF_FRAME;
const LOW_LIMIT: i32 = 1 << 20;
const FACTOR: i32 = 27853;

/// The sections in the order in which the push looks at them.
const SECTIONS: [RangeInclusive<usize>; 3] = [80..=143, 40..=79, 20..=39];

cases! {
    Noise => "push of random words of any loudness",
    Extreme => "push of extreme words",
    Speech => "push of words that resemble speech",
    Periodic => "push of periodic words",
    Ties => "push of words made to tie",
    Limit => "push of words at a limit of the total energy",
    FullScale => "push of words of full scale that repeat or turn earlier ones",
    Threshold => "push of words about the threshold of a later section",
    Levels => "push of words about a level",
    Greatest => "push of words about a level, or of those of full scale behind them",
    Feed => "push of the feed",
    ChangedFeed => "push of the feed's words, changed",
    Section1 => "answer in section 80 to 143",
    Section2 => "answer in section 40 to 79",
    Section3 => "answer in section 20 to 39",
    Lag20 => "answered lag 20",
    Lag39 => "answered lag 39",
    Lag40 => "answered lag 40",
    Lag79 => "answered lag 79",
    Lag80 => "answered lag 80",
    Lag143 => "answered lag 143",
    Tie1 => "tie in section 80 to 143, which decides",
    Tie2 => "tie in section 40 to 79, which decides",
    Tie3 => "tie in section 20 to 39, which decides",
    UnequalTie1 => "tie in section 80 to 143, which decides and has other values too",
    UnequalTie2 => "tie in section 40 to 79, which decides and has other values too",
    UnequalTie3 => "tie in section 20 to 39, which decides and has other values too",
    ClippedTie => "tie in the section that decides of sums that differ before the clip",
    Replaces2 => "section 40 to 79 replaces 80 to 143",
    Stays2 => "section 40 to 79 does not replace",
    Replaces3 => "section 20 to 39 replaces 80 to 143",
    Replaces3After2 => "section 20 to 39 replaces 40 to 79",
    Stays3 => "section 20 to 39 does not replace 80 to 143",
    Stays3After2 => "section 20 to 39 does not replace 40 to 79",
    AtThreshold2 => "section 40 to 79 exactly at its threshold, which is not 0",
    AtThreshold3 => "section 20 to 39 exactly at its threshold, which is not 0",
    AboveThreshold2 => "section 40 to 79 one above its threshold, which is not 0",
    AboveThreshold3 => "section 20 to 39 one above its threshold, which is not 0",
    SmallerFactor => "section that does not replace, but would by 27852",
    GreaterFactor => "section that replaces, but would not by 27854",
    NegativeStays => "section that does not replace a negative value",
    NegativeReplaces => "section that replaces a negative value",
    TowardZero => "section that replaces, but would not by rounding toward zero",
    Right => "words shifted right, total energy at the clip",
    Left => "words shifted left, total energy below 1048576",
    Unshifted => "words not shifted",
    LowBelow => "total energy 1048574, the last that is shifted left",
    LowAt => "total energy 1048576, the first that is not shifted",
    ClipBelow => "total energy 2147483646, the last that is not shifted",
    ClipAt => "total energy 2147483648 before the clip, the first that is shifted right",
    LowBelowMatters => "total energy 1048574, where no shift answers another lag",
    LowAtMatters => "total energy 1048576, where the left shift answers another lag",
    ClipBelowMatters => "total energy 2147483646, where the right shift answers another lag",
    ClipAtMatters => "total energy 2147483648, where no shift answers another lag",
    DelayedClip => "delayed energy clipped",
    DelayedZero => "delayed energy 0",
    Negative1 => "best correlation of section 80 to 143 negative",
    Negative2 => "best correlation of section 40 to 79 negative",
    Negative3 => "best correlation of section 20 to 39 negative",
    Top => "correlation that is clipped at the upper end and stays there",
    Bottom => "correlation that is clipped at the lower end and stays there",
    BackFromTop => "correlation that is clipped at the upper end and comes back",
    BackFromBottom => "correlation that is clipped at the lower end and comes back",
    Early => "best correlation of a section that clipping only at its end would change",
    AllAtBottom => "every correlation of section 80 to 143 at the lower end",
    Reset => "reset",
    RefusedSamples => "refusal 1, by the length of the samples",
    RefusedHistory => "refusal 1, by the length of the history",
    RefusedBoth => "refusal 1, by the length of the samples, that of the history wrong too",
}

impl Case {
    /// What a push that is refused counts as.
    pub fn of_refused(push: &Push) -> Self {
        let samples = push.samples.len() != HALF_FRAME;
        let history = push.history_length != HISTORY;
        match (samples, history) {
            (true, true) => Self::RefusedBoth,
            (true, false) => Self::RefusedSamples,
            _ => Self::RefusedHistory,
        }
    }

    /// Whether the recorded sample does not meet the case: no record of a feed is refused, and the
    /// sample has no chain made for the greatest longs.
    pub fn is_unrecorded(self) -> bool {
        matches!(
            self,
            Self::RefusedSamples | Self::RefusedHistory | Self::RefusedBoth | Self::Greatest
        )
    }

    /// Whether it tells where the words come from, in the chains of any source.
    pub fn is_source(self) -> bool {
        (self as usize) < Self::Section1 as usize && !matches!(self, Self::Greatest)
    }

    /// Whether only a feed can meet the case.
    pub fn needs_feed(self) -> bool {
        matches!(self, Self::Feed | Self::ChangedFeed)
    }
}

/// A push that the published Rust answered.
pub struct Pushed<'a> {
    /// The history before the push.
    pub before: &'a [i16; HISTORY],
    pub samples: &'a [i16; HALF_FRAME],
    pub lag: u16,
}

/// The cases that a push met.
pub struct PushedCases {
    pub found: Found<Case>,
    /// The sections' values before they are cut to 16 bits.
    pub longs: [i32; SECTIONS.len()],
}

impl Pushed<'_> {
    pub fn cases(&self) -> PushedCases {
        let mut found = Found::new();
        let input = self.input();
        let scaled = find_scaling(&mut found, &input, self.lag);
        let correlations = Correlations::find(&mut found, &scaled);
        let sections = correlations.sections(&scaled);
        for (number, section) in sections.iter().enumerate() {
            correlations.find_section_cases(&mut found, &scaled, number, section);
        }
        let decides = find_choice(&mut found, &sections);
        assert_eq!(
            sections[decides].lag,
            usize::from(self.lag),
            "the lag found here"
        );
        correlations.find_answer_cases(&mut found, decides, self.lag);
        PushedCases {
            found,
            longs: sections.map(|section| section.long),
        }
    }

    fn input(&self) -> [i16; INPUT] {
        let mut input = [0; INPUT];
        input[..HISTORY].copy_from_slice(self.before);
        input[HISTORY..].copy_from_slice(self.samples);
        input
    }
}

#[derive(Clone, Copy, PartialEq, Eq)]
enum Scaling {
    Right,
    Left,
    Unshifted,
}

impl Scaling {
    fn of(self, input: &[i16; INPUT]) -> [i16; INPUT] {
        match self {
            Self::Right => input.map(|word| word >> 3),
            Self::Left => input.map(|word| shift_word(word, 3)),
            Self::Unshifted => *input,
        }
    }
}

/// The words as they are shifted.
fn find_scaling(found: &mut Found<Case>, input: &[i16; INPUT], lag: u16) -> [i16; INPUT] {
    let total = Sum::of(input.iter().map(|&word| product(word, word)));
    let scaling = match total.clipped {
        i32::MAX => Scaling::Right,
        energy if energy < LOW_LIMIT => Scaling::Left,
        _ => Scaling::Unshifted,
    };
    found.case(Case::Right, scaling == Scaling::Right);
    found.case(Case::Left, scaling == Scaling::Left);
    found.case(Case::Unshifted, scaling == Scaling::Unshifted);

    // All energies are even but the one at the clip, so there are none between these.
    let exact: i64 = input.iter().map(|&word| 2 * i64::from(word).pow(2)).sum();
    let borders = [
        (1_048_574, Case::LowBelow, Case::LowBelowMatters),
        (1_048_576, Case::LowAt, Case::LowAtMatters),
        (2_147_483_646, Case::ClipBelow, Case::ClipBelowMatters),
        (2_147_483_648, Case::ClipAt, Case::ClipAtMatters),
    ];
    for (energy, case, matters) in borders {
        if exact == energy {
            let other = match case {
                Case::LowAt => Scaling::Left,
                Case::ClipBelow => Scaling::Right,
                _ => Scaling::Unshifted,
            };
            found.case(case, true);
            found.case(matters, answer(&other.of(input)) != usize::from(lag));
        }
    }

    let scaled = scaling.of(input);
    assert_eq!(scaled, open_loop_scaled(*input), "the words shifted here");
    scaled
}

/// The lag that words answer which are shifted already.
fn answer(scaled: &[i16; INPUT]) -> usize {
    let mut found = Found::new();
    let sections = Correlations::find(&mut found, scaled).sections(scaled);
    sections[find_choice(&mut found, &sections)].lag
}

/// The best lag of a section, and its value before and after the cut to 16 bits.
struct Section {
    lag: usize,
    long: i32,
    value: i16,
}

/// The correlations of all lags, and the sums that they are before any clip.
struct Correlations {
    clipped: [i32; LAGS],
    exact: [i64; LAGS],
    /// Whether clipping only at the end would give another.
    early: [bool; LAGS],
}

impl Correlations {
    fn find(found: &mut Found<Case>, scaled: &[i16; INPUT]) -> Self {
        // 80 products of words up to this magnitude are not clipped, in whatever order.
        const QUIET: u16 = 3663;
        let clipped = open_loop_correlation(scaled);
        let mut correlations = Self {
            clipped,
            exact: clipped.map(i64::from),
            early: [false; LAGS],
        };
        if scaled.iter().any(|word| word.unsigned_abs() > QUIET) {
            correlations.find_clips(found, scaled);
        }
        correlations
    }

    fn find_clips(&mut self, found: &mut Found<Case>, scaled: &[i16; INPUT]) {
        let new = &scaled[HISTORY..];
        for lag in LEAST_LAG..LAGS {
            let pairs = new.iter().zip(delayed(scaled, lag));
            let sum = Sum::of(pairs.map(|(&a, &b)| product(a, b)));
            let clipped = self.clipped[lag];
            assert_eq!(sum.clipped, clipped, "the correlation found here");
            found.case(Case::Top, sum.clips_above && clipped == i32::MAX);
            found.case(Case::Bottom, sum.clips_below && clipped == i32::MIN);
            found.case(Case::BackFromTop, sum.clips_above && clipped != i32::MAX);
            found.case(Case::BackFromBottom, sum.clips_below && clipped != i32::MIN);
            self.exact[lag] = sum.exact;
            self.early[lag] = sum.clips_early();
        }
        let mut first = SECTIONS[0].clone();
        let bottom = first.all(|lag| self.clipped[lag] == i32::MIN);
        found.case(Case::AllAtBottom, bottom);
    }

    fn sections(&self, scaled: &[i16; INPUT]) -> [Section; 3] {
        SECTIONS.map(|lags| {
            let (first, last) = lags.into_inner();
            let (_, long) = open_loop_candidate(scaled, &self.clipped, first, last);
            let (lag, value) = candidate(scaled, &self.clipped, first, last);
            Section { lag, long, value }
        })
    }

    /// The lags of a section that have its best correlation, the shortest first.
    fn best(&self, number: usize) -> Vec<usize> {
        let lags = SECTIONS[number].clone();
        let best = lags.clone().map(|lag| self.clipped[lag]).max();
        lags.filter(|&lag| Some(self.clipped[lag]) == best)
            .collect()
    }

    fn find_section_cases(
        &self,
        found: &mut Found<Case>,
        scaled: &[i16; INPUT],
        number: usize,
        section: &Section,
    ) {
        let lag = self.best(number)[0];
        assert_eq!(lag, section.lag, "the best lag found here");
        let best = self.clipped[lag];
        let delayed = delayed(scaled, lag);
        let energy = Sum::of(delayed.iter().map(|&word| product(word, word)));
        found.case(Case::DelayedClip, energy.clips());
        found.case(Case::DelayedZero, energy.clipped == 0);
        found.case(Case::Early, self.early[lag]);
        let negative = [Case::Negative1, Case::Negative2, Case::Negative3];
        found.case(negative[number], best < 0);

        let long = multiply(best & !1, inverse_sqrt(energy.clipped) & !1);
        assert_eq!(
            (long, long as i16),
            (section.long, section.value),
            "the section's long and value found here"
        );
    }

    /// The cases of the answer, which is in the section of this number.
    fn find_answer_cases(&self, found: &mut Found<Case>, number: usize, lag: u16) {
        let best = self.best(number);
        let tie = best.len() > 1;
        let unequal = tie && best.len() < SECTIONS[number].clone().count();
        let (section, ties, unequal_ties) = [
            (Case::Section1, Case::Tie1, Case::UnequalTie1),
            (Case::Section2, Case::Tie2, Case::UnequalTie2),
            (Case::Section3, Case::Tie3, Case::UnequalTie3),
        ][number];
        found.case(section, true);
        found.case(ties, tie);
        found.case(unequal_ties, unequal);
        let exact = best.iter().map(|&lag| self.exact[lag]);
        found.case(Case::ClippedTie, exact.clone().min() != exact.max());
        for (case, answered) in [
            (Case::Lag20, 20),
            (Case::Lag39, 39),
            (Case::Lag40, 40),
            (Case::Lag79, 79),
            (Case::Lag80, 80),
            (Case::Lag143, 143),
        ] {
            found.case(case, lag == answered);
        }
    }
}

/// The words that stand so far before the new ones.
fn delayed(scaled: &[i16; INPUT], lag: usize) -> &[i16] {
    &scaled[HISTORY - lag..][..HALF_FRAME]
}

/// What a section's value must be above to replace one that is held, by a factor with 15 fraction
/// bits.
fn threshold(factor: i32, held: i16) -> i32 {
    (factor * i32::from(held)).div_euclid(1 << 15)
}

/// The number of the section that decides.
fn find_choice(found: &mut Found<Case>, sections: &[Section; 3]) -> usize {
    let mut decides = 0;
    for number in 1..sections.len() {
        let held = sections[decides].value;
        let value = i32::from(sections[number].value);
        let least = threshold(FACTOR, held);
        let published = fractional(held, FACTOR as i16);
        assert_eq!(least, i32::from(published), "the threshold found here");
        let replaces = least < value;

        let third = number == 2;
        let [at, above] = if third {
            [Case::AtThreshold3, Case::AboveThreshold3]
        } else {
            [Case::AtThreshold2, Case::AboveThreshold2]
        };
        found.case(at, least != 0 && value == least);
        found.case(above, least != 0 && value == least + 1);
        let by = |factor| threshold(factor, held) < value;
        found.case(Case::SmallerFactor, !replaces && by(FACTOR - 1));
        found.case(Case::GreaterFactor, replaces && !by(FACTOR + 1));
        let toward_zero = FACTOR * i32::from(held) / (1 << 15);
        found.case(Case::TowardZero, replaces && toward_zero >= value);
        found.case(Case::NegativeStays, held < 0 && !replaces);
        found.case(Case::NegativeReplaces, held < 0 && replaces);
        let [stays, taken] = match (third, decides) {
            (false, _) => [Case::Stays2, Case::Replaces2],
            (true, 0) => [Case::Stays3, Case::Replaces3],
            (true, _) => [Case::Stays3After2, Case::Replaces3After2],
        };
        found.case(stays, !replaces);
        found.case(taken, replaces);
        if replaces {
            decides = number;
        }
    }
    decides
}
