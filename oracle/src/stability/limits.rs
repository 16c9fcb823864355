//! The comparison of `watch_limit`: limits of drawn watches.
//!
//! Where the sum counts, the eighth is positive, and a sum that starts with it is never above the
//! one that ends with it: a clip at the upper end takes away some of what is added before it. So
//! adding the eighth last would change no resonance limit.

use super::{BOUND, EIGHTH, GAINS, Gains, RESONANT, TABLE, Watch, limit_answer};
use crate::{
    codec::mr74::gain::quantization::GainLimit,
    compare::{Line, in_threads},
    counts::{Cases, Found, cases},
    gain::choice,
    inputs::Random,
    project::watch_limit,
    refusals::add_counts,
    sums::clip16,
    words::uniform,
};

const LIMITS: u64 = 4_000_000;

cases! {
    Sum15564 => "sum 15564, unrestricted by it alone",
    Sum15565 => "sum 15565, unrestricted by it alone",
    Sum15566 => "sum 15566, resonance",
    Pitch15564 => "pitch gain 15564, unrestricted by it alone",
    Pitch15565 => "pitch gain 15565, unrestricted by it alone",
    Pitch15566 => "pitch gain 15566, resonance",
    PitchGreatest => "pitch gain 32767, resonance",
    PitchNegative => "negative pitch gain, unrestricted by it alone",
    PitchLeast => "pitch gain -32768, unrestricted by it alone",
    CountBelow => "count below 11, unrestricted by it alone",
    Count11 => "count 11, unrestricted by it alone",
    Count12 => "count 12, resonance",
    CountAbove => "count above 12, resonance",
    CountGreatest => "count 255, resonance",
    ClipsAbove => "sum clipped at the upper end",
    ClipsBelow => "sum clipped at the lower end",
    LateUnrestricted => "unrestricted, as clipping the sum only at its end would not be",
    LateResonance => "resonance, as clipping the sum only at its end would not be",
    ReversedUnrestricted => "unrestricted, as summing from the newest on would not be",
    ReversedResonance => "resonance, as summing from the newest on would not be",
    EighthLastMatters => "unrestricted, as adding the eighth last would not be",
    RoundedMatters => "limit that rounding the eighth would change",
    OldestMatters => "limit that leaving the oldest gain out would change",
    NewestMatters => "limit that leaving the newest gain out would change",
    EighthMatters => "limit that leaving the eighth out would change",
}

/// How watches are drawn, each with the texts of both limits among its answers.
macro_rules! sources {
    ($($source:literal),+) => {
        [$([
            concat!("unrestricted limit of ", $source),
            concat!("resonance limit of ", $source),
        ]),+]
    };
}

pub const SOURCES: usize = 5;
const SOURCE_TEXTS: [[&str; 2]; SOURCES] = sources!(
    "gains whose sum is 15564 to 15566",
    "gains whose sum is clipped",
    "a pitch gain of 15564 to 15566",
    "eighths of the table's pitch gains",
    "any words"
);

/// What the limit is chosen by.
#[derive(Debug, Clone, Copy)]
pub struct Watched {
    pub pitch_gain: i16,
    pub count: u8,
    pub gains: Gains,
}

impl Watched {
    /// The published watch of these numbers.
    pub fn watch(&self) -> Watch {
        Watch::of(self.count, self.gains)
    }

    /// The published limit.
    pub fn limit(&self) -> GainLimit {
        self.watch().limit(self.pitch_gain)
    }

    fn eighth(&self) -> i16 {
        self.pitch_gain >> EIGHTH
    }

    /// The eighth and the gains, clipped after each addition.
    pub fn sum(&self) -> i16 {
        summed(self.eighth(), &self.gains)
    }

    /// The limit by another sum.
    fn limit_by(&self, sum: i16) -> GainLimit {
        match self.count >= RESONANT && self.pitch_gain > BOUND && sum > BOUND {
            true => GainLimit::Resonance,
            false => GainLimit::Unrestricted,
        }
    }

    /// The cases of a published limit. The sum is found once more here.
    pub fn cases(&self, limit: GainLimit) -> Found<Case> {
        let mut found = Found::new();
        let Self {
            pitch_gain,
            count,
            gains,
        } = *self;
        let eighth = self.eighth();
        let sum = self.sum();
        assert_eq!(self.limit_by(sum), limit, "the limit found here");
        let [mut above, mut below] = [false; 2];
        for place in 0..GAINS {
            let before = summed(eighth, &gains[..place]);
            let exact = i32::from(before) + i32::from(gains[place]);
            above |= exact > i16::MAX.into();
            below |= exact < i16::MIN.into();
        }
        found.case(Case::ClipsAbove, above);
        found.case(Case::ClipsBelow, below);

        let is_resonance = limit == GainLimit::Resonance;
        let [by_count, by_pitch, by_sum] = [count >= RESONANT, pitch_gain > BOUND, sum > BOUND];
        for (case, value) in [(Case::Sum15564, 15564), (Case::Sum15565, 15565)] {
            found.case(case, sum == value && by_count && by_pitch);
        }
        found.case(Case::Sum15566, sum == 15566 && is_resonance);
        let alone = by_count && by_sum;
        found.case(Case::Pitch15564, pitch_gain == 15564 && alone);
        found.case(Case::Pitch15565, pitch_gain == 15565 && alone);
        found.case(Case::Pitch15566, pitch_gain == 15566 && is_resonance);
        found.case(Case::PitchGreatest, pitch_gain == i16::MAX && is_resonance);
        found.case(Case::PitchNegative, pitch_gain < 0 && alone);
        found.case(Case::PitchLeast, pitch_gain == i16::MIN && alone);
        let alone = by_pitch && by_sum;
        found.case(Case::CountBelow, count < 11 && alone);
        found.case(Case::Count11, count == 11 && alone);
        found.case(Case::Count12, count == 12 && is_resonance);
        found.case(Case::CountAbove, count > 12 && is_resonance);
        found.case(Case::CountGreatest, count == u8::MAX && is_resonance);

        let exact = i32::from(eighth) + gains.iter().map(|&gain| i32::from(gain)).sum::<i32>();
        let of = |first, gains: &[i16]| self.limit_by(summed(first, gains));
        let mut reversed = gains;
        reversed.reverse();
        for (other, unrestricted, resonance) in [
            (
                self.limit_by(clip16(exact)),
                Case::LateUnrestricted,
                Case::LateResonance,
            ),
            (
                of(eighth, &reversed),
                Case::ReversedUnrestricted,
                Case::ReversedResonance,
            ),
        ] {
            let case = if is_resonance {
                resonance
            } else {
                unrestricted
            };
            found.case(case, other != limit);
        }
        let rounded = ((i32::from(pitch_gain) + 4) >> EIGHTH) as i16;
        for (case, other) in [
            (
                Case::EighthLastMatters,
                self.limit_by(summed(0, &gains).saturating_add(eighth)),
            ),
            (Case::RoundedMatters, of(rounded, &gains)),
            (Case::OldestMatters, of(eighth, &gains[1..])),
            (Case::NewestMatters, of(eighth, &gains[..GAINS - 1])),
            (Case::EighthMatters, of(0, &gains)),
        ] {
            found.case(case, other != limit);
        }
        found
    }

    /// A watch that is drawn in any way.
    pub fn any(random: &mut Random) -> Self {
        let source = random.below(SOURCES as u64) as usize;
        Self::drawn(random, source)
    }

    /// A watch that is drawn in the way of this number.
    pub fn drawn(random: &mut Random, source: usize) -> Self {
        match source {
            0 => Self::of_sum(random),
            1 => Self::with_gains(random, clipping_gains),
            2 => {
                let pitch_gain = BOUND - 1 + random.below(3) as i16;
                let gains = row_gains(random).map(|gain| gain.saturating_add(1000));
                Self::with_count(random, pitch_gain, gains)
            }
            3 => Self::of_rows(random),
            _ => Self::with_gains(random, uniform),
        }
    }

    /// Gains that a watch comes to by rows.
    pub fn of_rows(random: &mut Random) -> Self {
        Self::with_gains(random, row_gains)
    }

    fn with_gains(random: &mut Random, gains: fn(&mut Random) -> Gains) -> Self {
        let pitch_gain = pitch_gain(random);
        let gains = gains(random);
        Self::with_count(random, pitch_gain, gains)
    }

    fn with_count(random: &mut Random, pitch_gain: i16, gains: Gains) -> Self {
        Self {
            pitch_gain,
            count: count(random),
            gains,
        }
    }

    /// Gains that bring the eighth to a sum about the bound, without a clip.
    fn of_sum(random: &mut Random) -> Self {
        let pitch_gain = pitch_gain(random);
        let sum = i32::from(BOUND) - 1 + random.below(3) as i32;
        let least = [0, -3000][random.below(2) as usize];
        loop {
            let mut gains: Gains = [(); GAINS].map(|()| least + random.below(5000) as i16);
            let place = random.below(GAINS as u64) as usize;
            gains[place] = 0;
            let others: i32 = gains.iter().map(|&gain| i32::from(gain)).sum();
            let rest = sum - i32::from(pitch_gain >> EIGHTH) - others;
            if let Ok(rest) = i16::try_from(rest) {
                gains[place] = rest;
                return Self::with_count(random, pitch_gain, gains);
            }
        }
    }
}

fn summed(first: i16, gains: &[i16]) -> i16 {
    gains
        .iter()
        .fold(first, |sum, gain| sum.saturating_add(*gain))
}

/// A pitch gain that is mostly above the bound.
pub fn pitch_gain(random: &mut Random) -> i16 {
    match random.below(16) {
        0 => random.word() as i16,
        1 => [i16::MIN, -1, 0, i16::MAX][random.below(4) as usize],
        2 => BOUND - 1 + random.below(3) as i16,
        3..10 => BOUND + 1 + random.below(4096) as i16,
        _ => BOUND + 1 + random.below((i16::MAX - BOUND) as u64) as i16,
    }
}

/// A count that is mostly 12.
fn count(random: &mut Random) -> u8 {
    match random.below(16) {
        0 => random.word() as u8,
        1 => random.below(11) as u8,
        2 | 3 => 11,
        4 => 13,
        5 => u8::MAX,
        _ => RESONANT,
    }
}

/// Eighths of the table's pitch gains, mostly of the greater ones.
fn row_gains(random: &mut Random) -> Gains {
    let least = least_row(random);
    [(); GAINS].map(|()| row_gain(random, least) >> EIGHTH)
}

/// The first of the rows that are drawn from.
fn least_row(random: &mut Random) -> usize {
    const GREATER: usize = 64;
    [0, GREATER][random.below(2) as usize]
}

/// A pitch gain of the table's rows from this one on.
fn row_gain(random: &mut Random, least: usize) -> i16 {
    let row = least + random.below((TABLE.len() - least) as u64) as usize;
    TABLE[row][0]
}

/// A pitch gain to be stored: mostly a row's.
pub fn stored_gain(random: &mut Random) -> i16 {
    match random.below(4) {
        0 => pitch_gain(random),
        _ => {
            let least = least_row(random);
            row_gain(random, least)
        }
    }
}

/// Gains at an end of a word or far out, with smaller ones between them.
fn clipping_gains(random: &mut Random) -> Gains {
    [(); GAINS].map(|()| match random.below(4) {
        0 => i16::MAX - random.below(8000) as i16,
        1 => i16::MIN + random.below(8000) as i16,
        2 => random.word() as i16,
        _ => (random.word() as i16) >> 2,
    })
}

struct Tally {
    answers: Line,
    cases: Cases<Case>,
    sources: [[u64; 2]; SOURCES],
}

impl Tally {
    fn new() -> Self {
        Self {
            answers: Line::new("encoder_stability.rs"),
            cases: Cases::new(),
            sources: [[0; 2]; SOURCES],
        }
    }

    fn add(&mut self, part: Self) {
        self.answers.add(part.answers);
        self.cases.add(part.cases);
        add_counts(self.sources.as_flattened_mut(), part.sources.as_flattened());
    }
}

pub fn compare_limits() -> Vec<Line> {
    let mut tally = Tally::new();
    let parts = in_threads(LIMITS, Tally::new, |tally, indexes| {
        indexes.for_each(|index| compare_limit(tally, index));
    });
    parts.into_iter().for_each(|part| tally.add(part));
    let mut cases = tally.cases.counts(|_| true);
    let sources = SOURCE_TEXTS.as_flattened().iter();
    let sources = sources.zip(tally.sources.as_flattened());
    cases.extend(sources.map(|(&text, &count)| (text, count)));
    vec![tally.answers, Line::of_cases(cases)]
}

fn compare_limit(tally: &mut Tally, index: u64) {
    let random = &mut Random::at(index);
    let source = index as usize % SOURCES;
    let watched = Watched::drawn(random, source);
    let ours = watch_limit(watched.pitch_gain, watched.count, &watched.gains);
    let limit = watched.limit();
    tally.cases.count_found(&watched.cases(limit));
    tally.sources[source][usize::from(choice(limit))] += 1;
    tally
        .answers
        .compare(index, &watched, &ours, &limit_answer(Ok(limit)));
}
