//! The cases that the comparison of the search must meet, found from the values inside the
//! published search.
//!
//! Its sums are done once more here, and what comes out is asserted to be what the published
//! functions answer.

use crate::{
    calls::{Call, Lists},
    codec::mr74::{
        energy::inverse_sqrt,
        pitch::search::{
            INTERPOLATOR, OpenLoopLag, SearchedPitch, Subframe, interpolate, multiply,
            normalized_correlation, product,
        },
    },
    counts::{Found, cases},
    search::Searcher,
    subframes::{ABSOLUTE_RADIUS, RELATIVE_RADIUS, Refusal, searched_start, window},
    sums::{Sum, clip32},
    upper::Upper,
    words::{HISTORY, SUBFRAME},
};

/// The lags on each side of the window that the interpolation needs.
const BESIDE_WINDOW: usize = 4;
const MAX_FRACTIONAL_LAG: usize = 84;
const ENERGY_LIMIT: i32 = 1 << 26;
const CORRELATIONS: usize = 148;

cases! {
    Uniform => "search of uniform words",
    Quiet => "search of words of a few units",
    Extreme => "search of extreme words",
    Speech => "search of words that resemble speech",
    Wished => "search of a target made at a wished lag",
    Limit => "search of words at the limit of the energy",
    Feed => "search of the feed",
    ChangedFeed => "search of the feed's words, changed",
    Absolute => "search in subframe 1 or 3",
    Relative => "search in subframe 2 or 4",
    Lag19 => "answered lag 19",
    Lag20 => "answered lag 20",
    Lag120 => "answered lag 120",
    Lag121 => "answered lag 121, less a third, of index 31",
    Lag143 => "answered lag 143",
    Lag144 => "answered lag 144",
    Index0 => "relative index 0",
    Index31 => "relative index 31",
    AbsoluteRaised => "start raised to 20 in subframe 1 or 3",
    AbsoluteLowered => "start lowered to 137 in subframe 1 or 3",
    AbsoluteLowered114 => "start lowered to 114 in subframe 1 or 3",
    Unlowered114 => "start 114 that is not lowered in subframe 1 or 3",
    RelativeRaised => "start raised to 20 in subframe 2 or 4",
    RelativeLowered => "start lowered to 134 in subframe 2 or 4",
    RelativeLowered111 => "start lowered to 111 in subframe 2 or 4",
    Unlowered111 => "start 111 that is not lowered in subframe 2 or 4",
    Centre120 => "window about open-loop lag 120",
    Beside120 => "open-loop lag 120 taken that no window is about",
    BelowStart => "answered lag start - 1",
    FarAboveStart => "answered lag start + 10",
    AbsoluteBelowStart => "absolute lag start - 1",
    AbsoluteAtStart => "absolute lag start",
    AbsoluteAboveEnd => "absolute lag start + 7",
    AbsoluteAbove84 => "absolute lag above 84",
    LagTie => "tie of whole lags",
    UnequalLagTie => "tie of whole lags where the window has other values too",
    FractionTie => "tie of fractions",
    UnequalFractionTie => "tie of fractions where others have other values",
    FractionMinusTwo => "fraction -2 turned to 1",
    FractionTwo => "fraction 2 turned to -1",
    Scaled => "filter scaled, energy above 2^26",
    Unscaled => "filter not scaled",
    EnergyAtLimit => "filter not scaled, energy exactly 2^26",
    EnergyAboveLimit => "filter scaled, energy 2^26 + 2, the next that there is",
    ConvolutionClip => "convolution sum clipped",
    ConvolutionEarly => "convolution sum that clipping only at its end would change",
    ConvolutionShift => "convolution sum clipped by its shift",
    EnergyClip => "energy clipped",
    TargetClip => "target sum clipped",
    TargetEarly => "target sum that clipping only at its end would change",
    CorrelationClip => "correlation clipped to a word",
    UpdateShift => "term of an update clipped by its shift, filter not scaled",
    ScaledUpdateShift => "term of an update clipped by its shift, filter scaled",
    UpdateClip => "addition of an update clipped, filter not scaled",
    ScaledUpdateClip => "addition of an update clipped, filter scaled",
    InterpolationClip => "interpolation sum clipped",
    InterpolationEarly => "interpolation sum that clipping only at its end would change",
    RoundingClip => "rounding of an interpolation clipped",
    Reset => "reset",
    ResetStart => "reset of a start that is not 0",
    KeptStart => "start that is not 0 kept by a refusal",
    KeptZero => "start 0 kept by a refusal",
    Refusal1 => "refusal 1",
    Refusal2 => "refusal 2",
    Refusal3 => "refusal 3",
    Refusal4 => "refusal 4",
    First121 => "refusal 3 of the first lag, 121",
    Second121 => "refusal 3 of the second lag, 121",
    From122 => "refusal 3 of a lag of 122 to 143",
}

impl Case {
    pub fn of_refusal(refusal: Refusal) -> Self {
        match refusal.number {
            1 => Self::Refusal1,
            2 => Self::Refusal2,
            3 => Self::Refusal3,
            _ => Self::Refusal4,
        }
    }

    /// Of a lag above the player's that is refused.
    pub fn of_refused_lag(refusal: Refusal, call: &Call) -> Option<Self> {
        let Refusal { number: 3, detail } = refusal else {
            return None;
        };
        let [first, _] = call.open_loop;
        match detail {
            121 if first == 121 => Some(Self::First121),
            121 => Some(Self::Second121),
            122..=143 => Some(Self::From122),
            _ => None,
        }
    }

    /// Of the start that a refusal keeps.
    pub fn of_kept(start: u16) -> Self {
        match start {
            0 => Self::KeptZero,
            _ => Self::KeptStart,
        }
    }

    /// Whether it tells where the words come from.
    pub fn is_source(self) -> bool {
        (self as usize) < Self::Absolute as usize
    }

    /// Whether only a feed can meet the case.
    pub fn needs_feed(self) -> bool {
        matches!(self, Self::Feed | Self::ChangedFeed)
    }

    /// Whether searches of this upper lag meet the case.
    pub fn is_of(self, upper: Upper) -> bool {
        match self {
            Self::Lag143 | Self::Lag144 | Self::AbsoluteLowered | Self::RelativeLowered => {
                upper == Upper::Handset
            }
            Self::Lag120
            | Self::Lag121
            | Self::AbsoluteLowered114
            | Self::Unlowered114
            | Self::RelativeLowered111
            | Self::Unlowered111
            | Self::Centre120
            | Self::Beside120
            | Self::First121
            | Self::Second121
            | Self::From122 => upper == Upper::Player,
            _ => true,
        }
    }
}

/// The high word of a long shifted to the left, and whether the shift clipped.
fn high_of_shifted(value: i32, places: u32) -> (i16, bool) {
    let exact = i64::from(value) << places;
    let clipped = clip32(exact);
    ((clipped >> 16) as i16, i64::from(clipped) != exact)
}

/// A search that the published Rust accepted.
pub struct Searched<'a> {
    /// The searcher before the call.
    pub before: &'a Searcher,
    pub lists: Lists<'a>,
    pub open_loop: [OpenLoopLag; 2],
    pub subframe: Subframe,
    pub answer: SearchedPitch,
}

impl Searched<'_> {
    pub fn cases(&self) -> Found<Case> {
        let mut found = Found::new();
        self.find_cases(&mut found);
        found
    }

    /// The start of the window.
    pub fn start(&self) -> u16 {
        searched_start(self.before, self.open_loop, self.subframe, self.answer)
    }

    fn find_cases(&self, found: &mut Found<Case>) {
        let absolute = self.subframe.absolute();
        found.case(Case::Absolute, absolute);
        found.case(Case::Relative, !absolute);
        let [start, end] = window(self.before, self.open_loop, self.subframe);
        let correlation = self.correlation(found, start - BESIDE_WINDOW, end + BESIDE_WINDOW);

        let window = &correlation[start..=end];
        let most = *window.iter().max().expect("a window of lags");
        let lag = start + window.iter().rposition(|&value| value == most).unwrap_or(0);
        let ties = window.iter().filter(|&&value| value == most).count();
        found.case(Case::LagTie, ties > 1);
        found.case(Case::UnequalLagTie, ties > 1 && ties < window.len());
        found.case(Case::AbsoluteAbove84, absolute && lag > MAX_FRACTIONAL_LAG);

        let thirds = if absolute && lag > MAX_FRACTIONAL_LAG {
            3 * lag as i16
        } else {
            3 * lag as i16 + fraction(found, &correlation, lag)
        };
        self.find_answer_cases(found, thirds);
        self.find_start_cases(found);
    }

    /// The cases of the answer, which is so many thirds of a sample.
    fn find_answer_cases(&self, found: &mut Found<Case>, thirds: i16) {
        let SearchedPitch { lag, index } = self.answer;
        let answered = 3 * lag.samples() as i16 + lag.fraction().thirds();
        assert_eq!(thirds, answered, "the lag that is found here");
        found.case(Case::Lag19, lag.samples() == 19);
        found.case(Case::Lag20, lag.samples() == 20);
        found.case(Case::Lag120, lag.samples() == 120);
        let less_a_third = lag.fraction().thirds() == -1;
        found.case(
            Case::Lag121,
            lag.samples() == 121 && less_a_third && index == 31,
        );
        found.case(Case::Lag143, lag.samples() == 143);
        found.case(Case::Lag144, lag.samples() == 144);
        let relative = !self.subframe.absolute();
        found.case(Case::Index0, relative && index == 0);
        found.case(Case::Index31, relative && index == 31);
    }

    /// The cases of the window's start, and of the answered lag beside it.
    fn find_start_cases(&self, found: &mut Found<Case>) {
        let absolute = self.subframe.absolute();
        let start = self.start();
        let centre = self.open_loop[self.subframe.half()].samples();
        let unheld = start + ABSOLUTE_RADIUS;
        let lowered = absolute && unheld < centre;
        let at_114 = absolute && start == 114;
        found.case(Case::AbsoluteRaised, absolute && unheld > centre);
        found.case(Case::AbsoluteLowered, lowered);
        found.case(Case::AbsoluteLowered114, at_114 && lowered);
        found.case(Case::Unlowered114, at_114 && !lowered);
        let about_120 = absolute && centre == 120;
        let any_120 = self.open_loop.iter().any(|lag| lag.samples() == 120);
        found.case(Case::Centre120, about_120);
        found.case(Case::Beside120, any_120 && !about_120);
        let centre = self.before.search.previous.samples();
        let unheld = start + RELATIVE_RADIUS;
        let lowered = !absolute && unheld < centre;
        let at_111 = !absolute && start == 111;
        found.case(Case::RelativeRaised, !absolute && unheld > centre);
        found.case(Case::RelativeLowered, lowered);
        found.case(Case::RelativeLowered111, at_111 && lowered);
        found.case(Case::Unlowered111, at_111 && !lowered);
        let lag = self.answer.lag.samples();
        found.case(Case::BelowStart, lag == start - 1);
        found.case(Case::FarAboveStart, lag == start + 10);
        found.case(Case::AbsoluteBelowStart, absolute && lag == start - 1);
        found.case(Case::AbsoluteAtStart, absolute && lag == start);
        found.case(Case::AbsoluteAboveEnd, absolute && lag == start + 7);
    }

    /// The correlations of these lags.
    fn correlation(
        &self,
        found: &mut Found<Case>,
        first: usize,
        last: usize,
    ) -> [i16; CORRELATIONS] {
        let mut filter = Filter::new(found, self.lists, first);
        let mut correlation = [0; CORRELATIONS];
        for (lag, value) in correlation.iter_mut().enumerate().take(last).skip(first) {
            *value = filter.correlation(found);
            filter.update(found, HISTORY - lag - 1);
        }
        correlation[last] = filter.correlation(found);
        let Lists {
            excitation,
            target,
            impulse,
        } = self.lists;
        let published = normalized_correlation(excitation, target, impulse, first, last);
        assert_eq!(correlation, published, "the correlations found here");
        correlation
    }
}

/// The excitation at a lag, filtered, and shifted right by so many places.
struct Filter<'a> {
    lists: Lists<'a>,
    words: [i16; SUBFRAME],
    scaling: u32,
}

impl<'a> Filter<'a> {
    fn new(found: &mut Found<Case>, lists: Lists<'a>, lag: usize) -> Self {
        let input = &lists.excitation[HISTORY - lag..][..SUBFRAME];
        let words = std::array::from_fn(|place| {
            let response = lists.impulse[..=place].iter().rev();
            let sum = Sum::of(input.iter().zip(response).map(|(&x, &h)| product(x, h)));
            let (word, clips) = high_of_shifted(sum.clipped, 3);
            found.case(Case::ConvolutionClip, sum.clips());
            found.case(Case::ConvolutionEarly, sum.clips_early());
            found.case(Case::ConvolutionShift, clips);
            word
        });
        let mut filter = Self {
            lists,
            words,
            scaling: 0,
        };
        let energy = filter.energy(found);
        found.case(Case::Scaled, energy > ENERGY_LIMIT);
        found.case(Case::Unscaled, energy <= ENERGY_LIMIT);
        found.case(Case::EnergyAtLimit, energy == ENERGY_LIMIT);
        found.case(Case::EnergyAboveLimit, energy == ENERGY_LIMIT + 2);
        if energy > ENERGY_LIMIT {
            filter.scaling = 2;
            filter.words = words.map(|word| word >> filter.scaling);
        }
        filter
    }

    fn energy(&self, found: &mut Found<Case>) -> i32 {
        let sum = Sum::of(self.words.iter().map(|&word| product(word, word)));
        found.case(Case::EnergyClip, sum.clips());
        sum.clipped
    }

    fn correlation(&self, found: &mut Found<Case>) -> i16 {
        let energy = self.energy(found);
        let pairs = self.words.iter().zip(self.lists.target);
        let sum = Sum::of(pairs.map(|(&word, &target)| product(word, target)));
        found.case(Case::TargetClip, sum.clips());
        found.case(Case::TargetEarly, sum.clips_early());
        let value = multiply(sum.clipped & !1, inverse_sqrt(energy) & !1);
        let (word, clips) = high_of_shifted(value, 16);
        found.case(Case::CorrelationClip, clips);
        word
    }

    /// Goes on to the next lag, at which the word of the excitation at this place comes first.
    fn update(&mut self, found: &mut Found<Case>, place: usize) {
        let first = self.lists.excitation[place];
        for j in (1..SUBFRAME).rev() {
            let term = product(first, self.lists.impulse[j]);
            let (term, clips) = high_of_shifted(term, 3 - self.scaling);
            let word = term.checked_add(self.words[j - 1]);
            self.words[j] = term.saturating_add(self.words[j - 1]);
            let [shift, addition] = if self.scaling == 0 {
                [Case::UpdateShift, Case::UpdateClip]
            } else {
                [Case::ScaledUpdateShift, Case::ScaledUpdateClip]
            };
            found.case(shift, clips);
            found.case(addition, word.is_none());
        }
        self.words[0] = first >> self.scaling;
    }
}

/// The fraction that the search chooses at this lag, -2 to 2.
fn fraction(found: &mut Found<Case>, correlation: &[i16; CORRELATIONS], lag: usize) -> i16 {
    let values = [-2, -1, 0, 1, 2].map(|fraction| interpolated(found, correlation, lag, fraction));
    let most = *values.iter().max().expect("five fractions");
    let ties = values.iter().filter(|&&value| value == most).count();
    let place = values.iter().position(|&value| value == most).unwrap_or(0);
    found.case(Case::FractionTie, ties > 1);
    found.case(Case::UnequalFractionTie, ties > 1 && ties < values.len());
    found.case(Case::FractionMinusTwo, place == 0);
    found.case(Case::FractionTwo, place == values.len() - 1);
    place as i16 - 2
}

fn interpolated(
    found: &mut Found<Case>,
    correlation: &[i16; CORRELATIONS],
    lag: usize,
    fraction: i16,
) -> i16 {
    const PHASES: usize = 6;
    let (centre, phase) = if fraction < 0 {
        (lag - 1, PHASES - 2 * usize::from(fraction.unsigned_abs()))
    } else {
        (lag, 2 * usize::from(fraction.unsigned_abs()))
    };
    let sum = Sum::of((0..BESIDE_WINDOW).flat_map(|i| {
        let before = INTERPOLATOR[phase + i * PHASES];
        let after = INTERPOLATOR[PHASES - phase + i * PHASES];
        [
            product(correlation[centre - i], before),
            product(correlation[centre + 1 + i], after),
        ]
    }));
    let rounded = sum.clipped.checked_add(1 << 15);
    found.case(Case::InterpolationClip, sum.clips());
    found.case(Case::InterpolationEarly, sum.clips_early());
    found.case(Case::RoundingClip, rounded.is_none());
    let value = (rounded.unwrap_or(i32::MAX) >> 16) as i16;
    let published = interpolate(correlation, lag, fraction);
    assert_eq!(value, published, "the interpolation found here");
    value
}
