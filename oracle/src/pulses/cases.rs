//! The cases that the comparison of the pulse search must meet, found from the values inside the
//! published search.
//!
//! Its steps are done once more here, and what comes out is asserted to be what the published
//! functions answer.
//!
//! Some clips of the published search have no case, since no words reach them. The normalized
//! impulse response is at most 0.99 in its energy, so neither it nor a sum of its products is
//! clipped: only those of the halved one are. In the choice no word of the matrix is above 32767, so
//! the first energy is at most 32767 and the second 18431, and the sum of none of the three is above
//! 65534 times 32768. Nor can the clip of a difference in a comparison change its sign.

use super::{
    PULSES, TRACKS,
    calls::{Call, places},
    choice::{Choice, sorted},
    matrix::{Impulse, Rounding},
    starts::{Rule, starts},
};
use crate::{
    codec::mr74::codebook::search::{
        SearchResult, fix_signs, fractional, impulse_correlation, normalize, product, rounded,
        scaled, select, sharpen, target_correlation,
    },
    counts::{Found, cases},
    sums::{Sum, clip16},
    words::SUBFRAME,
};

cases! {
    Lag19 => "lag 19",
    Lag20 => "lag 20",
    Lag39 => "lag 39",
    Lag40 => "lag 40",
    LagAbove40 => "lag above 40",
    Lag144 => "lag 144",
    DoubledAbove => "gain whose double is clipped at the upper end",
    DoubledBelow => "gain whose double is clipped at the lower end",
    DoubledMatters => "impulse response that a double without a clip would sharpen otherwise",
    SharpenedAbove => "sharpening whose sum is clipped at the upper end",
    SharpenedBelow => "sharpening whose sum is clipped at the lower end",
    Floor => "sharpening whose product is clipped, -32768 by -32768",
    FloorMatters => "sharpening that its product without a clip would change",
    SharpenedToZero => "sharpening that rounding toward zero would change",
    RaisedTwice => "sharpening that taking the words before it would change",
    CorrelationAbove => "target correlation clipped at the upper end",
    CorrelationBelow => "target correlation clipped at the lower end",
    CorrelationEarly => "target correlation that clipping only at its end would change",
    TotalClip => "total of the correlations clipped",
    ShiftDown => "correlations shifted right by 1",
    ShiftNone => "correlations not shifted",
    ShiftUp => "correlations shifted left",
    TotalStart => "total that a start at 0 would normalize otherwise",
    TotalStartMatters => "pulses that a start of the total at 0 would change",
    ZeroWord => "correlation word 0",
    NegativeZero => "correlation word 0 of a negative sum",
    LeastWord => "correlation word -32768",
    GreatestWord => "correlation word 32767",
    DropTie => "tie in the drop",
    DropTieMatters => "tie in the drop, where dropping the higher place would change the pulses",
    Greatest => "magnitude 32767 that is not found smallest",
    GreatestMatters => "magnitude 32767 that would change the pulses if it were found smallest",
    NoneFirst => "none found smallest at the very first drop",
    NoneFirstMatters => "none found at the very first drop, where keeping place 0 would change the pulses",
    NoneLater => "none found smallest after others of the track",
    NoneOfTrack => "none found smallest in a whole track but the first",
    NoneOfTrackMatters => "none found in a whole track, where dropping its first place would change the pulses",
    Halved => "impulse response halved",
    Normalized => "impulse response normalized",
    EnergyClip => "energy of the impulse response clipped",
    EnergyBelow => "energy 2147418110, the last that is normalized",
    EnergyBelowMatters => "energy 2147418110, where halving would change the pulses",
    EnergyAt => "energy 2147418112, the first that is halved",
    EnergyAtMatters => "energy 2147418112, where normalizing would change the pulses",
    EnergyLast => "energy 2147483646, the last that is not clipped",
    EnergyFirstClip => "energy 2147483648 before the clip",
    RootClip => "inverse root clipped by its shift",
    RootNoClip => "inverse root not clipped by its shift",
    DiagonalClip => "sum of squares in the matrix clipped",
    CrossAbove => "sum of products in the matrix clipped at the upper end",
    CrossBelow => "sum of products in the matrix clipped at the lower end",
    CrossEarly => "sum of products in the matrix that clipping only at its end would change",
    MatrixToZero => "matrix where rounding toward zero would change the pulses",
    LastTrack3 => "last pulse in track 3",
    LastTrack4 => "last pulse in track 4",
    Start0 => "pulses that start in track 0",
    Start1 => "pulses that start in track 1",
    Start2 => "pulses that start in track 2",
    StartLast => "pulses that start in the last track",
    SumClip => "sum of correlations in the choice clipped",
    CandidateTie => "tie of candidates",
    CandidateTieMatters => "tie of candidates, where taking the later would change the pulses",
    TrialTie => "tie of trials",
    TrialTieMatters => "tie of trials, where taking the later would change the pulses",
    NoCandidate => "pulse that no candidate replaces at the track's start",
    LostCorrelation => "pulse that no candidate replaces, after a correlation that is not 0",
    LostCorrelationMatters => "pulse that no candidate replaces, where keeping the correlation would change the pulses",
    NegativeEnergy => "negative energy in the choice",
    FirstKept => "pulses that no trial replaces, 0 to 3",
    FilteredAbove => "filtered sum clipped at the upper end",
    FilteredBelow => "filtered sum clipped at the lower end",
    FilteredOrder => "filtered sum that the order of the places would change",
    FilteredSign => "filtered sum that -32767 for -32768 would change",
    FilteredProduct => "filtered product clipped, -32768 by -32768",
    InnovationRaised => "innovation raised by the sharpening",
    InnovationPulse => "pulse of the innovation raised by an earlier one",
    InnovationToZero => "innovation that rounding toward zero would change",
    InnovationTwice => "innovation that sharpening from the words before it would change",
    InnovationClip => "innovation whose sharpened sum is clipped",
}

impl Case {
    /// Whether the case must be met. The others are only counted.
    pub fn must_occur(self) -> bool {
        // The words of the innovation are within 8192 and the doubled gain within 1. With lag 19 a
        // place gets words from at most two others, so no word leaves 3 times 8192.
        !matches!(self, Self::InnovationClip)
    }

    /// Whether the case is too rare for the recorded sample.
    pub fn is_rare(self) -> bool {
        matches!(self, Self::LostCorrelationMatters)
    }
}

/// A search that the published Rust answered.
pub struct Searched<'a> {
    pub call: &'a Call,
    pub answer: &'a SearchResult,
}

/// The cases that a search met, and the places of its pulses.
pub struct SearchedCases {
    pub found: Found<Case>,
    pub pulses: [usize; PULSES],
}

impl Searched<'_> {
    /// The cases; those that need the choice once more only where it is `thorough`, unless they are
    /// rare.
    pub fn cases(&self, thorough: bool) -> SearchedCases {
        let mut found = Found::new();
        let impulse = self.find_impulse(&mut found);
        let correlation = Correlation::find(&mut found, &self.call.target, &impulse);
        let inside = Inside::new(impulse, &correlation.words);
        correlation.find_start(&mut found, &inside);
        inside.find_starts(&mut found, thorough);
        inside.find_matrix(&mut found, thorough);
        inside.find_choice(&mut found, thorough);
        inside.find_filtered(&mut found, self.answer);
        self.find_innovation(&mut found, &inside.pulses);
        SearchedCases {
            found,
            pulses: inside.pulses,
        }
    }

    fn lag(&self) -> usize {
        self.call.lag.into()
    }

    fn doubled(&self) -> i16 {
        self.call.gain.saturating_mul(2)
    }

    /// The sharpened impulse response.
    fn find_impulse(&self, found: &mut Found<Case>) -> [i16; SUBFRAME] {
        let Call { lag, gain, .. } = *self.call;
        for (case, exact) in [
            (Case::Lag19, 19),
            (Case::Lag20, 20),
            (Case::Lag39, 39),
            (Case::Lag40, 40),
            (Case::Lag144, 144),
        ] {
            found.case(case, lag == exact);
        }
        found.case(Case::LagAbove40, lag > 40);
        let impulse = &self.call.impulse;
        let doubled = self.doubled();
        let wrapped = gain.wrapping_mul(2);
        found.case(Case::DoubledAbove, wrapped != doubled && gain > 0);
        found.case(Case::DoubledBelow, wrapped != doubled && gain < 0);

        let (met, sharpened) = Sharpening::of(impulse, self.lag(), doubled);
        assert_eq!(
            sharpened, self.answer.sharpened_impulse_q12,
            "the impulse response found here"
        );
        found.case(Case::SharpenedAbove, met.above);
        found.case(Case::SharpenedBelow, met.below);
        found.case(Case::Floor, met.floor);
        found.case(Case::FloorMatters, met.floor_matters);
        found.case(Case::SharpenedToZero, met.to_zero);
        found.case(Case::RaisedTwice, met.twice);
        let mut otherwise = *impulse;
        sharpen(&mut otherwise, self.lag(), wrapped);
        found.case(Case::DoubledMatters, otherwise != sharpened);
        sharpened
    }

    fn find_innovation(&self, found: &mut Found<Case>, pulses: &[usize; PULSES]) {
        const POSITIVE: i16 = 8191;
        const NEGATIVE: i16 = -8192;
        let SearchResult {
            pulse_signs,
            innovation_q13,
            ..
        } = self.answer;
        let mut innovation = [0; SUBFRAME];
        for &place in pulses {
            let positive = pulse_signs >> (place % TRACKS).min(PULSES - 1) & 1 != 0;
            innovation[place] = if positive { POSITIVE } else { NEGATIVE };
        }
        let (met, sharpened) = Sharpening::of(&innovation, self.lag(), self.doubled());
        assert_eq!(sharpened, *innovation_q13, "the innovation found here");
        let pulse = pulses
            .iter()
            .any(|&place| sharpened[place] != innovation[place]);
        found.case(Case::InnovationRaised, sharpened != innovation);
        found.case(Case::InnovationPulse, pulse);
        found.case(Case::InnovationToZero, met.to_zero);
        found.case(Case::InnovationTwice, met.twice);
        found.case(Case::InnovationClip, met.above || met.below);
    }
}

/// What the sharpening of a list met.
#[derive(Default)]
struct Sharpening {
    above: bool,
    below: bool,
    floor: bool,
    floor_matters: bool,
    to_zero: bool,
    twice: bool,
}

impl Sharpening {
    fn of(words: &[i16; SUBFRAME], lag: usize, gain: i16) -> (Self, [i16; SUBFRAME]) {
        let mut met = Self::default();
        let mut sharpened = *words;
        for place in lag..SUBFRAME {
            let word = i32::from(words[place]);
            let exact = i32::from(sharpened[place - lag]) * i32::from(gain);
            let floor = exact >> 15;
            let sum = word + i32::from(clip16(floor));
            let raised = clip16(sum);
            met.above |= sum > raised.into();
            met.below |= sum < raised.into();
            met.floor |= i32::from(clip16(floor)) != floor;
            met.floor_matters |= clip16(word + floor) != raised;
            met.to_zero |= clip16(word + i32::from(clip16(exact / (1 << 15)))) != raised;
            let once = fractional(words[place - lag], gain);
            met.twice |= words[place].saturating_add(once) != raised;
            sharpened[place] = raised;
        }
        (met, sharpened)
    }
}

/// Where the total of the correlations starts.
const START: i32 = 5;

/// The correlations of the target with the impulse response.
struct Correlation {
    sums: [i32; SUBFRAME],
    total: i32,
    words: [i16; SUBFRAME],
}

impl Correlation {
    fn find(found: &mut Found<Case>, target: &[i16; SUBFRAME], impulse: &[i16; SUBFRAME]) -> Self {
        let sums: [Sum; SUBFRAME] = std::array::from_fn(|place| {
            let products = target[place..].iter().zip(impulse);
            Sum::of(products.map(|(&x, &h)| product(x, h)))
        });
        for sum in &sums {
            found.case(Case::CorrelationAbove, sum.clips_above);
            found.case(Case::CorrelationBelow, sum.clips_below);
            found.case(Case::CorrelationEarly, sum.clips_early());
        }
        let sums = sums.map(|sum| sum.clipped);
        let maxima = (0..TRACKS).map(|track| {
            let magnitudes = places(track).map(|place| sums[place].saturating_abs());
            magnitudes.max().expect("a track of eight places") >> 1
        });
        let total = Sum::of(std::iter::once(START).chain(maxima));
        let correlation = Self {
            sums,
            total: total.clipped,
            words: words(&sums, total.clipped),
        };
        let Self {
            total: clipped,
            words,
            ..
        } = &correlation;
        assert_eq!(
            *words,
            target_correlation(target, impulse),
            "the correlations found here"
        );
        let shift = normalize(*clipped) - 1;
        found.case(Case::TotalClip, total.clips());
        found.case(Case::ShiftDown, shift < 0);
        found.case(Case::ShiftNone, shift == 0);
        found.case(Case::ShiftUp, shift > 0);
        for (&word, sum) in words.iter().zip(sums) {
            found.case(Case::ZeroWord, word == 0);
            found.case(Case::NegativeZero, word == 0 && sum < 0);
            found.case(Case::LeastWord, word == i16::MIN);
            found.case(Case::GreatestWord, word == i16::MAX);
        }
        correlation
    }

    /// Whether the total must start at 5.
    fn find_start(&self, found: &mut Found<Case>, inside: &Inside) {
        // A clipped total is far from the next power of two.
        let total = self.total - START;
        if total > 0 && normalize(total) != normalize(self.total) {
            let other = Inside::new(inside.impulse.words, &words(&self.sums, total));
            found.case(Case::TotalStart, true);
            found.case(Case::TotalStartMatters, other.pulses() != inside.pulses());
        }
    }
}

/// The correlation words, normalized by the total.
fn words(sums: &[i32; SUBFRAME], total: i32) -> [i16; SUBFRAME] {
    let shift = normalize(total) - 1;
    sums.map(|sum| rounded(scaled(sum, shift)))
}

/// What the published search has made when it has chosen.
struct Inside {
    impulse: Impulse,
    /// The magnitudes of the correlations, their signs, and where a trial may start.
    magnitudes: [i16; SUBFRAME],
    signs: [i16; SUBFRAME],
    eligible: [bool; SUBFRAME],
    matrix: [[i16; SUBFRAME]; SUBFRAME],
    pulses: [usize; PULSES],
}

impl Inside {
    fn new(impulse: [i16; SUBFRAME], correlation: &[i16; SUBFRAME]) -> Self {
        let mut magnitudes = *correlation;
        let (signs, eligible) = fix_signs(&mut magnitudes);
        let matrix = impulse_correlation(&impulse, &signs);
        let pulses = select(&magnitudes, &eligible, &matrix);
        Self {
            impulse: Impulse::new(impulse),
            magnitudes,
            signs,
            eligible,
            matrix,
            pulses,
        }
    }

    /// The places in order, each with its sign.
    fn pulses(&self) -> [(usize, i16); PULSES] {
        sorted(self.pulses).map(|place| (place, self.signs[place]))
    }

    /// Whether other values before the choice change the pulses.
    fn is_changed(
        &self,
        eligible: &[bool; SUBFRAME],
        matrix: &[[i16; SUBFRAME]; SUBFRAME],
    ) -> bool {
        sorted(select(&self.magnitudes, eligible, matrix)) != sorted(self.pulses)
    }

    fn find_starts(&self, found: &mut Found<Case>, thorough: bool) {
        let (eligible, none) = starts(&self.magnitudes, Rule::Published);
        assert_eq!(eligible, self.eligible, "the starts found here");
        found.case(Case::NoneFirst, none.first);
        found.case(Case::NoneLater, none.later);
        found.case(Case::NoneOfTrack, none.of_track);
        // Only of 32767 none is found, and only 32767 is not found.
        let greatest = self.magnitudes.contains(&i16::MAX);
        for (rule, differs, matters, asked) in [
            (
                Rule::HigherOnTie,
                Some(Case::DropTie),
                Case::DropTieMatters,
                thorough,
            ),
            (
                Rule::AnyWord,
                Some(Case::Greatest),
                Case::GreatestMatters,
                greatest,
            ),
            (Rule::NoneMarked, None, Case::NoneFirstMatters, none.first),
            (
                Rule::OwnTrack,
                None,
                Case::NoneOfTrackMatters,
                none.of_track,
            ),
        ] {
            if !asked {
                continue;
            }
            let (other, _) = starts(&self.magnitudes, rule);
            if other != eligible {
                if let Some(case) = differs {
                    found.case(case, true);
                }
                found.case(matters, self.is_changed(&other, &self.matrix));
            }
        }
    }

    fn find_matrix(&self, found: &mut Found<Case>, thorough: bool) {
        const BELOW: i64 = 2147418110;
        const AT: i64 = 2147418112;
        let impulse = &self.impulse;
        let halves = impulse.halves();
        let scaled = impulse.scaled(halves);
        let sums = scaled.matrix(&self.signs, Rounding::Down);
        assert_eq!(sums.matrix, self.matrix, "the matrix found here");
        let clips = sums.diagonal || sums.above || sums.below;
        assert!(halves || !clips, "only sums of a halved one are clipped");
        let energy = impulse.energy.exact;
        found.case(Case::Halved, halves);
        found.case(Case::Normalized, !halves);
        found.case(Case::EnergyClip, impulse.energy.clips());
        found.case(Case::EnergyBelow, energy == BELOW);
        found.case(Case::EnergyAt, energy == AT);
        found.case(Case::EnergyLast, energy == i64::from(i32::MAX) - 1);
        found.case(Case::EnergyFirstClip, energy == i64::from(i32::MAX) + 1);
        found.case(Case::RootClip, !halves && impulse.clips_root());
        found.case(Case::RootNoClip, !halves && !impulse.clips_root());
        found.case(Case::DiagonalClip, sums.diagonal);
        found.case(Case::CrossAbove, sums.above);
        found.case(Case::CrossBelow, sums.below);
        found.case(Case::CrossEarly, sums.early);
        if energy == BELOW || energy == AT {
            let other = impulse.scaled(!halves);
            let other = other.matrix(&self.signs, Rounding::Down).matrix;
            let matters = self.is_changed(&self.eligible, &other);
            found.case(Case::EnergyBelowMatters, matters && energy == BELOW);
            found.case(Case::EnergyAtMatters, matters && energy == AT);
        }
        if thorough {
            let other = scaled.matrix(&self.signs, Rounding::ToZero).matrix;
            let matters = self.is_changed(&self.eligible, &other);
            found.case(Case::MatrixToZero, matters);
        }
    }

    fn find_choice(&self, found: &mut Found<Case>, thorough: bool) {
        let [track, ..] = self.pulses.map(|place| place % TRACKS);
        let last_track = if self.pulses.iter().any(|place| place % TRACKS == PULSES) {
            Case::LastTrack4
        } else {
            Case::LastTrack3
        };
        found.case(last_track, true);
        let starts = [Case::Start0, Case::Start1, Case::Start2];
        found.case(*starts.get(track).unwrap_or(&Case::StartLast), true);

        let mut choice = Choice::new(&self.magnitudes, &self.eligible, &self.matrix);
        let pulses = choice.pulses();
        assert_eq!(pulses, self.pulses, "the pulses found here");
        let met = choice.met;
        found.case(Case::SumClip, met.sum_clip);
        found.case(Case::CandidateTie, met.candidate_tie);
        found.case(Case::TrialTie, met.trial_tie);
        found.case(Case::NoCandidate, met.no_candidate);
        found.case(Case::LostCorrelation, met.lost_correlation);
        if met.lost_correlation {
            choice.keeps_correlation = true;
            let matters = sorted(choice.pulses()) != sorted(pulses);
            found.case(Case::LostCorrelationMatters, matters);
            choice.keeps_correlation = false;
        }
        found.case(Case::NegativeEnergy, met.negative_energy);
        found.case(Case::FirstKept, !met.replaced);
        for (tie, case, ties) in [
            (met.candidate_tie, Case::CandidateTieMatters, [true, false]),
            (met.trial_tie, Case::TrialTieMatters, [false, true]),
        ] {
            if tie && thorough {
                choice.later_on_tie = ties;
                found.case(case, sorted(choice.pulses()) != sorted(pulses));
            }
        }
    }

    fn find_filtered(&self, found: &mut Found<Case>, answer: &SearchResult) {
        let impulse = &self.impulse.words;
        let terms = |place: usize, pulses: [usize; PULSES], negative: i16| {
            pulses.map(|pulse| {
                let sample = place.checked_sub(pulse).map_or(0, |delay| impulse[delay]);
                let positive = self.signs[pulse] > 0;
                product(sample, if positive { i16::MAX } else { negative })
            })
        };
        for place in 0..SUBFRAME {
            let products = terms(place, self.pulses, i16::MIN);
            let sum = Sum::of(products);
            let word = rounded(sum.clipped);
            assert_eq!(word, answer.filtered_q12[place], "the words found here");
            found.case(Case::FilteredAbove, sum.clips_above);
            found.case(Case::FilteredBelow, sum.clips_below);
            found.case(Case::FilteredProduct, products.contains(&i32::MAX));
            if sum.clips() {
                let in_order = Sum::of(terms(place, sorted(self.pulses), i16::MIN));
                found.case(Case::FilteredOrder, rounded(in_order.clipped) != word);
            }
            let even = Sum::of(terms(place, self.pulses, -i16::MAX));
            found.case(Case::FilteredSign, rounded(even.clipped) != word);
        }
    }
}
