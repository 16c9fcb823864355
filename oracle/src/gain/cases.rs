//! The cases that the comparison of `quantize` must meet, found from the values inside the published
//! function.
//!
//! Its steps are done once more here, and what comes out is asserted to be what it answers.
//!
//! Two clips are only counted, since no words reach them. The words of the innovation are within
//! 4096 when they are multiplied, so their energy is at most 40 times 2^25 and 1. A distance below the
//! lower end needs all three terms that can be negative near their greatest magnitude, in row 127.
//! By the inequality of Cauchy and Schwarz, which the clips leave valid, the energies are then so
//! great that their terms bring it back above. At the upper end row 0 never is, so a row is always
//! chosen by its distance.

use super::{
    calls::Call,
    clip_cases,
    rows::{INNOVATION_SUMS, Inside, RESONANCE_ROWS, Rule},
};
use crate::{
    codec::mr74::gain::quantization::{GAIN_TERMS, GainLimit},
    counts::{Found, cases},
};

cases! {
    Unrestricted => "unrestricted limit",
    Resonance => "resonance limit",
    ExponentLeast => "exponent -128",
    ExponentGreatest => "exponent 127",
    FractionLeast => "fraction 0",
    FractionGreatest => "fraction 32767",
    BothLeast => "exponent -128 and fraction 0",
    BothGreatest => "exponent 127 and fraction 32767",
    EnergyOverflow => "energy sum that overflows",
    TargetAbove => "target sum that overflows at the upper end",
    TargetBelow => "target sum that overflows at the lower end",
    InnovationOne => "innovation's energy 1, of zeros or of words below 8",
    InnovationClip => "innovation's energy clipped",
    ProductAbove => "innovation by the target clipped at the upper end",
    ProductBelow => "innovation by the target clipped at the lower end",
    ProductOne => "innovation by the target 1",
    ProductMinusOne => "innovation by the target -1, normalized by 31 places",
    ProductZero => "innovation by the target 0, after a clip at the lower end",
    CrossAbove => "innovation by the adaptive words clipped at the upper end",
    CrossBelow => "innovation by the adaptive words clipped at the lower end",
    CrossOne => "innovation by the adaptive words 1",
    CrossMinusOne => "innovation by the adaptive words -1, normalized by 31 places",
    CrossZero => "innovation by the adaptive words 0, after a clip at the lower end",
    XyLeast => "xy -32768, whose negative is clipped",
    ProductLeast => "innovation by the target -32768, whose negative is clipped",
    CrossLeast => "innovation by the adaptive words -32768, which is not turned",
    Scale0 => "scale of the adaptive energy above all others",
    Scale1 => "scale of the target by the adaptive words above all others",
    Scale2 => "scale of the innovation's energy above all others",
    Scale3 => "scale of the innovation by the target above all others",
    Scale4 => "scale of the innovation by the adaptive words above all others",
    ScaleTie => "greatest scale of two terms or more",
    ScalesEqual => "all scales equal",
    Out0 => "adaptive energy shifted right by more than 31 places",
    Out1 => "target by the adaptive words shifted right by more than 31 places",
    Out2 => "innovation's energy shifted right by more than 31 places",
    Out3 => "innovation by the target shifted right by more than 31 places",
    Out4 => "innovation by the adaptive words shifted right by more than 31 places",
    Negative1 => "negative target by the adaptive words shifted right by more than 31 places",
    Negative3 => "negative innovation by the target shifted right by more than 31 places",
    Negative4 => "negative innovation by the adaptive words shifted right by more than 31 places",
    DistanceAbove => "distance clipped at the upper end",
    DistanceReturns => "distance clipped at the upper end on its way, where a clip only at its end would change it",
    DistanceBelow => "distance clipped at the lower end",
    Tie => "least distance of two rows, unrestricted",
    ResonanceTie => "least distance of two rows within the resonance limit",
    LimitChanges => "row that the resonance limit changes",
    LimitStays => "row that the resonance limit does not change",
    RoundedMatters => "row that rounding the sums with the innovation would change",
    ToZeroMatters => "row that shifting the innovation toward zero would change",
    LateClipMatters => "row that clipping the sums with the innovation only at their end would change",
    NegativesMatter => "row that negatives without a clip would change",
    RepeatedMatters => "row that not repeating the adaptive sums would change",
    OrderMatters => "row that summing the negative terms of a distance first would change",
    TieMatters => "row that taking the higher on a tie would change",
    ProductOnce => "innovation by the target clipped at one term",
    ProductOften => "innovation by the target clipped at 33 terms, the most that there are",
    ProductZeroBehind => "term of 0 directly behind a clipped one of innovation by the target",
    ProductBothEnds => "innovation by the target clipped at both ends",
    ProductLast => "innovation by the target 2147483647, the last that is not clipped",
    ProductUpperEnd => "innovation by the target 2147483647 by a term that is not clipped",
    ProductLowerEnd => "innovation by the target -2147483648 by a term that is not clipped",
    ProductAgainAbove => "innovation by the target clipped at the upper end, back below it, clipped there again",
    ProductAgainBelow => "innovation by the target clipped at the lower end, back above it, clipped there again",
    CrossOnce => "innovation by the adaptive words clipped at one term",
    CrossOften => "innovation by the adaptive words clipped at 33 terms, the most that there are",
    CrossZeroBehind => "term of 0 directly behind a clipped one of innovation by the adaptive words",
    CrossBothEnds => "innovation by the adaptive words clipped at both ends",
    CrossLast => "innovation by the adaptive words 2147483647, the last that is not clipped",
    CrossUpperEnd => "innovation by the adaptive words 2147483647 by a term that is not clipped",
    CrossLowerEnd => "innovation by the adaptive words -2147483648 by a term that is not clipped",
    CrossAgainAbove => "innovation by the adaptive words clipped at the upper end, back below it, clipped there again",
    CrossAgainBelow => "innovation by the adaptive words clipped at the lower end, back above it, clipped there again",
    CountsUnequal => "four sums clipped, all at other numbers of terms",
}

impl Case {
    /// Whether the case must be met. The others are only counted.
    pub fn must_occur(self) -> bool {
        !matches!(self, Self::InnovationClip | Self::DistanceBelow)
    }
}

/// The rules, and the case of a row that each of them changes.
pub const CHANGES: [(Case, Rule); 7] = [
    (Case::RoundedMatters, Rule::Rounded),
    (Case::ToZeroMatters, Rule::InnovationToZero),
    (Case::LateClipMatters, Rule::LateClip),
    (Case::NegativesMatter, Rule::NegativesWrap),
    (Case::RepeatedMatters, Rule::NeverRepeated),
    (Case::OrderMatters, Rule::NegativeFirst),
    (Case::TieMatters, Rule::HigherOnTie),
];

/// A call that the published Rust answered.
pub struct Quantized<'a> {
    pub call: &'a Call,
    pub row: usize,
}

/// The cases that a call met.
pub struct QuantizedCases {
    pub found: Found<Case>,
    /// The row that is chosen without a limit.
    pub unrestricted: usize,
}

impl Quantized<'_> {
    pub fn cases(&self) -> QuantizedCases {
        let mut found = Found::new();
        let inside = Inside::by(Rule::Published, self.call);
        let limit = self.call.limit;
        assert_eq!(inside.chosen(limit), self.row, "the row found here");
        self.find_input(&mut found);
        find_sums(&mut found, &inside);
        clip_cases::of_quantize(&mut found, self.call);
        find_scales(&mut found, &inside);
        let unrestricted = self.find_distances(&mut found, &inside);
        QuantizedCases {
            found,
            unrestricted,
        }
    }

    /// The case of the change of this number.
    pub fn find_change(&self, found: &mut Found<Case>, number: usize) {
        let (case, rule) = CHANGES[number];
        let other = Inside::by(rule, self.call).chosen(self.call.limit);
        found.case(case, other != self.row);
    }

    fn find_input(&self, found: &mut Found<Case>) {
        let Call {
            exponent,
            fraction,
            limit,
            ..
        } = *self.call;
        found.case(Case::Unrestricted, limit == GainLimit::Unrestricted);
        found.case(Case::Resonance, limit == GainLimit::Resonance);
        let [low, high] = [-128, 127].map(|end| exponent == end);
        let [least, greatest] = [0, 32767].map(|end| fraction == end);
        found.case(Case::ExponentLeast, low);
        found.case(Case::ExponentGreatest, high);
        found.case(Case::FractionLeast, least);
        found.case(Case::FractionGreatest, greatest);
        found.case(Case::BothLeast, low && least);
        found.case(Case::BothGreatest, high && greatest);
    }

    /// The row that is chosen without a limit.
    fn find_distances(&self, found: &mut Found<Case>, inside: &Inside) -> usize {
        let limit = self.call.limit;
        for sum in &inside.distances {
            found.case(Case::DistanceAbove, sum.clips_above);
            found.case(Case::DistanceReturns, sum.clips_above && sum.clips_early());
            found.case(Case::DistanceBelow, sum.clips_below);
        }
        let tie = match limit {
            GainLimit::Unrestricted => Case::Tie,
            GainLimit::Resonance => Case::ResonanceTie,
        };
        found.case(tie, inside.ties(limit) > 1);
        let unrestricted = inside.chosen(GainLimit::Unrestricted);
        let resonance = limit == GainLimit::Resonance;
        found.case(Case::LimitChanges, resonance && unrestricted != self.row);
        found.case(Case::LimitStays, resonance && unrestricted == self.row);
        assert_eq!(
            resonance && unrestricted != self.row,
            resonance && unrestricted >= RESONANCE_ROWS,
            "the rows within the limit"
        );
        unrestricted
    }
}

fn find_sums(found: &mut Found<Case>, inside: &Inside) {
    let target = &inside.adaptive.xy.first;
    found.case(Case::EnergyOverflow, inside.adaptive.yy.first.overflows());
    found.case(Case::TargetAbove, target.product || target.sum.clips_above);
    found.case(Case::TargetBelow, target.sum.clips_below);

    let [energy, product, cross] = inside.sums.each_ref().map(|dot| &dot.sum);
    found.case(Case::InnovationOne, energy.clipped == 1);
    found.case(Case::InnovationClip, energy.clips());
    for (sum, above, below, values) in [
        (
            product,
            Case::ProductAbove,
            Case::ProductBelow,
            [Case::ProductOne, Case::ProductZero, Case::ProductMinusOne],
        ),
        (
            cross,
            Case::CrossAbove,
            Case::CrossBelow,
            [Case::CrossOne, Case::CrossZero, Case::CrossMinusOne],
        ),
    ] {
        found.case(above, sum.clips_above);
        found.case(below, sum.clips_below);
        for (case, value) in values.into_iter().zip([1, 0, -1]) {
            found.case(case, sum.clipped == value);
        }
    }
    let [_, product, cross]: [i16; INNOVATION_SUMS] = inside.cuts;
    found.case(Case::XyLeast, inside.adaptive.xy.word == i16::MIN);
    found.case(Case::ProductLeast, product == i16::MIN);
    found.case(Case::CrossLeast, cross == i16::MIN);
}

fn find_scales(found: &mut Found<Case>, inside: &Inside) {
    const GREATEST: [Case; GAIN_TERMS] = [
        Case::Scale0,
        Case::Scale1,
        Case::Scale2,
        Case::Scale3,
        Case::Scale4,
    ];
    const OUT: [Case; GAIN_TERMS] = [Case::Out0, Case::Out1, Case::Out2, Case::Out3, Case::Out4];
    let greatest = inside.greatest_scale();
    let is_greatest = inside.scales.map(|scale| scale == greatest);
    let many = is_greatest.iter().filter(|is| **is).count();
    found.case(Case::ScaleTie, many > 1);
    found.case(Case::ScalesEqual, many == GAIN_TERMS);
    let is_out = inside.is_shifted_out();
    for term in 0..GAIN_TERMS {
        found.case(GREATEST[term], is_greatest[term] && many == 1);
        found.case(OUT[term], is_out[term]);
    }
    for (case, term) in [
        (Case::Negative1, 1),
        (Case::Negative3, 3),
        (Case::Negative4, 4),
    ] {
        found.case(case, is_out[term] && inside.fractions[term] < 0);
    }
}
