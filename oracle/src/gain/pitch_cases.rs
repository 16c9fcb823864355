//! The cases that the comparison of `pitch_gain` must meet, found from the values inside the
//! published function.
//!
//! Its steps are done once more here, and what comes out is asserted to be what it answers.
//!
//! A sum starts at 1 and its products are even, but for one that is clipped, and such a sum is
//! repeated. So a sum that is normalized is odd, unless it was clipped at the lower end and came
//! back: it is 0 only so, and only of quarters. Of any other the word is 16384 or more, or -16384 or
//! less. So of the xy below 4 only 0 and negative ones occur, and neither 3 nor 4 has a case.

use super::{
    calls::Call,
    clip_cases,
    correlations::{Correlation, Correlations, Dot, MOST, Rule},
};
use crate::{
    codec::mr74::gain::quantization::PitchGain,
    counts::{Found, cases},
};

cases! {
    NoOverflow => "no sum that overflows",
    EnergyAlone => "energy sum that overflows, the target sum not",
    AboveAlone => "target sum that overflows at the upper end, the energy sum not",
    BelowAlone => "target sum that overflows at the lower end, the energy sum not",
    BothAbove => "both sums that overflow, the target sum at the upper end",
    BothBelow => "both sums that overflow, the target sum at the lower end",
    BothEnds => "target sum that overflows at both ends",
    EnergyLast => "energy sum 2147483647, the last that does not overflow",
    EnergyFirst => "energy sum 2147483649 before the clip, the first that overflows",
    AboveLast => "target sum 2147483647, the last that does not overflow",
    AboveFirst => "target sum 2147483649 before the clip, the first that overflows",
    BelowLast => "target sum -2147483647, the last that does not overflow",
    BelowFirst => "target sum -2147483649 before the clip, the first that overflows",
    EnergyProduct => "product of the energy sum clipped, -32768 by -32768",
    TargetProduct => "product of the target sum clipped, -32768 by -32768",
    ProductAlone => "target sum that overflows by a product alone",
    ProductAloneMatters => "target sum that overflows by a product alone, where not counting it would change the answer",
    Returns => "target sum that overflows and does not end at a limit",
    ReturnsMatters => "answer that looking only at the end of a sum for the overflow would change",
    RepeatedMatters => "answer that not repeating a sum would change",
    QuarterEnergyClip => "energy sum of quarters clipped",
    QuarterAbove => "target sum of quarters clipped at the upper end",
    QuarterBelow => "target sum of quarters clipped at the lower end",
    LateClipMatters => "answer that clipping the sums only at their end would change",
    ToZeroMatters => "answer that rounding the quarters toward zero would change",
    CutMatters => "answer that cutting in place of rounding would change",
    SumZero => "target sum 0, of quarters: xy 0, gain 0",
    SumOne => "target sum 1",
    SumMinusOne => "target sum -1, normalized by 31 places",
    YyLeast => "yy 16384",
    YyGreatest => "yy 32767",
    YyRoundingClip => "rounding of yy clipped",
    YyExponentLeast => "exponent -15 of yy",
    YyExponentGreatest => "exponent 19 of yy",
    XyLeast => "xy -32768",
    XyNegativeEnd => "xy -16384",
    XyPositiveEnd => "xy 16384",
    XyGreatest => "xy 32767",
    XyRoundingClip => "rounding of xy clipped",
    XyExponentLeast => "exponent -16 of xy",
    XyExponentGreatest => "exponent 17 of xy",
    XyNegative => "negative xy, gain 0",
    XyPositive => "positive xy",
    OddXy => "positive xy whose half is cut",
    RatioLeft => "ratio shifted left",
    RatioStays => "ratio not shifted",
    RatioRight => "ratio shifted right",
    RatioClip => "ratio clipped by its shift",
    RatioOut => "ratio shifted right by more than 15 places",
    ZeroOfRatio => "gain 0 of a positive xy",
    Below => "gain 19660",
    Most => "gain 19661 that is not held",
    FirstHeld => "gain held at 19661, one more before",
    Held => "gain held at 19661",
    EnergyOnce => "energy sum clipped at one term",
    EnergyAlways => "energy sum clipped at all 40 terms",
    EnergyProductFirst => "-32768 by -32768 as the first term of the energy sum",
    EnergyProductLast => "-32768 by -32768 as the last term of the energy sum",
    EnergyZeroBehind => "term of 0 directly behind one at which the energy sum is clipped",
    EnergyOfQuarters => "energy sum of quarters clipped at another number of terms than the first",
    TargetOnce => "target sum clipped at one term",
    TargetAlways => "target sum clipped at all 40 terms",
    TargetProductFirst => "-32768 by -32768 as the first term of the target sum",
    TargetProductLast => "-32768 by -32768 as the last term of the target sum",
    TargetZeroBehind => "term of 0 directly behind one at which the target sum is clipped",
    TargetOfQuarters => "target sum of quarters clipped at another number of terms than the first",
    TargetUpperEnd => "target sum 2147483647 by a term that is not clipped",
    TargetLowerEnd => "target sum -2147483648 by a term that is not clipped",
    TargetAgainAbove => "target sum clipped at the upper end, back below it, clipped there again",
    TargetAgainBelow => "target sum clipped at the lower end, back above it, clipped there again",
}

/// A rule, and the case of an answer that it changes.
const CHANGES: [(Case, Rule); 6] = [
    (Case::ProductAloneMatters, Rule::AdditionsAlone),
    (Case::ReturnsMatters, Rule::EndsAtLimit),
    (Case::RepeatedMatters, Rule::NeverRepeated),
    (Case::ToZeroMatters, Rule::QuartersToZero),
    (Case::LateClipMatters, Rule::LateClip),
    (Case::CutMatters, Rule::Cut),
];

/// The cases of a call that the published Rust answered.
pub fn cases(call: &Call, answer: &PitchGain) -> Found<Case> {
    let mut found = Found::new();
    let Call {
        target, adaptive, ..
    } = call;
    let correlations = Correlations::by(Rule::Published, target, adaptive);
    assert_eq!(correlations.gain(), *answer, "the gain found here");
    let Correlations { yy, xy } = &correlations;
    find_overflows(&mut found, &yy.first, &xy.first);
    find_limits(&mut found, &yy.first, &xy.first);
    find_repeated(&mut found, yy, xy);
    find_words(&mut found, yy, xy);
    find_gain(&mut found, &correlations);
    clip_cases::of_pitch_gain(&mut found, call);
    for (case, rule) in CHANGES {
        let other = Correlations::by(rule, target, adaptive);
        found.case(case, other.gain() != *answer);
    }
    found
}

/// The sums of whole words.
fn find_overflows(found: &mut Found<Case>, energy: &Dot, target: &Dot) {
    let [loud, above, below] = [
        energy.overflows(),
        target.product || target.sum.clips_above,
        target.sum.clips_below,
    ];
    found.case(Case::NoOverflow, !loud && !above && !below);
    found.case(Case::EnergyAlone, loud && !above && !below);
    found.case(Case::AboveAlone, !loud && above && !below);
    found.case(Case::BelowAlone, !loud && !above && below);
    found.case(Case::BothAbove, loud && above && !below);
    found.case(Case::BothBelow, loud && !above && below);
    found.case(Case::BothEnds, above && below);
    found.case(Case::EnergyProduct, energy.product);
    found.case(Case::TargetProduct, target.product);
    found.case(Case::ProductAlone, target.product && !target.sum.clips());
    found.case(Case::Returns, target.overflows() && !target.ends_at_limit());
}

/// The sums at the limits of those that do not overflow.
fn find_limits(found: &mut Found<Case>, energy: &Dot, target: &Dot) {
    const ABOVE: i64 = i32::MAX as i64;
    const BELOW: i64 = -ABOVE;
    for (last, first, dot, limit) in [
        (Case::EnergyLast, Case::EnergyFirst, energy, ABOVE),
        (Case::AboveLast, Case::AboveFirst, target, ABOVE),
        (Case::BelowLast, Case::BelowFirst, target, BELOW),
    ] {
        let exact = dot.sum.exact;
        let overflows = dot.overflows();
        found.case(last, exact == limit && !overflows);
        let beyond = limit + 2 * limit.signum();
        found.case(first, exact == beyond && !dot.product && overflows);
    }
}

/// The sums of quarters, and the sums that are normalized.
fn find_repeated(found: &mut Found<Case>, yy: &Correlation, xy: &Correlation) {
    if let Some(energy) = &yy.repeated {
        found.case(Case::QuarterEnergyClip, energy.sum.clips());
    }
    if let Some(target) = &xy.repeated {
        found.case(Case::QuarterAbove, target.sum.clips_above);
        found.case(Case::QuarterBelow, target.sum.clips_below);
    }
    let sum = xy.last().sum.clipped;
    found.case(Case::SumZero, sum == 0);
    found.case(Case::SumOne, sum == 1);
    found.case(Case::SumMinusOne, sum == -1);
}

/// The normalized sums and their exponents.
fn find_words(found: &mut Found<Case>, yy: &Correlation, xy: &Correlation) {
    let clips = |sum: i32| sum.checked_add(1 << 15).is_none();
    found.case(Case::YyLeast, yy.word == 16384);
    found.case(Case::YyGreatest, yy.word == i16::MAX);
    found.case(Case::YyRoundingClip, clips(yy.shifted));
    found.case(Case::YyExponentLeast, yy.exponent() == -15);
    found.case(Case::YyExponentGreatest, yy.exponent() == 19);
    found.case(Case::XyLeast, xy.word == i16::MIN);
    found.case(Case::XyNegativeEnd, xy.word == -16384);
    found.case(Case::XyPositiveEnd, xy.word == 16384);
    found.case(Case::XyGreatest, xy.word == i16::MAX);
    found.case(Case::XyRoundingClip, clips(xy.shifted));
    found.case(Case::XyExponentLeast, xy.exponent() == -16);
    found.case(Case::XyExponentGreatest, xy.exponent() == 17);
}

fn find_gain(found: &mut Found<Case>, correlations: &Correlations) {
    let Some((ratio, places)) = correlations.ratio() else {
        return found.case(Case::XyNegative, correlations.xy.word < 0);
    };
    let gain = correlations.gain().gain_q14;
    let exact = i64::from(ratio) << places.clamp(0, 40) >> (-places).clamp(0, 40);
    found.case(Case::XyPositive, true);
    found.case(Case::OddXy, correlations.xy.word % 2 != 0);
    found.case(Case::RatioLeft, places > 0);
    found.case(Case::RatioStays, places == 0);
    found.case(Case::RatioRight, places < 0);
    found.case(Case::RatioClip, exact > i16::MAX.into());
    found.case(Case::RatioOut, places < -15);
    found.case(Case::ZeroOfRatio, gain == 0);
    found.case(Case::Below, gain == MOST - 1);
    found.case(Case::Most, exact == MOST.into());
    found.case(Case::FirstHeld, exact == i64::from(MOST) + 1);
    found.case(Case::Held, exact > MOST.into());
}
