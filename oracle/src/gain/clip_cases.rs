//! The cases of the counts of clipped terms, for both comparisons.

use super::{
    calls::Call,
    cases,
    clips::{LOWER_END, Terms, UPPER_END},
    pitch_cases,
};
use crate::{counts::Found, words::SUBFRAME};

/// The terms at which both first sums are clipped.
pub fn of_pitch_gain(found: &mut Found<pitch_cases::Case>, call: &Call) {
    use pitch_cases::Case;
    const LAST: usize = SUBFRAME - 1;
    const ALL: u8 = SUBFRAME as u8;
    let quarters = call.adaptive.map(|word| word >> 2);
    let energy = Terms::of(&call.adaptive, &call.adaptive);
    let target = Terms::of(&call.target, &call.adaptive);
    let energy_again = Terms::of(&quarters, &quarters).clips();
    let target_again = Terms::of(&call.target, &quarters).clips();
    for (case, met) in [
        (Case::EnergyOnce, energy.clips() == 1),
        (Case::EnergyAlways, energy.clips() == ALL),
        (Case::EnergyProductFirst, energy.clips_product(0)),
        (Case::EnergyProductLast, energy.clips_product(LAST)),
        (Case::EnergyZeroBehind, energy.has_zero_behind()),
        (
            Case::EnergyOfQuarters,
            energy_again > 0 && energy_again != energy.clips(),
        ),
        (Case::TargetOnce, target.clips() == 1),
        (Case::TargetAlways, target.clips() == ALL),
        (Case::TargetProductFirst, target.clips_product(0)),
        (Case::TargetProductLast, target.clips_product(LAST)),
        (Case::TargetZeroBehind, target.has_zero_behind()),
        (
            Case::TargetOfQuarters,
            target_again > 0 && target_again != target.clips(),
        ),
        (Case::TargetUpperEnd, target.reaches(UPPER_END)),
        (Case::TargetLowerEnd, target.reaches(LOWER_END)),
        (Case::TargetAgainAbove, target.clips_again(UPPER_END)),
        (Case::TargetAgainBelow, target.clips_again(LOWER_END)),
    ] {
        found.case(case, met);
    }
}

/// The terms at which the sums with the innovation are clipped. The first seven never are: no doubled
/// product by an eighth is beyond 2^28.
pub fn of_quantize(found: &mut Found<cases::Case>, call: &Call) {
    use cases::Case;
    const MOST: u8 = 33;
    let eighths = call.eighths();
    for (list, cases) in [
        (
            &call.target,
            [
                Case::ProductOnce,
                Case::ProductOften,
                Case::ProductZeroBehind,
                Case::ProductBothEnds,
                Case::ProductLast,
                Case::ProductUpperEnd,
                Case::ProductLowerEnd,
                Case::ProductAgainAbove,
                Case::ProductAgainBelow,
            ],
        ),
        (
            &call.adaptive,
            [
                Case::CrossOnce,
                Case::CrossOften,
                Case::CrossZeroBehind,
                Case::CrossBothEnds,
                Case::CrossLast,
                Case::CrossUpperEnd,
                Case::CrossLowerEnd,
                Case::CrossAgainAbove,
                Case::CrossAgainBelow,
            ],
        ),
    ] {
        let sum = Terms::of(list, &eighths);
        let met = [
            sum.clips() == 1,
            sum.clips() == MOST,
            sum.has_zero_behind(),
            sum.clips_at_both_ends(),
            sum.clips() == 0 && sum.reaches(UPPER_END),
            sum.reaches(UPPER_END),
            sum.reaches(LOWER_END),
            sum.clips_again(UPPER_END),
            sum.clips_again(LOWER_END),
        ];
        for (case, met) in cases.into_iter().zip(met) {
            found.case(case, met);
        }
    }
    let [energy, target, _, product, cross] = call.clips();
    let mut clips = [energy, target, product, cross];
    clips.sort();
    let unequal = clips.windows(2).all(|pair| pair[0] < pair[1]);
    found.case(Case::CountsUnequal, clips[0] > 0 && unequal);
}
