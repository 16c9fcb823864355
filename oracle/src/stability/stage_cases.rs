//! The cases that chains of watched stages must meet.

use super::{
    BOUND, EIGHTH, RESONANT, TABLE, Watch,
    limits::{self, Watched},
};
use crate::{
    codec::mr74::gain::quantization::GainLimit,
    counts::{Found, cases},
    gain::RESONANCE_ROWS,
};

cases! {
    Fresh => "stage of a fresh watch",
    ByCount => "unrestricted by the count alone",
    ByCount11 => "unrestricted by count 11 alone",
    ByPitch => "unrestricted by the pitch gain alone",
    ByPitch15565 => "unrestricted by pitch gain 15565 alone",
    BySum => "unrestricted by the sum alone",
    BySum15565 => "unrestricted by sum 15565 alone",
    ResonanceCount12 => "resonance of count 12",
    ResonanceCountAbove => "resonance of a count above 12",
    ResonancePitch15566 => "resonance of pitch gain 15566",
    ResonanceSum15566 => "resonance of sum 15566",
    ClipsAbove => "sum clipped at the upper end",
    ClipsBelow => "sum clipped at the lower end",
    LateMatters => "limit that clipping the sum only at its end would change",
    Reached => "resonance after an unrestricted stage of the watch",
    Kept => "resonance after eight stages of resonance or more",
    LeftByCount => "unrestricted by the count alone, after resonance",
    LeftByPitch => "unrestricted by the pitch gain alone, after resonance",
    LeftBySum => "unrestricted by the sum alone, after resonance",
    RowDiffers => "resonance, and a row that is not the unrestricted one",
    RowStays => "resonance, and the unrestricted row",
    RowAbove => "unrestricted, and a row above the resonance limit",
    RowWithin => "unrestricted, and a row within the resonance limit",
    AfterMatters => "limit that the gains after the stage would change",
    GivenMatters => "newest gain that the given pitch gain would change",
    RoundedMatters => "newest gain that rounding would change",
    Reset => "reset",
    ResetCount => "reset of a count that is not 0",
    ResetGains => "reset of gains that are not all 0",
    FreshRefused => "refusal that keeps a fresh watch",
    Refused1 => "refusal 1 that keeps gains that are not all 0",
    Refused7 => "refusal 7 that keeps gains that are not all 0",
    Refused14 => "refusal 14 that keeps gains that are not all 0",
    Close => "close spectrum between stages",
    Wide => "spectrum that is not close between stages",
    Resonant => "resonant spectrum between stages",
}

/// What the cases of a stage are found from.
pub struct Ran<'a> {
    /// The watch before the stage.
    pub before: &'a Watch,
    pub pitch_gain: i16,
    pub limit: GainLimit,
    pub row: usize,
    /// The row without a limit.
    pub unrestricted: usize,
    pub after: &'a Watch,
    /// The stages before it since the watch was made, those of the same limit directly before it.
    pub stages: usize,
    pub alike: usize,
    pub last: Option<GainLimit>,
}

impl Ran<'_> {
    pub fn cases(&self) -> Found<Case> {
        let mut found = Found::new();
        let Self { before, after, .. } = *self;
        let (pitch_gain, limit, row) = (self.pitch_gain, self.limit, self.row);
        let is_resonance = limit == GainLimit::Resonance;
        let count = before.count();
        let watched = Watched {
            pitch_gain,
            count,
            gains: before.gains(),
        };
        let sum = watched.sum();
        let by_count = count < RESONANT && pitch_gain > BOUND && sum > BOUND;
        let by_pitch = count >= RESONANT && pitch_gain <= BOUND && sum > BOUND;
        let by_sum = count >= RESONANT && pitch_gain > BOUND && sum <= BOUND;
        let was_resonance = self.last == Some(GainLimit::Resonance);
        let was_unrestricted = self.last == Some(GainLimit::Unrestricted);
        let [newest_by_row, newest_given] = [TABLE[row][0], pitch_gain].map(|gain| gain >> EIGHTH);
        let rounded = (TABLE[row][0] + 4) >> EIGHTH;
        for (case, met) in [
            (Case::Fresh, self.stages == 0 && *before == Watch::default()),
            (Case::ByCount, by_count),
            (Case::ByCount11, by_count && count == 11),
            (Case::ByPitch, by_pitch),
            (Case::ByPitch15565, by_pitch && pitch_gain == 15565),
            (Case::BySum, by_sum),
            (Case::BySum15565, by_sum && sum == 15565),
            (Case::ResonanceCount12, is_resonance && count == 12),
            (Case::ResonanceCountAbove, is_resonance && count > 12),
            (
                Case::ResonancePitch15566,
                is_resonance && pitch_gain == 15566,
            ),
            (Case::ResonanceSum15566, is_resonance && sum == 15566),
            (Case::Reached, is_resonance && was_unrestricted),
            (Case::Kept, is_resonance && was_resonance && self.alike >= 8),
            (Case::LeftByCount, by_count && was_resonance),
            (Case::LeftByPitch, by_pitch && was_resonance),
            (Case::LeftBySum, by_sum && was_resonance),
            (Case::RowDiffers, is_resonance && row != self.unrestricted),
            (Case::RowStays, is_resonance && row == self.unrestricted),
            (Case::RowAbove, !is_resonance && row >= RESONANCE_ROWS),
            (Case::RowWithin, !is_resonance && row < RESONANCE_ROWS),
            (Case::AfterMatters, after.limit(pitch_gain) != limit),
            (Case::GivenMatters, newest_by_row != newest_given),
            (Case::RoundedMatters, newest_by_row != rounded),
        ] {
            found.case(case, met);
        }
        let of_limit = watched.cases(limit);
        for (case, limits) in [
            (Case::ClipsAbove, &[limits::Case::ClipsAbove] as &[_]),
            (Case::ClipsBelow, &[limits::Case::ClipsBelow]),
            (
                Case::LateMatters,
                &[limits::Case::LateUnrestricted, limits::Case::LateResonance],
            ),
        ] {
            found.case(case, limits.iter().any(|&limit| of_limit.has(limit)));
        }
        found
    }
}
