//! Calls of the gain stage: the lists, the predicted pair and the limit of one call, and those of a
//! feed.

use super::clips::{self, PITCH_SUMS, SUMS, Terms};
use crate::{
    codec::mr74::gain::{
        Prediction, TABLE,
        quantization::{self, GainLimit, PitchGain},
    },
    feed::{self, Record, taken},
    project::{GainAnswer, PitchGainAnswer},
    published::{EXPONENT, FRACTION, PairDecoder, PairQuantizer},
    subframes::{Refusal, check_lengths},
    words::{SUBFRAME, shortened},
};
use std::{fmt, ops::RangeInclusive};

/// The exponents and the fractions that are not refused.
pub const EXPONENTS: RangeInclusive<i16> = -128..=127;
const FRACTIONS: RangeInclusive<u16> = 0..=32767;

/// The lists of `pitch_gain`, and those of `quantize`.
pub const PITCH_LISTS: usize = 2;
pub const LISTS: usize = 3;

/// What `quantize` is called with; `pitch_gain` takes the target and the adaptive words.
#[derive(Clone)]
pub struct Call {
    pub target: [i16; SUBFRAME],
    pub adaptive: [i16; SUBFRAME],
    pub filtered: [i16; SUBFRAME],
    pub exponent: i16,
    pub fraction: u16,
    pub limit: GainLimit,
}

impl Call {
    pub fn pitch_lists(&self) -> [&[i16]; PITCH_LISTS] {
        [&self.target, &self.adaptive]
    }

    pub fn lists(&self) -> [&[i16]; LISTS] {
        [&self.target, &self.adaptive, &self.filtered]
    }

    /// The number of the limit.
    pub fn choice(&self) -> u8 {
        choice(self.limit)
    }

    pub fn pitch_gain(&self) -> PitchGain {
        quantization::pitch_gain(&self.target, &self.adaptive)
    }

    /// The innovation as it is multiplied.
    pub fn eighths(&self) -> [i16; SUBFRAME] {
        self.filtered.map(|word| word >> 3)
    }

    /// How many terms of the energy sum and of the target sum are clipped.
    pub fn pitch_clips(&self) -> [u8; PITCH_SUMS] {
        clips::of_pitch_gain(&self.target, &self.adaptive)
    }

    /// Those of `pitch_clips`, then of the eighths by themselves, by the target and by the adaptive
    /// words.
    pub fn clips(&self) -> [u8; SUMS] {
        let eighths = self.eighths();
        let [energy, target] = self.pitch_clips();
        let lists = [&eighths, &self.target, &self.adaptive];
        let [innovation, product, cross] = lists.map(|list| Terms::of(list, &eighths).clips());
        [energy, target, innovation, product, cross]
    }

    /// The same call with the other limit.
    pub fn with_other_limit(&self) -> Self {
        let limit = match self.limit {
            GainLimit::Unrestricted => GainLimit::Resonance,
            GainLimit::Resonance => GainLimit::Unrestricted,
        };
        Self {
            limit,
            ..self.clone()
        }
    }

    /// The index of the row that `nearest` gives.
    pub fn quantize(&self) -> u16 {
        self.nearest().index
    }

    /// The nearest row within the call's own limit.
    pub fn nearest(&self) -> Nearest {
        self.nearest_within(self.limit)
    }

    /// The nearest row, by the published quantizer with the pair in place of its prediction.
    pub fn nearest_within(&self, limit: GainLimit) -> Nearest {
        let quantizer = PairQuantizer {
            decoder: PairDecoder(Prediction {
                exponent: self.exponent,
                fraction: self.fraction,
            }),
        };
        let (index, distance) =
            quantizer.quantize(&self.target, &self.adaptive, &self.filtered, limit);
        Nearest { index, distance }
    }
}

/// The number of a limit.
pub fn choice(limit: GainLimit) -> u8 {
    match limit {
        GainLimit::Unrestricted => 0,
        GainLimit::Resonance => 1,
    }
}

/// The row of the least distance within a limit.
#[derive(Debug, Clone, Copy)]
pub struct Nearest {
    pub index: u16,
    pub distance: i32,
}

impl fmt::Debug for Call {
    fn fmt(&self, f: &mut fmt::Formatter<'_>) -> fmt::Result {
        let Self {
            exponent,
            fraction,
            limit,
            ..
        } = self;
        write!(f, "{limit:?} exponent {exponent} fraction {fraction}")?;
        let names = ["target", "adaptive", "filtered"];
        for (name, list) in names.into_iter().zip(self.lists()) {
            write!(f, " {name} ")?;
            shortened(list, f)?;
        }
        Ok(())
    }
}

/// A refusal whose detail may be negative.
#[derive(Debug, Clone, Copy, PartialEq, Eq)]
pub struct SignedRefusal {
    pub number: u8,
    pub detail: i64,
}

impl From<Refusal> for SignedRefusal {
    fn from(Refusal { number, detail }: Refusal) -> Self {
        Self {
            number,
            detail: detail as i64,
        }
    }
}

/// Refuses a list's length.
pub fn checked_pitch(lengths: [usize; PITCH_LISTS]) -> Result<(), Refusal> {
    check_lengths(lengths, [SUBFRAME; PITCH_LISTS])
}

/// Refuses a list's length, then the limit choice, then the exponent, then the fraction.
pub fn checked(
    lengths: [usize; LISTS],
    exponent: i16,
    fraction: u16,
    choice: u8,
) -> Result<GainLimit, SignedRefusal> {
    let refused = |number, detail| Err(SignedRefusal { number, detail });
    check_lengths(lengths, [SUBFRAME; LISTS])?;
    let limit = match choice {
        0 => GainLimit::Unrestricted,
        1 => GainLimit::Resonance,
        _ => return refused(2, choice.into()),
    };
    if !EXPONENTS.contains(&exponent) {
        return refused(EXPONENT, exponent.into());
    }
    if !FRACTIONS.contains(&fraction) {
        return refused(FRACTION, fraction.into());
    }
    Ok(limit)
}

/// An answer of the library, by the numbers and counts of the gain or the refusal.
pub fn pitch_answer(answer: Result<(PitchGain, [u8; PITCH_SUMS]), Refusal>) -> PitchGainAnswer {
    let (refusal, gain_q14, correlations, clips) = match answer {
        Ok((gain, clips)) => (None, gain.gain_q14, gain.correlations, clips),
        Err(refusal) => (Some(refusal), 0, [0; 4], [0; _]),
    };
    let [yy, yy_exponent, xy, xy_exponent] = correlations;
    let [energy_clips, target_clips] = clips;
    PitchGainAnswer {
        number: refusal.map_or(0, |refusal| refusal.number),
        magnitude: refusal.map_or(0, |refusal| refusal.detail),
        gain_q14,
        yy,
        yy_exponent,
        xy,
        xy_exponent,
        energy_clips,
        target_clips,
    }
}

/// An answer of the library, by the index of the row and the counts or the refusal.
pub fn answer(answer: Result<(u16, [u8; SUMS]), SignedRefusal>) -> GainAnswer {
    let (refusal, index, row, clips) = match answer {
        Ok((index, clips)) => (None, index, TABLE[usize::from(index)], clips),
        Err(refusal) => (Some(refusal), 0, [0; 3], [0; _]),
    };
    let [pitch_q14, correction_q12, energy_q10] = row;
    let [energy_clips, target_clips, innovation, product, cross] = clips;
    let detail = refusal.map_or(0, |refusal| refusal.detail);
    GainAnswer {
        number: refusal.map_or(0, |refusal| refusal.number),
        negative: (detail < 0).into(),
        magnitude: detail.unsigned_abs(),
        index,
        pitch_q14,
        correction_q12,
        energy_q10,
        energy_clips,
        target_clips,
        innovation_clips: innovation,
        target_innovation_clips: product,
        adaptive_innovation_clips: cross,
    }
}

/// The call of a feed's gain record that is not refused, of no other.
pub fn call(record: &Record) -> Option<Call> {
    if record.kind != 4 {
        return None;
    }
    recorded(&record.body).ok()
}

/// The call of a gain record: target, adaptive words, filtered innovation, exponent, fraction, limit.
pub fn recorded(body: &[u8]) -> Result<Call, SignedRefusal> {
    let (words, choice) = body.split_at(body.len() - 1);
    let words = feed::words(words);
    let mut words = words.as_slice();
    let [target, adaptive, filtered] = [(); LISTS].map(|()| taken(&mut words));
    let [exponent, fraction] = taken(&mut words);
    let fraction = fraction as u16;
    let limit = checked([SUBFRAME; LISTS], exponent, fraction, choice[0])?;
    Ok(Call {
        target,
        adaptive,
        filtered,
        exponent,
        fraction,
        limit,
    })
}
