//! The choice of the row, done once more to see its sums, its scales and its ties, by the published
//! rule and by others.

use super::{
    calls::Call,
    correlations::{self, Correlations, Dot},
};
use crate::{
    codec::mr74::{
        gain::{
            TABLE,
            quantization::{
                CODE_EXPONENT_BIAS, GAIN_TERMS, GainLimit, energy_coefficients, fractional,
                multiply_word, normalize, rounded, shift,
            },
        },
        logarithm,
    },
    sums::Sum,
};

pub const ROWS: usize = TABLE.len();
/// The rows within the resonance limit, which are the first.
pub const RESONANCE_ROWS: usize = 96;
/// The sums with the innovation: its energy, by the target, and by the adaptive words.
pub const INNOVATION_SUMS: usize = 3;
/// The most places by which a long is shifted right.
const MOST_PLACES: i16 = 31;

#[derive(Clone, Copy, PartialEq, Eq)]
pub enum Rule {
    Published,
    /// The sums with the innovation are rounded, not cut.
    Rounded,
    /// The innovation is shifted with a rounding toward zero.
    InnovationToZero,
    /// The sums with the innovation are clipped only at their end.
    LateClip,
    /// Neither negative is clipped.
    NegativesWrap,
    /// The adaptive sums are not repeated with quarters.
    NeverRepeated,
    /// The negative terms of a distance come first.
    NegativeFirst,
    /// On a tie the higher row is taken.
    HigherOnTie,
}

impl Rule {
    fn negative(self, word: i16) -> i16 {
        match self {
            Self::NegativesWrap => word.wrapping_neg(),
            _ => word.saturating_neg(),
        }
    }
}

/// What the published quantizer has made when it has chosen.
pub struct Inside {
    rule: Rule,
    pub adaptive: Correlations,
    /// The sums with the innovation, and what is taken of them.
    pub sums: [Dot; INNOVATION_SUMS],
    pub cuts: [i16; INNOVATION_SUMS],
    /// The terms' factors: the adaptive energy, the target by the adaptive words, then the three
    /// sums with the innovation.
    pub fractions: [i16; GAIN_TERMS],
    pub scales: [i16; GAIN_TERMS],
    pub distances: [Sum; ROWS],
}

impl Inside {
    pub fn by(rule: Rule, call: &Call) -> Self {
        let of_adaptive = match rule {
            Rule::NeverRepeated => correlations::Rule::NeverRepeated,
            _ => correlations::Rule::Published,
        };
        let adaptive = Correlations::by(of_adaptive, &call.target, &call.adaptive);
        let innovation = call.filtered.map(|word| match rule {
            Rule::InnovationToZero => word / 8,
            _ => word >> 3,
        });
        let sums =
            [&innovation, &call.target, &call.adaptive].map(|left| Dot::of(left, &innovation));
        let longs = sums.each_ref().map(|dot| match rule {
            Rule::LateClip => dot.sum.clipped_late(),
            _ => dot.sum.clipped,
        });
        let places = longs.map(normalize);
        let cuts: [i16; INNOVATION_SUMS] = std::array::from_fn(|sum| {
            let shifted = shift(longs[sum], places[sum]);
            match rule {
                Rule::Rounded => rounded(shifted),
                _ => (shifted >> 16) as i16,
            }
        });
        let Correlations { yy, xy } = &adaptive;
        let fractions = [
            yy.word,
            rule.negative(xy.word),
            cuts[0],
            rule.negative(cuts[1]),
            cuts[2],
        ];
        let exponents = [
            yy.exponent(),
            xy.exponent() + 1,
            -3 - places[0],
            7 - places[1],
            7 - places[2],
        ];
        if rule == Rule::Published {
            let published = energy_coefficients(
                &call.target,
                &call.adaptive,
                &call.filtered,
                adaptive.gain().correlations,
            );
            assert_eq!((fractions, exponents), published, "the factors found here");
        }
        let code = call.exponent - CODE_EXPONENT_BIAS;
        let scales = [
            exponents[0] - 13,
            exponents[1] - 14,
            exponents[2] + 15 + 2 * code,
            exponents[3] + code,
            exponents[4] + 1 + code,
        ];
        let mut inside = Self {
            rule,
            adaptive,
            sums,
            cuts,
            fractions,
            scales,
            distances: std::array::from_fn(|_| Sum::default()),
        };
        let coefficients = inside.coefficients();
        let base = base(call.fraction);
        inside.distances = std::array::from_fn(|row| inside.distance(&coefficients, row, base));
        inside
    }

    pub fn greatest_scale(&self) -> i16 {
        *self.scales.iter().max().expect("five terms")
    }

    /// The places by which each factor is shifted right.
    pub fn places(&self) -> [i16; GAIN_TERMS] {
        let greatest = self.greatest_scale();
        self.scales.map(|scale| greatest + 1 - scale)
    }

    /// Whether each factor is shifted right by more places than a long has.
    pub fn is_shifted_out(&self) -> [bool; GAIN_TERMS] {
        self.places().map(|places| places > MOST_PLACES)
    }

    fn coefficients(&self) -> [i32; GAIN_TERMS] {
        let places = self.places();
        std::array::from_fn(|term| shift(i32::from(self.fractions[term]) << 16, -places[term]) & !1)
    }

    fn distance(&self, coefficients: &[i32; GAIN_TERMS], row: usize, base: i16) -> Sum {
        let [pitch, correction, _] = TABLE[row];
        let code = fractional(correction, base);
        let factors = [
            fractional(pitch, pitch),
            pitch,
            fractional(code, code),
            code,
            fractional(code, pitch),
        ];
        let mut terms: [i32; GAIN_TERMS] =
            std::array::from_fn(|term| multiply_word(coefficients[term], factors[term]));
        if self.rule == Rule::NegativeFirst {
            terms.sort();
        }
        Sum::of(terms)
    }

    /// The row of the least distance among those within the limit.
    pub fn chosen(&self, limit: GainLimit) -> usize {
        let rows = 0..within(limit);
        let distance = |row: &usize| self.distances[*row].clipped;
        let least = match self.rule {
            Rule::HigherOnTie => rows.rev().min_by_key(distance),
            _ => rows.min_by_key(distance),
        };
        least.expect("a row")
    }

    /// How many rows within the limit have the least distance.
    pub fn ties(&self, limit: GainLimit) -> usize {
        let distances = self.distances[..within(limit)].iter();
        let least = self.distances[self.chosen(limit)].clipped;
        distances.filter(|sum| sum.clipped == least).count()
    }
}

/// How many rows are within the limit, which are the first.
pub fn within(limit: GainLimit) -> usize {
    match limit {
        GainLimit::Unrestricted => ROWS,
        GainLimit::Resonance => RESONANCE_ROWS,
    }
}

/// The predicted gain without its exponent, with 14 fraction bits.
pub fn base(fraction: u16) -> i16 {
    logarithm::pow2(14, fraction).expect("a fraction that is not refused") as i16
}
