//! The pitch gain, done once more to see where its sums overflow, by the published rule and by
//! others.

use crate::{
    codec::mr74::gain::quantization::{
        PitchGain, dot, normalize, product, rounded, shift, shift_word,
    },
    published::pitch_gain_ratio,
    sums::Sum,
    words::SUBFRAME,
};

/// The greatest gain.
pub const MOST: i16 = 19661;
/// The least normalized xy of which there is a gain.
const LEAST_XY: i16 = 4;
/// An exponent that is answered is this less the places of the normalization.
const EXPONENT: i16 = 15;

#[derive(Clone, Copy, PartialEq, Eq)]
pub enum Rule {
    Published,
    /// A product that is clipped is no overflow, only an addition is.
    AdditionsAlone,
    /// Only a sum that ends at a limit overflows.
    EndsAtLimit,
    /// No sum is repeated with quarters.
    NeverRepeated,
    /// The quarters are rounded toward zero.
    QuartersToZero,
    /// The sums are clipped only at their end.
    LateClip,
    /// The normalized sums are cut, not rounded.
    Cut,
}

/// A sum of products that starts at 1.
pub struct Dot {
    pub sum: Sum,
    /// Whether a product is clipped, -32768 by -32768.
    pub product: bool,
}

impl Dot {
    pub fn of(left: &[i16; SUBFRAME], right: &[i16; SUBFRAME]) -> Self {
        let pairs = || left.iter().zip(right);
        let products = pairs().map(|(&left, &right)| product(left, right));
        let made = Self {
            sum: Sum::of(std::iter::once(1).chain(products)),
            product: pairs().any(|pair| pair == (&i16::MIN, &i16::MIN)),
        };
        assert_eq!(
            (made.sum.clipped, made.overflows()),
            dot(left, right),
            "the sum found here"
        );
        made
    }

    pub fn overflows(&self) -> bool {
        self.product || self.sum.clips()
    }

    /// Whether the sum is at a limit of its type.
    pub fn ends_at_limit(&self) -> bool {
        [i32::MIN, i32::MAX].contains(&self.sum.clipped)
    }

    fn value(&self, rule: Rule) -> i32 {
        match rule {
            Rule::LateClip => self.sum.clipped_late(),
            _ => self.sum.clipped,
        }
    }
}

/// A normalized sum.
pub struct Correlation {
    pub first: Dot,
    /// The sum with quarters, where the first overflows.
    pub repeated: Option<Dot>,
    /// The sum before its rounding.
    pub shifted: i32,
    pub word: i16,
    /// The places to the left of the normalization, less those of the quarters.
    pub places: i16,
}

impl Correlation {
    fn by(rule: Rule, first: Dot, repeated: impl FnOnce() -> Dot, quarters: i16) -> Self {
        let overflows = match rule {
            Rule::AdditionsAlone => first.sum.clips(),
            Rule::EndsAtLimit => first.overflows() && first.ends_at_limit(),
            Rule::NeverRepeated => false,
            _ => first.overflows(),
        };
        let repeated = overflows.then(repeated);
        let sum = repeated.as_ref().unwrap_or(&first).value(rule);
        let places = normalize(sum);
        let shifted = shift(sum, places);
        Self {
            first,
            repeated,
            shifted,
            word: match rule {
                Rule::Cut => (shifted >> 16) as i16,
                _ => rounded(shifted),
            },
            places: if overflows {
                places - 2 * quarters
            } else {
                places
            },
        }
    }

    /// The sum that is normalized.
    pub fn last(&self) -> &Dot {
        self.repeated.as_ref().unwrap_or(&self.first)
    }

    pub fn exponent(&self) -> i16 {
        EXPONENT - self.places
    }
}

/// The energy of the adaptive words, and the target by the adaptive words.
pub struct Correlations {
    pub yy: Correlation,
    pub xy: Correlation,
}

impl Correlations {
    pub fn by(rule: Rule, target: &[i16; SUBFRAME], adaptive: &[i16; SUBFRAME]) -> Self {
        let quarters = adaptive.map(|word| match rule {
            Rule::QuartersToZero => word / 4,
            _ => word >> 2,
        });
        let energy = Dot::of(adaptive, adaptive);
        let product = Dot::of(target, adaptive);
        Self {
            yy: Correlation::by(rule, energy, || Dot::of(&quarters, &quarters), 2),
            xy: Correlation::by(rule, product, || Dot::of(target, &quarters), 1),
        }
    }

    /// The ratio of the words and the places by which it is shifted, where there is a gain.
    pub fn ratio(&self) -> Option<(i16, i16)> {
        let Self { yy, xy } = self;
        let ratio = || pitch_gain_ratio(xy.word, yy.word);
        (xy.word >= LEAST_XY).then(|| (ratio(), yy.places - xy.places))
    }

    pub fn gain(&self) -> PitchGain {
        let Self { yy, xy } = self;
        let gain = |(ratio, places)| shift_word(ratio, places).min(MOST);
        PitchGain {
            gain_q14: self.ratio().map_or(0, gain),
            correlations: [yy.word, yy.exponent(), xy.word, xy.exponent()],
        }
    }
}
