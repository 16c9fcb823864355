//! Calls made for ties of two rows.

use super::{
    calls::Call,
    limits::target_of_sum,
    rows::{base, within},
    sources::{fraction, limit},
    wished::predicted_gain,
};
use crate::{
    codec::mr74::gain::{
        TABLE,
        quantization::{GainLimit, fractional},
    },
    inputs::Random,
    words::{SUBFRAME, mixed, quiet, with_squares},
};
use std::ops::Range;

/// The rows that a tie is made of are next to each other, and the least distance lies between them.
///
/// Where all terms are shifted out but two, a row's distance is a square times one sum less a gain
/// times another. So two rows tie where the second sum is to the first as the difference of the
/// squares to that of the gains.
struct Tie {
    /// The normalized word of the square's sum, and that of the gain's.
    square: i64,
    gain: i64,
    /// By how many more places the gain's is shifted right.
    later: i64,
}

impl Tie {
    /// A tie of two of these gains that are next to each other, if it is found.
    fn of(random: &mut Random, gains: impl Iterator<Item = i16>) -> Option<Self> {
        const NORMALIZED: Range<i64> = 16384..32768;
        let mut gains: Vec<i16> = gains.collect();
        gains.sort();
        let lower = random.below(gains.len() as u64 - 1) as usize;
        let [a, b] = [gains[lower], gains[lower + 1]];
        let squares = i64::from(fractional(b, b) - fractional(a, a));
        let gains = i64::from(b - a);
        if gains == 0 {
            return None;
        }
        let later = random.below(6) as i64;
        let factor = 1 + random.below(32767 / gains as u64) as i64;
        let tie = Self {
            square: gains * factor,
            gain: (squares * factor) << later,
            later,
        };
        // A word with no bit among those that the shifts take is multiplied exactly.
        let exact = tie.square % 2 == 0 && tie.gain % (2 << later) == 0;
        let normalized = [tie.square, tie.gain]
            .iter()
            .all(|word| NORMALIZED.contains(word));
        (exact && normalized).then_some(tie)
    }

    /// Words whose energy sum, normalized by so many places, starts with the square's word, and the
    /// words whose sum with them, normalized by so many others, starts with the gain's, if they are
    /// found. What follows is 0 or drawn.
    fn lists(
        &self,
        random: &mut Random,
        [square_places, gain_places]: [i64; 2],
        is_drawn: bool,
    ) -> Option<[[i16; SUBFRAME]; 2]> {
        // A sum is 1 and twice that of the products.
        let mut half = |word: i64, places: i64| {
            let one = 1 << (15 - places);
            let rest = if is_drawn { random.below(one) } else { 0 };
            word * one as i64 + rest as i64
        };
        let squares = half(self.square, square_places);
        let sum = half(self.gain, gain_places);
        // One of the words is 1, so that any sum can be reached.
        let mut words = with_squares(random, squares as u64 - 1);
        let free = words.iter().position(|&word| word == 0)?;
        words[free] = 1;
        Some([words, target_of_sum(&words, sum)?])
    }
}

/// A tie of two pitch gains, with an exponent that shifts out all terms of the innovation.
pub fn pitch_call(random: &mut Random) -> Call {
    loop {
        let limit = limit(random);
        let gains = TABLE[..within(limit)].iter().map(|row| row[0]);
        let Some(tie) = Tie::of(random, gains) else {
            continue;
        };
        let places = random.below((15 - tie.later) as u64) as i64;
        let lists = tie.lists(random, [places, places + tie.later], false);
        if let Some([adaptive, target]) = lists {
            return Call {
                target,
                adaptive,
                filtered: mixed(random),
                exponent: random.below(60) as i16 - 128,
                fraction: fraction(random),
                limit,
            };
        }
    }
}

/// A tie of two corrections without adaptive words, at times nearly so. What is cut from the sums
/// with the innovation may round them up.
pub fn correction_call(random: &mut Random) -> Call {
    loop {
        let limit = limit(random);
        let fraction = fraction(random);
        let base = base(fraction);
        let codes = TABLE[..within(limit)]
            .iter()
            .map(|row| fractional(row[1], base));
        let Some(tie) = Tie::of(random, codes) else {
            continue;
        };
        // So quiet that all eighths of the innovation's words are within 4096.
        let square_places = 6 + random.below(6) as i64;
        let gain_places = random.below(12) as i64;
        let lists = tie.lists(random, [square_places, gain_places], true);
        if let Some([eighths, target]) = lists {
            let mut adaptive = [0; SUBFRAME];
            if random.below(4) == 0 {
                adaptive[random.below(SUBFRAME as u64) as usize] = 1;
            }
            return Call {
                target,
                adaptive,
                filtered: eighths.map(|word| 8 * word + random.below(8) as i16),
                exponent: (6 + tie.later + square_places - gain_places) as i16,
                fraction,
                limit,
            };
        }
    }
}

/// The two rows whose corrections are next to each other become the same with some fractions, and
/// without adaptive words a row's distance is that of its correction.
pub fn same_code_call(random: &mut Random) -> Call {
    const CORRECTIONS: [i16; 2] = [TABLE[122][1], TABLE[123][1]];
    let fraction = loop {
        let fraction = random.below(1 << 15) as u16;
        let [a, b] = CORRECTIONS.map(|correction| fractional(correction, base(fraction)));
        if a == b {
            break fraction;
        }
    };
    let exponent = 9 + random.below(3) as i16;
    let places = (exponent - 9) as u32;
    let filtered: [i16; SUBFRAME] = quiet(random, places);
    let gain = f64::from(CORRECTIONS[0]) / 4096.0 * predicted_gain(exponent, fraction);
    Call {
        target: filtered.map(|word| (gain / 4096.0 * f64::from(word)).round() as i16),
        adaptive: [0; SUBFRAME],
        filtered,
        exponent,
        fraction,
        limit: GainLimit::Unrestricted,
    }
}
