//! Calls whose target is made of the other lists by wished gains.

use super::{
    calls::Call,
    rows::{base, within},
    sources::{any_loudness, fraction, limit, with_pair},
};
use crate::{
    codec::mr74::gain::TABLE,
    inputs::Random,
    words::{SUBFRAME, mixed, quiet},
};

/// A target that is made of the other lists by the gains of a row, at times with a little noise.
pub fn row_call(random: &mut Random) -> Call {
    let limit = limit(random);
    let row = random.below(within(limit) as u64) as usize;
    let [pitch, correction, _] = TABLE[row].map(f64::from);
    let [adaptive, filtered] = [(); 2].map(|()| {
        let places = random.below(8) as u32;
        quiet::<SUBFRAME>(random, places)
    });
    // The exponent with which both lists have about the same part.
    let bits = |words: &[i16; SUBFRAME]| {
        let squares: i64 = words.iter().map(|&word| i64::from(word).pow(2)).sum();
        squares.max(1).ilog2() as i16
    };
    let louder = (bits(&adaptive) - bits(&filtered)) / 2;
    let exponent = 12 + louder - random.below(3) as i16;
    let fraction = fraction(random);
    let gain = correction / 4096.0 * predicted_gain(exponent, fraction);
    let noise_places = 6 + random.below(10) as u32;
    let noise: [i16; SUBFRAME] = quiet(random, noise_places);
    let target = std::array::from_fn(|place| {
        let word = pitch / 16384.0 * f64::from(adaptive[place])
            + gain / 4096.0 * f64::from(filtered[place]);
        (word.round() as i16).saturating_add(noise[place])
    });
    Call {
        target,
        adaptive,
        filtered,
        exponent,
        fraction,
        limit,
    }
}

/// What a predicted pair stands for.
pub fn predicted_gain(exponent: i16, fraction: u16) -> f64 {
    f64::from(base(fraction)) / 16384.0 * 2f64.powi(exponent.into())
}

/// A target of which the gain is about the greatest.
pub fn held_call(random: &mut Random) -> Call {
    let adaptive = any_loudness(random);
    let factor = 1.2 + (random.below(2001) as f64 - 1000.0) / 1e6;
    multiple_call(random, adaptive, factor)
}

/// A target that is about so many times the adaptive words.
fn multiple_call(random: &mut Random, adaptive: [i16; SUBFRAME], factor: f64) -> Call {
    let target = adaptive.map(|word| (factor * f64::from(word)).round() as i16);
    let filtered = mixed(random);
    with_pair(random, [target, adaptive, filtered])
}

/// Words as of a steady tone: the gain lies about the resonance limit or above it, and the predicted
/// gain of the innovation is so small that the row is the one of the nearest pitch gain.
pub fn tone_call(random: &mut Random) -> Call {
    let places = random.below(6) as u32;
    let adaptive = quiet(random, places);
    let factor = 0.85 + random.below(401) as f64 / 1000.0;
    let call = multiple_call(random, adaptive, factor);
    let exponent = -1 - random.below(16) as i16;
    Call { exponent, ..call }
}
