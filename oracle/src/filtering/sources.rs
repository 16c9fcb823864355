//! The calls of the comparisons, each drawn from one source of words.

use super::{COEFFICIENTS, INPUT, ORDER, calls::Call, limits};
use crate::{
    codec::mr74::synthesis::SynthesisFilter,
    counts::{Found, cases},
    inputs::Random,
    speech::Speech,
    words::{SUBFRAME, extreme, mixed, quiet, shortened, uniform},
};
use std::fmt;

/// What stands first among the coefficients of a prediction filter, 1 with 12 fraction bits.
pub const ONE: i16 = 4096;

cases! {
    Speech => "call of words that resemble speech, with stable filters",
    Noise => "call of random words of any loudness",
    Extreme => "call of extreme words",
    Unstable => "call with filters of any coefficients, most of them unstable",
    FullScale => "call of words of full scale whose signs agree with the coefficients', or turn",
    Limit => "call of words made for a sum at a limit",
    Product => "call of words made for a product of -32768 by -32768",
    Feed => "call of the feed",
    ChangedFeed => "call of the feed's words, changed",
    Zero => "coefficients that start with 0",
    Least => "coefficients that start with -32768",
    Greatest => "coefficients that start with 32767",
}

impl Case {
    /// Whether only a feed can meet the case.
    pub fn needs_feed(self) -> bool {
        matches!(self, Self::Feed | Self::ChangedFeed)
    }
}

/// A call of a comparison, and where its words come from.
pub struct Drawn {
    pub index: u64,
    source: Case,
    pub call: Call,
}

impl Drawn {
    /// The call of this index; the first are those of the feed, where there is one.
    pub fn at(index: u64, feed: &[Call]) -> Self {
        const SOURCES: u64 = 9;
        let random = &mut Random::at(index);
        let (source, call) = match index % SOURCES {
            _ if index < feed.len() as u64 => (Case::Feed, feed[index as usize].clone()),
            0 if !feed.is_empty() => (Case::ChangedFeed, changed_call(random, feed)),
            0 | 1 => (Case::Speech, speech_call(random)),
            2 => (Case::Noise, noise_call(random)),
            3 => (Case::Extreme, extreme_call(random)),
            4 | 5 => (Case::Unstable, unstable_call(random)),
            6 => (Case::FullScale, full_scale_call(random)),
            7 => (Case::Limit, limits::limit_call(random)),
            _ => (Case::Product, limits::product_call(random)),
        };
        Self {
            index,
            source,
            call,
        }
    }

    pub fn cases(&self) -> Found<Case> {
        let mut found = Found::new();
        found.case(self.source, true);
        let first = self.call.coefficients[0];
        found.case(Case::Zero, first == 0);
        found.case(Case::Least, first == i16::MIN);
        found.case(Case::Greatest, first == i16::MAX);
        found
    }
}

impl fmt::Debug for Drawn {
    fn fmt(&self, f: &mut fmt::Formatter<'_>) -> fmt::Result {
        const NAMES: [&str; 5] = [
            "speech",
            "coefficients",
            "quantized",
            "error history",
            "weighting history",
        ];
        write!(f, "call {}", self.index)?;
        for (name, list) in NAMES.into_iter().zip(self.call.lists()) {
            write!(f, " {name} ")?;
            shortened(list, f)?;
        }
        Ok(())
    }
}

/// Stable filters, the speech that the first makes of pulses and noise, and quieter histories.
pub fn speech_call(random: &mut Random) -> Call {
    let coefficients = stable_filter(random);
    let quantized = match random.below(8) {
        0 => stable_filter(random),
        _ => near(random, &coefficients),
    };
    let bits = 3 + random.below(11) as u32;
    let [error_places, weighting_places] = [(); 2].map(|()| 17 - bits + random.below(3) as u32);
    Call {
        speech: speech_words(random, &coefficients, bits),
        coefficients,
        quantized,
        error_history: quiet(random, error_places.min(15)),
        weighting_history: quiet(random, weighting_places.min(15)),
    }
}

/// Pulses and noise, filtered. The highest pulses are of so many bits.
fn speech_words(
    random: &mut Random,
    coefficients: &[i16; COEFFICIENTS],
    bits: u32,
) -> [i16; INPUT] {
    let excitation = Speech::new(random, bits).excitation;
    let (subframes, _) = excitation.as_chunks();
    let mut filter = SynthesisFilter::default();
    let mut words = Vec::new();
    for subframe in &subframes[..2] {
        words.extend(filter.filter(coefficients, subframe).samples_q0);
    }
    *words.last_chunk().expect("two subframes")
}

/// The filter of reflection coefficients, where its words hold it.
fn filter(reflections: [f64; ORDER]) -> Option<[i16; COEFFICIENTS]> {
    let mut filter = [0.0; COEFFICIENTS];
    filter[0] = 1.0;
    for (order, reflection) in (1..).zip(reflections) {
        let before = filter;
        for place in 1..=order {
            filter[place] += reflection * before[order - place];
        }
    }
    let words = filter.map(|value| (value * f64::from(ONE)).round());
    let fits = words.iter().all(|word| word.abs() <= f64::from(i16::MAX));
    fits.then(|| words.map(|word| word as i16))
}

/// A filter whose reflection coefficients are within this.
fn filter_within(random: &mut Random, most: f64) -> [i16; COEFFICIENTS] {
    loop {
        let reflections: [i16; ORDER] = uniform(random);
        let reflections = reflections.map(|word| most * f64::from(word) / f64::from(1 << 15));
        if let Some(filter) = filter(reflections) {
            return filter;
        }
    }
}

/// A synthesis filter is stable where all reflection coefficients are within 1.
fn stable_filter(random: &mut Random) -> [i16; COEFFICIENTS] {
    let most = [0.3, 0.6, 0.8, 0.97][random.below(4) as usize];
    filter_within(random, most)
}

/// A synthesis filter is not stable where the last coefficient is not within 1.
fn growing_filter(random: &mut Random) -> [i16; COEFFICIENTS] {
    loop {
        let filter = filter_within(random, 1.3);
        if filter[ORDER].abs() > ONE {
            return filter;
        }
    }
}

/// A filter of any coefficients, mostly an unstable one.
fn any_filter(random: &mut Random) -> [i16; COEFFICIENTS] {
    let mut filter = match random.below(4) {
        0 => growing_filter(random),
        1 => mixed(random),
        _ => {
            let places = random.below(5) as u32;
            quiet(random, places)
        }
    };
    filter[0] = match random.below(4) {
        0 => other_first(random),
        _ => ONE,
    };
    filter
}

/// These coefficients with a little noise.
fn near(random: &mut Random, coefficients: &[i16; COEFFICIENTS]) -> [i16; COEFFICIENTS] {
    let places = 7 + random.below(4) as u32;
    let noise: [i16; COEFFICIENTS] = quiet(random, places);
    let mut words = *coefficients;
    for (word, noise) in words.iter_mut().zip(noise).skip(1) {
        *word = word.saturating_add(noise);
    }
    words
}

/// A first coefficient that no prediction filter has.
fn other_first(random: &mut Random) -> i16 {
    match random.below(4) {
        0 => 0,
        1 => i16::MIN,
        2 => i16::MAX,
        _ => uniform::<1>(random)[0],
    }
}

/// The lists of one of the feed's calls, louder or quieter, at times with the filters of another.
fn changed_call(random: &mut Random, feed: &[Call]) -> Call {
    let [mut call, other] =
        [(); 2].map(|()| feed[random.below(feed.len() as u64) as usize].clone());
    let loudness = [1, 2, 8, 32, 256][random.below(5) as usize];
    let places = random.below(8) as u32;
    let words = call.speech.iter_mut().chain(&mut call.error_history);
    for word in words.chain(&mut call.weighting_history) {
        *word = word.saturating_mul(loudness) >> places;
    }
    match random.below(4) {
        0 => {
            call.coefficients = other.coefficients;
            call.quantized = other.quantized;
        }
        1 => call.quantized = other.quantized,
        _ => {}
    }
    if random.below(8) == 0 {
        call.coefficients[0] = other_first(random);
    }
    if random.below(8) == 0 {
        call.quantized[0] = other_first(random);
    }
    call
}

/// Each list of any loudness.
pub fn noise_call(random: &mut Random) -> Call {
    let [a, b, c, d, e] = [(); 5].map(|()| random.below(16) as u32);
    let mut call = Call {
        speech: quiet(random, a),
        coefficients: quiet(random, b),
        quantized: quiet(random, c),
        error_history: quiet(random, d),
        weighting_history: quiet(random, e),
    };
    if random.below(2) == 0 {
        call.coefficients[0] = ONE;
        call.quantized[0] = ONE;
    }
    call
}

fn extreme_call(random: &mut Random) -> Call {
    let coefficients = match random.below(4) {
        0 => stable_filter(random),
        1 => mixed(random),
        _ => extreme(random),
    };
    let quantized = match random.below(4) {
        0 => near(random, &coefficients),
        1 => mixed(random),
        _ => extreme(random),
    };
    Call {
        speech: extreme(random),
        coefficients,
        quantized,
        error_history: mixed(random),
        weighting_history: mixed(random),
    }
}

/// Filters whose words mostly grow until they clip.
fn unstable_call(random: &mut Random) -> Call {
    let coefficients = any_filter(random);
    let quantized = match random.below(4) {
        0 => near(random, &coefficients),
        1 => stable_filter(random),
        _ => any_filter(random),
    };
    let places = random.below(16) as u32;
    let speech = match random.below(4) {
        0 => mixed(random),
        1 => speech_words(random, &coefficients, 16 - places.max(1)),
        _ => quiet(random, places),
    };
    Call {
        speech,
        coefficients,
        quantized,
        error_history: mixed(random),
        weighting_history: mixed(random),
    }
}

/// Words of full scale with unstable filters.
pub fn loud_call(random: &mut Random) -> Call {
    Call {
        speech: uniform(random),
        coefficients: growing_filter(random),
        quantized: growing_filter(random),
        error_history: uniform(random),
        weighting_history: uniform(random),
    }
}

/// Words of full scale whose products have one sign up to a tap and the other from there, so that
/// a sum that was clipped comes back.
fn full_scale_call(random: &mut Random) -> Call {
    let places = random.below(4) as u32;
    let mut coefficients: [i16; COEFFICIENTS] = match random.below(2) {
        0 => uniform(random).map(full_scale),
        _ => quiet(random, places),
    };
    if random.below(4) == 0 {
        coefficients[0] = other_first(random);
    }
    let mut quantized = match random.below(2) {
        0 => coefficients,
        _ => quiet(random, places),
    };
    if random.below(8) == 0 {
        [coefficients, quantized] = level_filters(random);
    }
    let mut speech = uniform(random).map(full_scale);
    let place = ORDER + random.below(SUBFRAME as u64) as usize;
    for (tap, word) in turned(random, &coefficients).into_iter().enumerate() {
        speech[place - tap] = word;
    }
    Call {
        speech,
        coefficients,
        quantized,
        error_history: history(turned(random, &quantized)),
        weighting_history: history(turned(random, &coefficients)),
    }
}

/// Coefficients and quantized ones with which the words of the impulse response stay at one end.
/// In its last filter the first two products clip each sum there, and the later ones, more of them
/// from word to word, bring it back.
fn level_filters(random: &mut Random) -> [[i16; COEFFICIENTS]; 2] {
    let words: [i16; COEFFICIENTS] = uniform(random);
    let mut coefficients = words.map(|word| full_scale(word & i16::MAX));
    coefficients[1] = -coefficients[1];
    let mut quantized = quiet(random, 8);
    quantized[0] = ONE + 1000 + random.below(7000) as i16;
    quantized[1] = full_scale(words[1] | i16::MIN);
    if random.below(2) == 0 {
        quantized[0] = -quantized[0];
    }
    [coefficients, quantized]
}

/// A word at about the end that this word is nearer to.
fn full_scale(word: i16) -> i16 {
    let end = if word < 0 { i16::MIN } else { i16::MAX };
    end - (word >> 5)
}

/// A word for each tap, which agrees with the coefficient's sign or turns it.
fn turned(random: &mut Random, coefficients: &[i16; COEFFICIENTS]) -> [i16; COEFFICIENTS] {
    let turns_at = random.below(COEFFICIENTS as u64 + 1) as usize;
    let turns = random.below(2) == 0;
    std::array::from_fn(|tap| {
        let agrees = turns ^ (tap < turns_at);
        if (coefficients[tap] >= 0) == agrees {
            i16::MAX
        } else {
            i16::MIN
        }
    })
}

/// The history in which each tap but the first finds its word when it makes the first word.
pub fn history(words: [i16; COEFFICIENTS]) -> [i16; ORDER] {
    std::array::from_fn(|place| words[ORDER - place])
}
