//! The calls of the comparisons, each drawn from one source of words.

use super::{
    calls::{Call, EXPONENTS},
    limits, ties, wished,
};
use crate::{
    codec::mr74::{gain::quantization::GainLimit, pitch::search::convolve},
    counts::cases,
    inputs::Random,
    speech::Speech,
    words::{HISTORY, SUBFRAME, extreme, mixed, quiet, uniform},
};
use std::fmt;

cases! {
    Speech => "call of words that resemble speech",
    Noise => "call of random words of any loudness",
    Extreme => "call of extreme words",
    Few => "call of words of a few units",
    FullScale => "call of words of full scale whose signs agree with another list's, or turn",
    Wished => "call of a target made of a wished row",
    Held => "call of a target about 1.2 times the adaptive words",
    Energy => "call of words at a limit of the energy sum",
    Target => "call of words at a limit of the target sum",
    Product => "call of words made for a product of -32768 by -32768",
    Zero => "call of words made for a sum of 0",
    PitchTie => "call of words made for a tie of two pitch gains",
    CorrectionTie => "call of words made for a tie of two corrections",
    SameCode => "call of words made for the two rows whose corrections become the same",
    Aligned => "call of words made for equal scales",
    Clips => "call of words made for a number of clipped terms",
    Feed => "call of the feed",
    ChangedFeed => "call of the feed's words, changed",
}

impl Case {
    /// Whether only a feed can meet the case.
    pub fn needs_feed(self) -> bool {
        matches!(self, Self::Feed | Self::ChangedFeed)
    }
}

/// A call of a comparison, and where its words come from.
pub struct Drawn {
    pub index: u64,
    pub source: Case,
    pub call: Call,
}

impl Drawn {
    /// The call of this index; the first are those of the feed, where there is one.
    pub fn at(index: u64, feed: &[Call]) -> Self {
        const SOURCES: u64 = 16;
        let random = &mut Random::at(index);
        let (source, call) = match index % SOURCES {
            _ if index < feed.len() as u64 => (Case::Feed, feed[index as usize].clone()),
            0 if !feed.is_empty() => (Case::ChangedFeed, changed_call(random, feed)),
            0 | 1 => (Case::Speech, any_speech_call(random)),
            2 => (Case::Noise, noise_call(random)),
            3 => (Case::Extreme, extreme_call(random)),
            4 => (Case::Few, few_call(random)),
            5 => (Case::FullScale, full_scale_call(random)),
            6 => (Case::Wished, wished::row_call(random)),
            7 => (Case::Held, wished::held_call(random)),
            8 => (Case::Energy, limits::energy_call(random)),
            9 => (Case::Target, limits::target_call(random)),
            10 => (Case::Product, limits::product_call(random)),
            11 => (Case::Zero, limits::zero_call(random)),
            12 => (Case::PitchTie, ties::pitch_call(random)),
            13 => (Case::CorrectionTie, ties::correction_call(random)),
            14 => (Case::SameCode, ties::same_code_call(random)),
            _ => (Case::Aligned, limits::aligned_call(random)),
        };
        Self {
            index,
            source,
            call,
        }
    }

    /// The call of this index among those made for a number of clipped terms. `at` draws none of
    /// them, so that the recorded feeds stay as they are.
    pub fn of_clips(index: u64) -> Self {
        Self {
            index,
            source: Case::Clips,
            call: limits::clips_call(&mut Random::at(index)),
        }
    }

    /// The same call with the other limit.
    pub fn with_other_limit(&self) -> Self {
        Self {
            call: self.call.with_other_limit(),
            ..*self
        }
    }
}

impl fmt::Debug for Drawn {
    fn fmt(&self, f: &mut fmt::Formatter<'_>) -> fmt::Result {
        write!(f, "call {} {:?}", self.index, self.call)
    }
}

/// These lists with any pair and limit.
pub fn with_pair(random: &mut Random, [target, adaptive, filtered]: [[i16; SUBFRAME]; 3]) -> Call {
    Call {
        target,
        adaptive,
        filtered,
        exponent: exponent(random),
        fraction: fraction(random),
        limit: limit(random),
    }
}

/// An exponent at an end, one that speech has, or any.
fn exponent(random: &mut Random) -> i16 {
    let (first, last) = (*EXPONENTS.start(), *EXPONENTS.end());
    match random.below(8) {
        0 => first,
        1 => last,
        2 | 3 => first + random.below((last - first) as u64 + 1) as i16,
        4 => random.below(65) as i16 - 32,
        _ => random.below(16) as i16 - 2,
    }
}

pub fn fraction(random: &mut Random) -> u16 {
    match random.below(4) {
        0 => 0,
        1 => 32767,
        _ => random.below(1 << 15) as u16,
    }
}

pub fn limit(random: &mut Random) -> GainLimit {
    match random.below(2) {
        0 => GainLimit::Unrestricted,
        _ => GainLimit::Resonance,
    }
}

/// Words of any loudness.
pub fn any_loudness(random: &mut Random) -> [i16; SUBFRAME] {
    let places = random.below(16) as u32;
    quiet(random, places)
}

/// Speech whose highest pulses are of so many bits, its past at a lag, and four pulses, all of them
/// filtered.
pub fn speech_call(random: &mut Random, bits: u32) -> Call {
    const ONE: i16 = 4096;
    let speech = Speech::new(random, bits);
    let lag = usize::from(speech.open_loop(random));
    let past = &speech.excitation[HISTORY - lag..][..SUBFRAME];
    let mut pulses = [0; SUBFRAME];
    for _ in 0..4 {
        let place = random.below(SUBFRAME as u64) as usize;
        pulses[place] = if random.below(2) == 0 { ONE } else { -ONE };
    }
    Call {
        target: speech.target(),
        adaptive: convolve(past.try_into().expect("a subframe"), &speech.impulse),
        filtered: convolve(&pulses, &speech.impulse),
        exponent: (bits + random.below(4) as u32) as i16 - 5,
        fraction: random.below(1 << 15) as u16,
        limit: limit(random),
    }
}

fn any_speech_call(random: &mut Random) -> Call {
    let bits = 3 + random.below(13) as u32;
    let mut call = speech_call(random, bits);
    if random.below(4) == 0 {
        call.exponent = exponent(random);
        call.fraction = fraction(random);
    }
    call
}

fn noise_call(random: &mut Random) -> Call {
    let lists = [(); 3].map(|()| any_loudness(random));
    with_pair(random, lists)
}

fn extreme_call(random: &mut Random) -> Call {
    let lists = [(); 3].map(|()| match random.below(4) {
        0 => mixed(random),
        _ => extreme(random),
    });
    with_pair(random, lists)
}

/// Few words that are not 0, and those of a few units, so that sums are about 0.
fn few_call(random: &mut Random) -> Call {
    let lists = [0, 0, 3].map(|left| {
        let places = 13 + random.below(3) as u32;
        let words: [i16; SUBFRAME] = quiet(random, places);
        let kept = random.word() & random.word() & random.word();
        std::array::from_fn(|place| match kept >> place & 1 {
            0 => 0,
            _ => words[place] << left,
        })
    });
    with_pair(random, lists)
}

/// Words of full scale, or all of them quieter, whose products have one sign up to a place and the
/// other from there, so that a sum that was clipped comes back.
fn full_scale_call(random: &mut Random) -> Call {
    let adaptive = loud(random);
    let target = turned(random, &adaptive);
    let other = [&adaptive, &target][random.below(2) as usize];
    let filtered = turned(random, other);
    with_pair(random, [target, adaptive, filtered])
}

fn loud(random: &mut Random) -> [i16; SUBFRAME] {
    let places = random.below(6) as u32;
    let noise = random.below(10) as u32;
    uniform(random).map(|word: i16| {
        let end = if word < 0 { i16::MIN } else { i16::MAX };
        end.saturating_sub(word >> noise) >> places
    })
}

/// Loud words that agree with the signs of these up to a place, and turn them from there.
fn turned(random: &mut Random, signs: &[i16; SUBFRAME]) -> [i16; SUBFRAME] {
    let turns_at = random.below(SUBFRAME as u64 + 1) as usize;
    let turns = random.below(2) == 0;
    agreeing(loud(random), signs, |place| turns ^ (place < turns_at))
}

/// These words, each with the other's sign or with the opposite one.
pub fn agreeing(
    words: [i16; SUBFRAME],
    signs: &[i16; SUBFRAME],
    agrees: impl Fn(usize) -> bool,
) -> [i16; SUBFRAME] {
    std::array::from_fn(|place| {
        let word = words[place];
        if ((word < 0) == (signs[place] < 0)) == agrees(place) {
            word
        } else {
            -1 - word
        }
    })
}

/// Words of full scale, of which both sums of `pitch_gain` overflow.
pub fn loud_call(random: &mut Random) -> Call {
    let adaptive = uniform(random);
    let target = agreeing(uniform(random), &adaptive, |_| true);
    let filtered = uniform(random);
    with_pair(random, [target, adaptive, filtered])
}

/// The words of one of the feed's calls, louder or quieter, at times with the innovation or the pair
/// of another.
fn changed_call(random: &mut Random, feed: &[Call]) -> Call {
    let [mut call, other] =
        [(); 2].map(|()| feed[random.below(feed.len() as u64) as usize].clone());
    let loudness = [1, 2, 8, 32, 256][random.below(5) as usize];
    let places = random.below(8) as u32;
    for word in call.target.iter_mut().chain(&mut call.adaptive) {
        *word = word.saturating_mul(loudness) >> places;
    }
    match random.below(4) {
        0 => call.filtered = other.filtered,
        1 => call.adaptive = other.adaptive,
        2 => call.exponent = other.exponent + loudness.ilog2() as i16 - places as i16,
        _ => {
            call.exponent = exponent(random);
            call.fraction = fraction(random);
        }
    }
    call.limit = limit(random);
    call
}
