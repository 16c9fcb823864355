//! The calls of the comparison, each drawn from one source of words.

use super::{
    calls::{Call, LAGS},
    limits,
};
use crate::{
    counts::cases,
    inputs::Random,
    speech::Speech,
    words::{SUBFRAME, extreme, impulse_response, mixed, quiet, uniform},
};
use std::fmt;

cases! {
    Speech => "search of words that resemble speech",
    Noise => "search of random words of any loudness",
    Extreme => "search of extreme words",
    FullScale => "search of words of full scale",
    Equal => "search of words of which many are equal",
    Greatest => "search of words made for magnitudes of 32767",
    Energy => "search of words at a limit of the energy",
    Total => "search of words whose total is about a power of two",
    Turned => "search of a loud impulse response whose correlations turn",
    Raised => "search of words made for clips in the sharpening",
    Feed => "search of the feed",
    ChangedFeed => "search of the feed's words, changed",
}

impl Case {
    /// Whether only a feed can meet the case.
    pub fn needs_feed(self) -> bool {
        matches!(self, Self::Feed | Self::ChangedFeed)
    }
}

/// The sources that the calls are drawn from in turn.
pub const SOURCES: u64 = 11;

/// The gains at the ends, about 0, and about those from which the double is clipped.
pub const GAINS: [i16; 12] = [
    i16::MIN,
    -i16::MAX,
    -16385,
    -16384,
    -16383,
    -1,
    0,
    1,
    16383,
    16384,
    16385,
    i16::MAX,
];

/// A call of the comparison, and where its words come from.
pub struct Drawn {
    pub index: u64,
    pub source: Case,
    pub call: Call,
}

impl Drawn {
    /// The call of this index; the first are those of the feed, where there is one.
    pub fn at(index: u64, feed: &[Call]) -> Self {
        let random = &mut Random::at(index);
        let (source, call) = match index % SOURCES {
            _ if index < feed.len() as u64 => (Case::Feed, feed[index as usize].clone()),
            0 if !feed.is_empty() => (Case::ChangedFeed, changed_call(random, feed)),
            0 | 1 => (Case::Speech, any_speech_call(random)),
            2 => (Case::Noise, noise_call(random)),
            3 => (Case::Extreme, extreme_call(random)),
            4 => (Case::FullScale, full_scale_call(random)),
            5 => (Case::Equal, equal_call(random)),
            6 => (Case::Greatest, limits::greatest_call(random)),
            7 => (Case::Energy, limits::energy_call(random)),
            8 => (Case::Total, limits::total_call(random)),
            9 => (Case::Turned, limits::turned_call(random)),
            _ => (Case::Raised, limits::raised_call(random)),
        };
        Self {
            index,
            source,
            call,
        }
    }
}

impl fmt::Debug for Drawn {
    fn fmt(&self, f: &mut fmt::Formatter<'_>) -> fmt::Result {
        write!(f, "call {} {:?}", self.index, self.call)
    }
}

/// A lag that sharpens, one at an end or at the end of those that sharpen, or any.
pub fn lag(random: &mut Random) -> u16 {
    let (first, last) = (*LAGS.start(), *LAGS.end());
    match random.below(8) {
        0 => first,
        1 => first + 1,
        2 => 39,
        3 => 40,
        4 => last,
        5 => first + random.below(21) as u16,
        _ => first + random.below(u64::from(last - first) + 1) as u16,
    }
}

/// A gain at an end, of those that speech has, or any.
pub fn gain(random: &mut Random) -> i16 {
    match random.below(4) {
        0 => uniform::<1>(random)[0],
        1 => random.below(16385) as i16,
        _ => GAINS[random.below(GAINS.len() as u64) as usize],
    }
}

/// Speech whose highest pulses are of so many bits, with its own lag.
pub fn speech_call(random: &mut Random, bits: u32) -> Call {
    let speech = Speech::new(random, bits);
    Call {
        target: speech.target(),
        impulse: speech.impulse,
        lag: speech.open_loop(random),
        gain: random.below(13018) as i16,
    }
}

fn any_speech_call(random: &mut Random) -> Call {
    let bits = 3 + random.below(13) as u32;
    let mut call = speech_call(random, bits);
    if random.below(4) == 0 {
        call.lag = lag(random);
        call.gain = gain(random);
    }
    call
}

fn noise_call(random: &mut Random) -> Call {
    let [a, b] = [(); 2].map(|()| random.below(16) as u32);
    Call {
        target: quiet(random, a),
        impulse: quiet(random, b),
        lag: lag(random),
        gain: gain(random),
    }
}

fn extreme_call(random: &mut Random) -> Call {
    let target = match random.below(4) {
        0 => mixed(random),
        _ => extreme(random),
    };
    let impulse = match random.below(4) {
        0 => impulse_response(random),
        1 => mixed(random),
        _ => extreme(random),
    };
    Call {
        target,
        impulse,
        lag: lag(random),
        gain: gain(random),
    }
}

/// Words of full scale, the impulse response at times a decaying one.
pub fn full_scale_call(random: &mut Random) -> Call {
    let impulse = match random.below(4) {
        0 => impulse_response(random).map(|word| word.saturating_mul(8)),
        _ => uniform(random),
    };
    Call {
        target: uniform(random),
        impulse,
        lag: lag(random),
        gain: gain(random),
    }
}

/// Words of few values, so that correlations and energies are often equal.
fn equal_call(random: &mut Random) -> Call {
    let [mut target, mut impulse] = [(); 2].map(|()| few_values(random));
    match random.below(4) {
        0 => target = [target[0]; SUBFRAME],
        1 => impulse[1..].fill(0),
        2 => {
            let kept = random.below(SUBFRAME as u64) as usize;
            let word = impulse[kept];
            impulse.fill(0);
            impulse[kept] = word;
        }
        _ => {}
    }
    Call {
        target,
        impulse,
        lag: lag(random),
        gain: gain(random),
    }
}

/// Words of the values -1, 0 and 1 times a factor, or of those two or three that are drawn.
fn few_values(random: &mut Random) -> [i16; SUBFRAME] {
    let places = random.below(16) as u32;
    let [factor, a, b] = quiet(random, places);
    let values = match random.below(3) {
        0 => [factor, 0, factor.saturating_neg()],
        1 => [factor, a, b],
        _ => [factor, factor, a],
    };
    let rest = random.below(4);
    std::array::from_fn(|_| match random.below(4 + rest) {
        choice @ 0..3 => values[choice as usize],
        _ => 0,
    })
}

/// The words of one of the feed's calls, louder or quieter, at times with the response, the lag or
/// the gain of another.
fn changed_call(random: &mut Random, feed: &[Call]) -> Call {
    let [mut call, other] =
        [(); 2].map(|()| feed[random.below(feed.len() as u64) as usize].clone());
    let loudness = [1, 2, 8, 32, 256][random.below(5) as usize];
    let places = random.below(8) as u32;
    for word in &mut call.target {
        *word = word.saturating_mul(loudness) >> places;
    }
    match random.below(4) {
        0 => call.impulse = other.impulse,
        1 => call.impulse = call.impulse.map(|word| word.saturating_mul(loudness)),
        2 => call.gain = gain(random),
        _ => {
            call.lag = lag(random);
            call.gain = gain(random);
        }
    }
    call
}
