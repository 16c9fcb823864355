//! Records that are drawn one by one: from the sources of the stages, with faults, or extreme ones.

use super::{
    bodies::{self, places, put},
    stages::Stages,
};
use crate::{
    calls,
    chains::Chain,
    feed::{BODIES, Record, bytes},
    filtering, gain,
    inputs::{Argument, Random},
    open_loop::{self, HALF_FRAME},
    pulses::{self, GAINS},
    subframes::number,
    words::{EXCITATION, SUBFRAME, extreme},
};

/// The kinds in turn, as often as they are drawn.
const KINDS: [u8; 40] = [
    0, 1, 1, 1, 1, 1, 2, 2, 2, 2, 2, 2, 2, 2, 2, 2, 2, 2, 3, 3, 3, 3, 3, 4, 4, 4, 4, 4, 5, 5, 5, 6,
    6, 6, 6, 6, 6, 6, 6, 6,
];

fn kind(random: &mut Random) -> u8 {
    KINDS[random.below(KINDS.len() as u64) as usize]
}

pub fn byte(random: &mut Random) -> u8 {
    random.word() as u8
}

/// A record of any kind, accepted or not.
pub fn mixed(random: &mut Random, stages: &Stages) -> Record {
    let kind = kind(random);
    mixed_of(random, stages, kind)
}

/// A record of this kind from one of its stage's sources; every other one may have a fault.
pub fn mixed_of(random: &mut Random, stages: &Stages, kind: u8) -> Record {
    let source = random.word();
    let faults = match random.below(2) {
        0 => 0,
        _ => random.below(8),
    };
    let body = match kind {
        0 => Vec::new(),
        1 => {
            let mut chain = open_loop::Chain::at(source, &[]);
            bytes(&chain.words(&stages.detector.history_q0))
        }
        2 => {
            let mut body = bodies::pitch(&Chain::at(source, &[]).call(&stages.searcher));
            add_pitch_faults(random, &mut body, faults);
            body
        }
        3 => {
            let mut body = bodies::pulses(&pulses::Drawn::at(source, &[]).call);
            if faults & 1 != 0 {
                body[places::PULSE_LAG] = byte(random);
            }
            body
        }
        4 => {
            let mut body = bodies::gain(&gain::Drawn::at(source, &[]).call);
            add_gain_faults(random, &mut body, faults);
            body
        }
        5 => bodies::filtering(&filtering::Drawn::at(source, &[]).call),
        _ => reading(random, stages.reader.next, faults),
    };
    Record { kind, body }
}

/// Other numbers, each of which may be good or bad.
fn add_pitch_faults(random: &mut Random, body: &mut [u8], faults: u64) {
    if faults & 1 != 0 {
        body[places::PITCH_SUBFRAME] = subframe(random);
    }
    for (place, fault) in places::PITCH_LAGS.into_iter().zip([2, 4]) {
        if faults & fault != 0 {
            body[place] = byte(random);
        }
    }
}

fn add_gain_faults(random: &mut Random, body: &mut [u8], faults: u64) {
    if faults & 1 != 0 {
        put(body, places::EXPONENT, i16::random(random) as u16);
    }
    if faults & 2 != 0 {
        put(body, places::FRACTION, u16::random(random));
    }
    if faults & 4 != 0 {
        body[places::LIMIT] = match random.below(2) {
            0 => random.below(4) as u8,
            _ => byte(random),
        };
    }
}

/// A number that is mostly that of a subframe.
fn subframe(random: &mut Random) -> u8 {
    match random.below(4) {
        0 => byte(random),
        _ => random.below(6) as u8,
    }
}

/// A reading of this subframe, or of another; its index is one that a relative reading takes, or
/// any.
fn reading(random: &mut Random, expected: u8, faults: u64) -> Vec<u8> {
    let subframe = match faults & 1 {
        0 => expected,
        _ => subframe(random),
    };
    let index = match random.below(2) {
        0 => random.below(34) as u8,
        _ => byte(random),
    };
    vec![subframe, index]
}

/// Lags, subframes and limits at the ends of those that are good, and about the ends of a byte.
const LAGS: [u8; 14] = [0, 1, 18, 19, 20, 21, 84, 85, 142, 143, 144, 145, 254, 255];
const SUBFRAMES: [u8; 8] = [0, 1, 2, 3, 4, 5, 6, 255];
const LIMITS: [u8; 8] = [0, 1, 0, 1, 0, 1, 2, 255];
const INDEXES: [u8; 10] = [0, 1, 30, 31, 32, 195, 196, 197, 198, 255];
const EXPONENTS: [i16; 10] = [i16::MIN, -129, -128, -127, -1, 0, 1, 126, 127, 128];
const FRACTIONS: [u16; 6] = [0, 1, 32766, 32767, 32768, u16::MAX];

pub fn one_of<T: Copy, const N: usize>(random: &mut Random, values: [T; N]) -> T {
    values[random.below(N as u64) as usize]
}

/// The good number, or one of the others.
fn at_times<const N: usize>(random: &mut Random, good: u8, others: [u8; N]) -> u8 {
    match random.below(4) {
        0 => one_of(random, others),
        _ => good,
    }
}

/// A record of extreme words and of numbers at the ends.
pub fn extreme_record(random: &mut Random, stages: &Stages) -> Record {
    let upper = stages.searcher.upper.number();
    let kind = kind(random);
    let mut body = match kind {
        0 => Vec::new(),
        1 => bytes(&extreme::<HALF_FRAME>(random)),
        2 => bodies::pitch(&calls::Call {
            excitation: extreme::<EXCITATION>(random).to_vec(),
            target: extreme::<SUBFRAME>(random).to_vec(),
            impulse: extreme::<SUBFRAME>(random).to_vec(),
            open_loop: [(); 2].map(|()| 20 + random.below(u64::from(upper) - 19) as u16),
            subframe: number(stages.searcher.search.next),
        }),
        5 => [50, 11, 11, 10, 10]
            .into_iter()
            .flat_map(|length| bytes(&extreme::<50>(random)[..length]))
            .collect(),
        6 => vec![stages.reader.next, byte(random)],
        _ => {
            let lists = BODIES[usize::from(kind)] / (2 * SUBFRAME);
            let lists = (0..lists).map(|_| bytes(&extreme::<SUBFRAME>(random)));
            let mut body = lists.collect::<Vec<_>>().concat();
            body.resize(BODIES[usize::from(kind)], 0);
            body
        }
    };
    match kind {
        2 => {
            body[places::PITCH_SUBFRAME] =
                at_times(random, body[places::PITCH_SUBFRAME], SUBFRAMES);
            for place in places::PITCH_LAGS {
                body[place] = match random.below(2) {
                    0 => at_times(random, 20, LAGS),
                    _ => at_times(random, upper, LAGS),
                };
            }
        }
        3 => {
            body[places::PULSE_LAG] = one_of(random, LAGS);
            put(&mut body, places::PULSE_GAIN, one_of(random, GAINS) as u16);
        }
        4 => {
            put(
                &mut body,
                places::EXPONENT,
                one_of(random, EXPONENTS) as u16,
            );
            put(&mut body, places::FRACTION, one_of(random, FRACTIONS));
            body[places::LIMIT] = one_of(random, LIMITS);
        }
        6 => {
            body[0] = at_times(random, body[0], SUBFRAMES);
            body[1] = one_of(random, INDEXES);
        }
        _ => {}
    }
    Record { kind, body }
}
