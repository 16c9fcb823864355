//! Calls made for the limits of the search: magnitudes of 32767, energies where the impulse
//! response begins to be halved, totals about a power of two, and clips in the matrix and in the
//! sharpening.

use super::{
    TRACKS,
    calls::{Call, places},
    sources::{gain, lag},
};
use crate::{
    codec::mr74::codebook::search::sharpen,
    inputs::Random,
    words::{SUBFRAME, extreme, mixed, quiet, uniform, with_squares},
};

/// A gain whose double is -32768, so that the sharpening takes words away as they are.
const MINUS_ONE: i16 = -16384;

/// Correlations of one track that are alike, and no others.
///
/// All words of the sharpened impulse response are multiples of its first, so each correlation is a
/// multiple of that too, and the target can be found from the last place down. With one track alone
/// the total is half of its greatest correlation and 5, and where that is just below a power of two
/// the correlation words are 32767 in magnitude. So it is for a first word of 2^n and a multiple of
/// 32767, and for 2^n + 3 and 2^n - 3, of which a negative correlation becomes -32768.
pub fn greatest_call(random: &mut Random) -> Call {
    loop {
        let (first, multiple) = match random.below(2) {
            0 => (1 << (3 + random.below(11)), i16::MAX),
            _ => {
                let power = 1 << (10 + random.below(5));
                (power + 3, power - 3)
            }
        };
        let mut impulse = [0; SUBFRAME];
        impulse[0] = first;
        for _ in 0..random.below(5) {
            let place = 1 + random.below(SUBFRAME as u64 - 1) as usize;
            impulse[place] = if random.below(2) == 0 { first } else { -first };
        }
        let (lag, gain) = match random.below(4) {
            0 => (lag(random), 0),
            1 | 2 => (40 + random.below(105) as u16, gain(random)),
            _ => (lag(random), MINUS_ONE),
        };
        let mut sharpened = impulse;
        sharpen(&mut sharpened, lag.into(), gain.saturating_mul(2));
        let factors = sharpened.map(|word| word / first);
        if let Some(target) = greatest_target(random, &factors, multiple) {
            return Call {
                target,
                impulse,
                lag,
                gain,
            };
        }
    }
}

/// The target whose correlations with these factors are the multiple, of either sign, or a lower
/// one in a few places of one track, and 0 elsewhere.
fn greatest_target(
    random: &mut Random,
    factors: &[i16; SUBFRAME],
    multiple: i16,
) -> Option<[i16; SUBFRAME]> {
    let track = random.below(TRACKS as u64) as usize;
    let lower = match random.below(3) {
        0 => 0,
        _ => random.word() & random.word(),
    };
    let mut target = [0; SUBFRAME];
    for place in (0..SUBFRAME).rev() {
        let after: i32 = (place + 1..SUBFRAME)
            .map(|later| i32::from(factors[later - place]) * i32::from(target[later]))
            .sum();
        let mut correlation = 0;
        if place % TRACKS == track {
            correlation = i32::from(multiple);
            if lower >> place & 1 != 0 {
                correlation = random.below(multiple as u64) as i32;
            }
            // The sign that keeps the word small, at times the other.
            let turns = random.below(8) == 0 && after.abs() < 1000;
            if (after < 0) ^ turns {
                correlation = -correlation;
            }
        }
        target[place] = i16::try_from(correlation - after).ok()?;
    }
    Some(target)
}

/// An impulse response of an energy at the limit from which it is halved, or at that from which
/// the energy is clipped.
pub fn energy_call(random: &mut Random) -> Call {
    // The energy is 2 and twice the sum of the squares.
    const AT: u64 = 1073709055;
    const CLIP: u64 = 1073741823;
    let squares = match random.below(8) {
        0 => AT + random.below(CLIP - AT),
        1 => CLIP - 1,
        2 => CLIP,
        3..6 => AT,
        _ => AT - 1,
    };
    let target = match random.below(4) {
        0 => extreme(random),
        1 => mixed(random),
        _ => uniform(random),
    };
    let sharpens = random.below(4) == 0;
    Call {
        target,
        impulse: with_squares(random, squares),
        lag: lag(random).max(if sharpens { 19 } else { 40 }),
        gain: if sharpens { 0 } else { gain(random) },
    }
}

/// A total that is a power of two, or a few less or more.
///
/// The first word of the impulse response is 1, so that each word of the target changes the
/// greatest correlation of its track by as little as there is.
pub fn total_call(random: &mut Random) -> Call {
    loop {
        let [a, b] = [random.below(10) as u32, 8 + random.below(8) as u32];
        let mut call = Call {
            target: quiet(random, a),
            impulse: quiet(random, b),
            lag: 40 + random.below(105) as u16,
            gain: gain(random),
        };
        call.impulse[0] = 1;
        let taps = 1 + random.below(SUBFRAME as u64) as usize;
        call.impulse[taps..].fill(0);
        for _ in 0..8 {
            let total = total(&call);
            let power = (total as u64).next_power_of_two() as i64;
            let power = if 4 * total < 3 * power {
                power / 2
            } else {
                power
            };
            let missing = power - 1 - random.below(5) as i64 - total;
            if (-3..=4).contains(&(total + 5 - power)) {
                return call;
            }
            let (place, sum) = loudest(&call);
            let missing = if sum < 0 { -missing } else { missing };
            let word = i64::from(call.target[place]) + missing;
            match i16::try_from(word) {
                Ok(word) => call.target[place] = word,
                Err(_) => break,
            }
        }
    }
}

/// Half of a correlation; none is clipped.
fn half_correlation(call: &Call, place: usize) -> i64 {
    let products = call.target[place..].iter().zip(&call.impulse);
    products.map(|(&x, &h)| i64::from(x) * i64::from(h)).sum()
}

/// The total without its start.
fn total(call: &Call) -> i64 {
    let tracks = (0..TRACKS).map(|track| {
        let sums = places(track).map(|place| half_correlation(call, place).abs());
        sums.max().expect("a track of eight places")
    });
    tracks.sum()
}

/// The place of the greatest correlation, and half of that.
fn loudest(call: &Call) -> (usize, i64) {
    let sums = (0..SUBFRAME).map(|place| (place, half_correlation(call, place)));
    sums.max_by_key(|(_, sum)| sum.abs()).expect("a subframe")
}

/// An impulse response of which the products at some differences are positive at first and negative
/// later, or the other way, so that clipped sums come back. With a quiet target the energies of the
/// choice are negative at times, and so much with a period of 3 that no trial replaces the first
/// pulses.
pub fn turned_call(random: &mut Random) -> Call {
    let period = match random.below(2) {
        0 => 3,
        _ => 1 + random.below(12) as usize,
    };
    let turns_at = 4 + random.below(32) as usize;
    let places = random.below(3) as u32;
    let noise: [i16; SUBFRAME] = quiet(random, 1 + places);
    let signs = random.word();
    let impulse = std::array::from_fn(|place| {
        let high = signs >> (place % period) & 1 != 0;
        let turned = place >= turns_at && (place / period).is_multiple_of(2);
        let end = if high ^ turned { i16::MAX } else { i16::MIN };
        end - noise[place].unsigned_abs() as i16 * end.signum()
    });
    let target = match random.below(4) {
        0 | 1 => [random.below(5) as i16 - 2; SUBFRAME],
        2 => extreme(random),
        _ => mixed(random),
    };
    Call {
        target,
        impulse,
        lag: lag(random),
        gain: gain(random),
    }
}

/// An impulse response of full scale that is sharpened at its ends.
pub fn raised_call(random: &mut Random) -> Call {
    let places = random.below(14) as u32;
    let quiet_words: [i16; SUBFRAME] = quiet(random, places);
    let ends = random.word() & random.word();
    let impulse = std::array::from_fn(|place| match ends >> place & 1 {
        0 => quiet_words[place],
        _ if quiet_words[place] < 0 || place < 4 => i16::MIN,
        _ => i16::MAX,
    });
    Call {
        target: mixed(random),
        impulse,
        lag: 19 + random.below(21) as u16 * random.below(2) as u16,
        gain: gain(random),
    }
}
