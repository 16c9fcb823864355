//! Calls made for the limits of the gain stage: sums at the ends of their type, products of -32768
//! by -32768, sums of 0, sums that are clipped at all terms or at few, and terms of equal scales, of
//! which distances are clipped.

use super::{
    calls::Call,
    sources::{agreeing, fraction, limit, with_pair},
};
use crate::{
    inputs::Random,
    words::{SUBFRAME, mixed, quiet, uniform, with_squares},
};

/// Adaptive words whose energy sum is the last that does not overflow, the first that does, or about
/// a power of two.
pub fn energy_call(random: &mut Random) -> Call {
    // The energy sum is 1 and twice the sum of the squares.
    const LAST: u64 = (1 << 30) - 1;
    let squares = match random.below(8) {
        0 => LAST - random.below(5),
        1 | 2 => LAST,
        3 | 4 => LAST + 1,
        5 => LAST + random.below(5),
        _ => (1 << (8 + random.below(22))) - random.below(2),
    };
    let adaptive = with_squares(random, squares);
    let target = match random.below(4) {
        0 => adaptive,
        1 => adaptive.map(|word| word / 2),
        _ => mixed(random),
    };
    let filtered = mixed(random);
    with_pair(random, [target, adaptive, filtered])
}

/// A target whose sum with the adaptive words is at a limit of those that do not overflow, or about
/// a power of two, of either sign.
pub fn target_call(random: &mut Random) -> Call {
    loop {
        let places = random.below(12) as u32;
        let mut adaptive = quiet(random, places);
        adaptive[random.below(SUBFRAME as u64) as usize] = 1;
        let power = match random.below(2) {
            0 => 31,
            _ => 1 + random.below(30),
        };
        let near = (1 << power) + [1, -1][random.below(2) as usize];
        let sum = [near, -near][random.below(2) as usize];
        // The sum is 1 and twice that of the products.
        if let Some(target) = target_of_sum(&adaptive, (sum - 1) / 2) {
            let filtered = mixed(random);
            return with_pair(random, [target, adaptive, filtered]);
        }
    }
}

/// The target whose products with these words come to the sum, if they reach it. The greatest word
/// takes the most of it, the least the rest, and no product has the other sign.
pub fn target_of_sum(adaptive: &[i16; SUBFRAME], sum: i64) -> Option<[i16; SUBFRAME]> {
    let mut places: Vec<usize> = (0..SUBFRAME)
        .filter(|&place| adaptive[place] != 0)
        .collect();
    places.sort_by_key(|&place| adaptive[place].unsigned_abs());
    let mut rest = sum;
    let mut target = [0; SUBFRAME];
    for place in places.into_iter().rev() {
        let factor = i64::from(adaptive[place]);
        let word = (rest / factor).clamp(i16::MIN.into(), i16::MAX.into());
        rest -= word * factor;
        target[place] = word as i16;
    }
    (rest == 0).then_some(target)
}

/// Words with negative products but for one of -32768 by -32768, which overflows by itself where
/// those before it keep the sum away from the upper end.
pub fn product_call(random: &mut Random) -> Call {
    let places = random.below(10) as u32;
    let mut adaptive: [i16; SUBFRAME] = quiet(random, places);
    let mut target = agreeing(quiet(random, places), &adaptive, |_| false);
    let place = random.below(SUBFRAME as u64) as usize;
    adaptive[place] = i16::MIN;
    target[place] = i16::MIN;
    let filtered = mixed(random);
    with_pair(random, [target, adaptive, filtered])
}

/// Words of which one sum is clipped at the lower end and comes back to 0: the target by the
/// quarters of the adaptive words, or one of them by the eighths of the innovation.
pub fn zero_call(random: &mut Random) -> Call {
    let [a, b] = match random.below(3) {
        0 => zero_pair(random, 5, 4),
        _ => zero_pair(random, 9, 8),
    };
    of_two(random, [a, b])
}

/// A call of these lists in any two places, and another.
fn of_two(random: &mut Random, [a, b]: [[i16; SUBFRAME]; 2]) -> Call {
    let other = mixed(random);
    let lists = match random.below(6) {
        0 => [a, b, other],
        1 => [b, a, other],
        2 => [a, other, b],
        3 => [b, other, a],
        4 => [other, a, b],
        _ => [other, b, a],
    };
    with_pair(random, lists)
}

/// Words of which a sum is clipped at all terms or at few, or is at an end of its type.
pub fn clips_call(random: &mut Random) -> Call {
    let lists = match random.below(8) {
        0 => [[i16::MIN; SUBFRAME]; 2],
        1 => one_product(random),
        2 => ending_lists(random),
        _ => runs(random),
    };
    of_two(random, lists)
}

/// Words of 0 but for one product of -32768 by -32768, the first, the last or any.
fn one_product(random: &mut Random) -> [[i16; SUBFRAME]; 2] {
    const LAST: usize = SUBFRAME - 1;
    let place = match random.below(3) {
        0 => 0,
        1 => LAST,
        _ => random.below(SUBFRAME as u64) as usize,
    };
    let mut words = [0; SUBFRAME];
    words[place] = i16::MIN;
    [words; 2]
}

/// Words, and an innovation whose sum with them is 2147483647 or -2147483647.
fn ending_lists(random: &mut Random) -> [[i16; SUBFRAME]; 2] {
    const HALVES: [i64; 2] = [(1 << 30) - 1, -(1 << 30)];
    loop {
        let places = 3 + random.below(2) as u32;
        let mut eighths = quiet(random, places);
        eighths[random.below(SUBFRAME as u64) as usize] = 1;
        // The sum is 1 and twice that of the products.
        let half = HALVES[random.below(2) as usize];
        if let Some(words) = target_of_sum(&eighths, half) {
            return [words, eighths.map(|word| 8 * word)];
        }
    }
}

/// Runs of a word of full scale, of either sign, or of 0, and one such word everywhere.
fn runs(random: &mut Random) -> [[i16; SUBFRAME]; 2] {
    const WORDS: [i16; 4] = [0, i16::MIN, -i16::MAX, i16::MAX];
    let everywhere = WORDS[1 + random.below(3) as usize];
    let [mut word, mut left] = [0, 0];
    let words = std::array::from_fn(|_| {
        if left == 0 {
            left = 1 + random.below(12) as i16;
            word = WORDS[random.below(4) as usize];
        }
        left -= 1;
        word
    });
    [words, [everywhere; SUBFRAME]]
}

/// Two lists with so many negative products at least, then exactly so many that bring the sum back;
/// the other products are 0.
fn zero_pair(random: &mut Random, least_down: usize, back: usize) -> [[i16; SUBFRAME]; 2] {
    let spare = (SUBFRAME - least_down - back) as u64;
    let down = least_down + random.below(spare + 1) as usize;
    let mut left = down + back;
    let [mut a, mut b]: [[i16; SUBFRAME]; 2] = [(); 2].map(|()| mixed(random));
    for place in 0..SUBFRAME {
        if random.below((SUBFRAME - place) as u64) >= left as u64 {
            let list = if random.below(2) == 0 { &mut a } else { &mut b };
            list[place] = 0;
            continue;
        }
        a[place] = if left > back { i16::MAX } else { i16::MIN };
        b[place] = i16::MIN;
        left -= 1;
    }
    [a, b]
}

/// Words of which all five terms have the same scale, each near its greatest magnitude.
///
/// The lists are made of two orthogonal waves: the adaptive words of the first alone, the innovation
/// and the target of both, in such parts that the five sums and the exponent give equal scales.
pub fn aligned_call(random: &mut Random) -> Call {
    const MOST: f64 = 4095.0;
    loop {
        // The greatest magnitude is 1. At times all are close to it, and each term that can be
        // negative is: with the greatest fraction the terms of row 127 are then below the lower end
        // if they are summed up first.
        let close = random.below(4) == 0;
        let distance = if close { 40 } else { 300 };
        let [yy, xy, zz, xz, yz] = [(); 5].map(|()| 1.0 - random.below(distance) as f64 / 1000.0);
        let [xy, xz, yz] = if close {
            [xy, xz, -yz]
        } else {
            [xy, xz, yz].map(|part| [part, -part][random.below(2) as usize])
        };
        let second = 4.0 * zz - yz * yz / yy;
        let places = random.below(12) as i32;
        let loudness = (2f64.powi(31 - places) / 80.0).sqrt();
        let louder = random.below(11) as i16 - 4;
        let innovation_loudness = loudness * 2f64.powi(louder.into());
        let innovation = [yz / yy.sqrt(), second.sqrt()];
        if innovation_loudness < 20.0
            || innovation_loudness * (innovation[0].abs() + innovation[1]) > MOST
        {
            continue;
        }
        let target = [xy / yy.sqrt(), (2.0 * xz - yz * xy / yy) / second.sqrt()];
        let waves = waves(random);
        let words = |loudness: f64, [first, second]: [f64; 2]| {
            waves.map(|[a, b]| (loudness * (first * a + second * b)).round() as i16)
        };
        return Call {
            target: words(loudness, target),
            adaptive: words(loudness, [yy.sqrt(), 0.0]),
            filtered: words(innovation_loudness, innovation).map(|word| 8 * word),
            exponent: 5 - louder,
            fraction: if close { 32767 } else { fraction(random) },
            limit: limit(random),
        };
    }
}

/// Two orthogonal waves of 1 and -1, their places mixed.
fn waves(random: &mut Random) -> [[f64; 2]; SUBFRAME] {
    let mut waves = std::array::from_fn(|place| {
        let sign = |odd: bool| if odd { -1.0 } else { 1.0 };
        [sign(place % 2 == 1), sign(place % 4 >= 2)]
    });
    let [word] = uniform::<1>(random);
    if word < 0 {
        for place in 0..SUBFRAME {
            waves.swap(place, random.below(SUBFRAME as u64) as usize);
        }
    }
    waves
}
