//! Calls of which one filter makes a sum at a limit, or clips a product of -32768 by -32768 such
//! that the word is another.
//!
//! A filter's word is floor((sum + 4096) / 8192), clipped. The clip of a product changes the sum by
//! one, and so changes the word where the greater of both sums is 4096 more than a multiple of 8192.

use super::{
    COEFFICIENTS, ORDER,
    calls::{Call, joined},
    sources::{ONE, history, noise_call},
};
use crate::{
    codec::mr74::{
        encoder_filtering::{GAMMA_ONE_Q15, GAMMA_TWO_Q15, residual},
        postfilter::{product, weight},
    },
    inputs::Random,
    words::{SUBFRAME, quiet},
};

/// From this sum up the shift clips, and below its negative.
const SHIFT_CLIP: i64 = 1 << 28;
/// The distance of the sums of two words.
const STEP: i64 = 1 << 13;
const CLIPPED_PRODUCT: i64 = i32::MAX as i64;

type Filter = [i16; COEFFICIENTS];

/// A filter that leaves all words as they are.
const PASSING: Filter = [ONE, 0, 0, 0, 0, 0, 0, 0, 0, 0, 0];

/// Factors that leave coefficients of a few units as they are.
const NO_FACTORS: [i16; ORDER] = [i16::MAX; ORDER];

/// Words made for a sum at a limit.
pub fn limit_call(random: &mut Random) -> Call {
    let mut call = noise_call(random);
    let sum = limit(random);
    match random.below(6) {
        0 => {
            call.coefficients = solvable(random, &NO_FACTORS);
            call.quantized = call.coefficients;
            set_speech(random, &mut call, sum, None);
        }
        1 => {
            call.quantized = solvable(random, &NO_FACTORS);
            set_error_history(&mut call, sum);
        }
        2 => {
            call.coefficients = solvable(random, &GAMMA_ONE_Q15);
            call.quantized = PASSING;
            set_error_history_of_weighted(&mut call, sum);
        }
        3 => {
            call.coefficients = solvable(random, &GAMMA_TWO_Q15);
            set_weighting_history(&mut call, sum);
        }
        4 => [call.coefficients[0], call.quantized[0]] = rounding_factors(random),
        _ => [call.coefficients[0], call.quantized[0]] = second_rounding_factors(random),
    }
    call
}

/// Words made for a product of -32768 by -32768 whose clip changes a word of one filter: its first
/// product where that starts the sum, or a later one.
pub fn product_call(random: &mut Random) -> Call {
    let mut call = noise_call(random);
    let sum = between_words(random) - 1;
    match random.below(8) {
        // The residual, by its first product and by a later one.
        0 | 1 => {
            call.coefficients = great(random, &NO_FACTORS);
            let taps = [0, free_tap(random, &call.coefficients)];
            let tap = taps[random.below(2) as usize];
            call.coefficients[tap] = i16::MIN;
            call.quantized = call.coefficients;
            set_speech(random, &mut call, sum, Some(tap));
        }
        // The error, by its first product.
        2 => {
            call.quantized = great(random, &NO_FACTORS);
            call.quantized[0] = i16::MIN;
            set_speech_start(&mut call, loud(random));
            set_error_history(&mut call, sum);
        }
        3 => set_error_product(random, &mut call),
        // The weighted error, by its first product.
        4 => {
            call.coefficients = great(random, &GAMMA_ONE_Q15);
            call.coefficients[0] = i16::MIN;
            call.quantized = PASSING;
            set_speech_start(&mut call, i16::MIN);
            set_error_history_of_weighted(&mut call, sum);
        }
        // The target, by its first product.
        5 => {
            call.coefficients = great(random, &GAMMA_TWO_Q15);
            call.coefficients[0] = i16::MIN;
            call.quantized = PASSING;
            call.error_history = [0; ORDER];
            set_speech_start(&mut call, loud(random));
            set_weighting_history(&mut call, sum);
        }
        6 => set_first_impulse_product(random, &mut call),
        _ => set_impulse_product(random, &mut call),
    }
    call
}

/// A sum at the end of those that the shift leaves alone, at the end of those that a word holds, or
/// between two words; or beside it.
fn limit(random: &mut Random) -> i64 {
    let near = match random.below(5) {
        0 => SHIFT_CLIP,
        1 => SHIFT_CLIP - STEP / 2,
        2 => -SHIFT_CLIP,
        3 => -SHIFT_CLIP - STEP / 2,
        _ => between_words(random),
    };
    near + 2 * (random.below(5) as i64 - 2)
}

fn between_words(random: &mut Random) -> i64 {
    let word = random.below(1 << 16) as i64 - (1 << 15);
    word * STEP + STEP / 2
}

/// A word from 4096 up.
fn loud(random: &mut Random) -> i16 {
    ONE + random.below((i16::MAX - ONE) as u64 + 1) as i16
}

/// Coefficients of which one, not the first, becomes 1 or -1 by its factor.
fn solvable(random: &mut Random, factors: &[i16; ORDER]) -> Filter {
    let places = random.below(4) as u32;
    let mut filter: Filter = quiet(random, places);
    let tap = 1 + random.below(ORDER as u64) as usize;
    let one = i16::MAX / factors[tap - 1];
    filter[tap] = [one, -one][random.below(2) as usize];
    if random.below(2) == 0 {
        filter[0] = ONE;
    }
    filter
}

/// Such coefficients, of which a few others are of nearly full scale, and the rest are zeros.
fn great(random: &mut Random, factors: &[i16; ORDER]) -> Filter {
    const GREAT: usize = 3;
    let mut filter = [0; COEFFICIENTS];
    let tap = 1 + random.below(ORDER as u64) as usize;
    filter[tap] = i16::MAX / factors[tap - 1];
    let zeros = filter.iter_mut().skip(1).filter(|word| **word == 0);
    for word in zeros.take(GREAT) {
        *word = i16::MAX - random.below(2000) as i16;
    }
    filter.map(|word| [word, -word][random.below(2) as usize])
}

/// A tap of such coefficients behind those of nearly full scale, where they have a zero.
fn free_tap(random: &mut Random, filter: &Filter) -> usize {
    let tap = 6 + random.below(5) as usize;
    if filter[tap] == 0 { tap } else { 5 }
}

/// A word for each of the taps, whose doubled products with the coefficients come to the sum where
/// these reach it. The greatest coefficient takes the most of it, the least the rest.
fn words_of_sum(filter: &Filter, taps: impl Iterator<Item = usize>, sum: i64) -> Filter {
    let mut taps: Vec<usize> = taps.collect();
    taps.sort_by_key(|&tap| filter[tap].unsigned_abs());
    let mut rest = sum / 2;
    let mut words = [0; COEFFICIENTS];
    for tap in taps.into_iter().rev().filter(|&tap| filter[tap] != 0) {
        let coefficient = i64::from(filter[tap]);
        let word = (rest / coefficient).clamp(i16::MIN.into(), i16::MAX.into());
        rest -= word * coefficient;
        words[tap] = word as i16;
    }
    words
}

/// The words that the history must have at the taps for this sum.
fn history_of_sum(filter: &Filter, sum: i64) -> [i16; ORDER] {
    history(words_of_sum(filter, 1..COEFFICIENTS, sum))
}

/// Speech of which a word of the residual has this sum. Where a tap is given, its coefficient and
/// its word are -32768.
fn set_speech(random: &mut Random, call: &mut Call, sum: i64, least: Option<usize>) {
    let others = (0..COEFFICIENTS).filter(|&tap| least != Some(tap));
    let rest = sum - least.map_or(0, |_| CLIPPED_PRODUCT);
    let mut words = words_of_sum(&call.coefficients, others, rest);
    if let Some(tap) = least {
        words[tap] = i16::MIN;
    }
    let place = ORDER + random.below(SUBFRAME as u64) as usize;
    for (tap, word) in words.into_iter().enumerate() {
        call.speech[place - tap] = word;
    }
}

/// Speech that starts with this word, after zeros.
fn set_speech_start(call: &mut Call, word: i16) {
    call.speech[..ORDER].fill(0);
    call.speech[ORDER] = word;
}

/// An error history with which the error's first word has this sum.
fn set_error_history(call: &mut Call, sum: i64) {
    let filter = &call.quantized;
    let first = product(residual(filter, &call.speech)[0], filter[0]);
    call.error_history = history_of_sum(filter, i64::from(first) - sum);
}

/// An error history with which the weighted error's first word has this sum. The filter of the
/// error has no taps, so the error does not lean on the history.
fn set_error_history_of_weighted(call: &mut Call, sum: i64) {
    let filter = weight(&call.coefficients, &GAMMA_ONE_Q15);
    let first = product(call.prepare().error_q0[0], filter[0]);
    call.error_history = history_of_sum(&filter, sum - i64::from(first));
}

/// A weighting history with which the target's first word has this sum.
fn set_weighting_history(call: &mut Call, sum: i64) {
    let numerator = weight(&call.coefficients, &GAMMA_ONE_Q15);
    let error = joined(&call.error_history, &call.prepare().error_q0);
    let filter = weight(&call.coefficients, &GAMMA_TWO_Q15);
    let first = product(residual(&numerator, &error)[0], filter[0]);
    call.weighting_history = history_of_sum(&filter, i64::from(first) - sum);
}

/// Two words whose product is among those that the rounding clips and the shift does not.
fn rounding_factors(random: &mut Random) -> [i16; 2] {
    let product = SHIFT_CLIP / 2 - 1;
    loop {
        let factor = i64::from(loud(random));
        if product % factor < STEP / 4 {
            let sign = [1, -1][random.below(2) as usize];
            return [factor, product / factor].map(|factor| (sign * factor) as i16);
        }
    }
}

/// The first coefficients of two filters, of which the second makes such a product of its own and
/// the first word that the first filter makes of it.
fn second_rounding_factors(random: &mut Random) -> [i16; 2] {
    loop {
        let [coefficient, word] = rounding_factors(random).map(i64::from);
        let quantized = word * i64::from(ONE) / coefficient;
        let made = (coefficient * quantized + STEP / 4).div_euclid(STEP / 2);
        if made == word {
            return [coefficient, quantized].map(|factor| factor as i16);
        }
    }
}

/// One of so many odd numbers.
fn odd(random: &mut Random, many: u64) -> i16 {
    1 + 2 * random.below(many) as i16
}

/// The error's first word, by a later product: that with the newest word of the history takes the
/// sum to its upper end, the next takes away an odd multiple of 4096, and the third is clipped.
fn set_error_product(random: &mut Random, call: &mut Call) {
    set_speech_start(call, loud(random));
    call.quantized[..4].copy_from_slice(&[ONE, i16::MAX, 256 * odd(random, 8), i16::MIN]);
    call.error_history = [0; ORDER];
    call.error_history[ORDER - 3..].copy_from_slice(&[i16::MIN, 8 * odd(random, 1000), i16::MIN]);
}

/// The fourth word of the impulse response's first filter, in the same way: the words before it are
/// -32768, 8 times an odd number, and -32768.
fn set_first_impulse_product(random: &mut Random, call: &mut Call) {
    let [a, b, c] = [(); 3].map(|()| i16::MAX - random.below(500) as i16);
    call.coefficients[..4].copy_from_slice(&[i16::MAX, a, b, -c]);
    let numerator = weight(&call.coefficients, &GAMMA_ONE_Q15);
    let second = numerator[1] + odd(random, 100);
    call.quantized[..4].copy_from_slice(&[i16::MIN, second, 256 * odd(random, 8), i16::MIN]);
}

/// The third word of the impulse response, by its first product: the words of the first filter are
/// -32768 each, and the words before it are 32767.
fn set_impulse_product(random: &mut Random, call: &mut Call) {
    // Both coefficients come to this: 32767 times it, doubled, takes the sum to 4095 more than a
    // multiple of 8192.
    const BOTH: i64 = 30720;
    loop {
        let first = 18_924 + random.below(737) as i64;
        let [a, b] = [(first, GAMMA_TWO_Q15[0]), (BOTH - first, GAMMA_TWO_Q15[1])]
            .map(|(word, factor)| ((word << 15) / i64::from(factor)) as i16);
        call.coefficients[..3].copy_from_slice(&[i16::MIN, a, b]);
        let denominator = weight(&call.coefficients, &GAMMA_TWO_Q15);
        if i64::from(denominator[1]) + i64::from(denominator[2]) == BOTH {
            break;
        }
    }
    let first = ONE + random.below(15_000) as i16;
    let [third] = quiet(random, 3);
    call.quantized[..3].copy_from_slice(&[first, i16::MIN, third]);
}
