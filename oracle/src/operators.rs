//! The functions on numbers, and what each is compared with.
//!
//! The published Rust repeats most of them in each file that needs them, sometimes under another
//! name. Every copy is compared.

use crate::{
    codec::mr74::{
        adaptive, codebook,
        energy::{self, inverse_sqrt},
        gain::{self, quantization},
        logarithm, lpc, pitch, postfilter, spectral,
    },
    compare::{Function, function},
    inputs::{Inputs, SAMPLE, every, sample},
    project::*,
    published,
};
use std::ops::RangeInclusive;

pub fn functions() -> Vec<Function> {
    let mut functions = Vec::new();
    functions.extend(saturation());
    functions.extend(products());
    functions.extend(high_products());
    functions.extend(words());
    functions.extend(shifts());
    functions.extend(division());
    functions.extend(tables());
    functions
}

fn saturation() -> [Function; 10] {
    [
        function!("clip16", every::<i32>(), |v| leaf_clip16(v), {
            "clamp" => v.clamp(i16::MIN.into(), i16::MAX.into()) as i16,
        }),
        function!("clip32", sample::<i64>(SAMPLE), |v| leaf_clip32(v), {
            "clamp" => v.clamp(i32::MIN.into(), i32::MAX.into()) as i32,
            "synthesis.rs saturated" => published::saturated(v),
        }),
        function!("add16", every::<(i16, i16)>(), |(a, b)| leaf_add16(a, b), {
            "saturating_add" => a.saturating_add(b),
        }),
        function!("sub16", every::<(i16, i16)>(), |(a, b)| leaf_sub16(a, b), {
            "saturating_sub" => a.saturating_sub(b),
        }),
        function!("negate16", every::<i16>(), |v| leaf_negate16(v), {
            "saturating_neg" => v.saturating_neg(),
        }),
        function!("absolute16", every::<i16>(), |v| leaf_absolute16(v), {
            "saturating_abs" => v.saturating_abs(),
        }),
        function!("add32", sample::<(i32, i32)>(SAMPLE), |(a, b)| leaf_add32(a, b), {
            "saturating_add" => a.saturating_add(b),
        }),
        function!("sub32", sample::<(i32, i32)>(SAMPLE), |(a, b)| leaf_sub32(a, b), {
            "saturating_sub" => a.saturating_sub(b),
        }),
        function!("negate32", every::<i32>(), |v| leaf_negate32(v), {
            "saturating_neg" => v.saturating_neg(),
        }),
        function!("absolute32", every::<i32>(), |v| leaf_absolute32(v), {
            "saturating_abs" => v.saturating_abs(),
        }),
    ]
}

fn products() -> [Function; 6] {
    [
        function!("product", every::<(i16, i16)>(), |(a, b)| leaf_product(a, b), {
            "codebook/search.rs" => codebook::search::product(a, b),
            "energy.rs doubled_product" => energy::doubled_product(a, b),
            "gain.rs mult" => gain::mult(a, b),
            "gain/quantization.rs" => quantization::product(a, b),
            "lpc.rs doubled_product" => lpc::doubled_product(a, b),
            "pitch/open_loop.rs" => pitch::open_loop::product(a, b),
            "pitch/search.rs" => pitch::search::product(a, b),
            "postfilter.rs" => postfilter::product(a, b),
        }),
        function!("mac", sample::<(i32, i16, i16)>(SAMPLE), |(s, a, b)| leaf_mac(s, a, b), {
            "adaptive.rs" => adaptive::mac(s, a, b),
            "gain.rs" => gain::mac(s, a, b),
        }),
        function!("msu", sample::<(i32, i16, i16)>(SAMPLE), |(s, a, b)| leaf_msu(s, a, b), {
            "saturating_sub of codebook/search.rs product" => published::msu(s, a, b),
        }),
        function!("fractional", every::<(i16, i16)>(), |(a, b)| leaf_fractional(a, b), {
            "codebook/search.rs" => codebook::search::fractional(a, b),
            "energy.rs multiply_q15" => energy::multiply_q15(a, b),
            "gain/quantization.rs" => quantization::fractional(a, b),
            "pitch/open_loop.rs" => pitch::open_loop::fractional(a, b),
            "pitch/search.rs" => pitch::search::fractional(a, b),
            "postfilter.rs multiply" => postfilter::multiply(a, b),
            "spectral.rs multiply_q15" => spectral::multiply_q15(a, b),
        }),
        function!("multiply", sample::<(i32, i32)>(SAMPLE), |(a, b)| leaf_multiply(a, b), {
            "pitch/open_loop.rs" => pitch::open_loop::multiply(a, b),
            "pitch/search.rs" => pitch::search::multiply(a, b),
        }),
        function!(
            "multiply_word",
            sample::<(i32, i16)>(SAMPLE),
            |(a, b)| leaf_multiply_word(a, b),
            { "gain/quantization.rs" => quantization::multiply_word(a, b) }
        ),
    ]
}

fn high_products() -> [Function; 1] {
    [function!(
        "product_high",
        high_inputs(),
        |(a, b, n)| leaf_product_high(a, b, n),
        { "pitch/search.rs product and shift" => published::product_high(a, b, n) }
    )]
}

/// Each of the counts up to 17 with many words, then all counts at random: from 15 up every count
/// gives the same answer.
fn high_inputs() -> Inputs<impl Fn(u64) -> Option<(i16, i16, u32)> + Sync> {
    sample(SAMPLE / 18)
        .with_each(0..=17)
        .map(|((a, b), n)| (a, b, n as u32))
        .then(sample(SAMPLE / 2))
}

fn words() -> [Function; 9] {
    [
        function!("rounded", every::<i32>(), |v| leaf_rounded(v), {
            "codebook/search.rs" => codebook::search::rounded(v),
            "energy.rs" => energy::rounded(v),
            "gain/quantization.rs" => quantization::rounded(v),
            "postfilter.rs" => postfilter::rounded(v),
        }),
        function!("high", every::<i32>(), |v| leaf_high(v), {
            "(v >> 16) as i16" => (v >> 16) as i16,
        }),
        function!("deposit_high", every::<i16>(), |v| leaf_deposit_high(v), {
            "i32::from(v) << 16" => i32::from(v) << 16,
        }),
        function!("low_word", every::<i32>(), |v| leaf_low_word(v), {
            "v as i16" => v as i16,
        }),
        function!("split", every::<i32>(), |v| halves(v), {
            "pitch/open_loop.rs" => pitch::open_loop::split(v),
            "pitch/search.rs" => pitch::search::split(v),
        }),
        function!("even", every::<i32>(), |v| leaf_even(v), {
            "v & !1" => v & !1,
        }),
        function!("unsigned_abs", every::<i32>(), |v| leaf_unsigned_abs(v), {
            "unsigned_abs" => v.unsigned_abs(),
        }),
        function!("normalize", every::<i32>(), |v| leaf_normalize(v), {
            "gain/quantization.rs" => quantization::normalize(v),
        }),
        // These copies are called with sums of squares and magnitudes, and are right only there.
        function!("normalize", every::<i32>().only(|v| v >= 0), |v| leaf_normalize(v), {
            "codebook/search.rs, from 0" => codebook::search::normalize(v),
            "energy.rs normalization, from 0" => energy::normalization(v) as i16,
        }),
    ]
}

fn halves(value: i32) -> (i16, i16) {
    let Halves { high, low } = leaf_split(value);
    (high, low)
}

/// Each of the counts with many values, then all counts at random.
fn shift_inputs(counts: RangeInclusive<i16>) -> Inputs<impl Fn(u64) -> Option<(i32, i16)> + Sync> {
    let values = SAMPLE / counts.clone().count() as u64;
    sample(values).with_each(counts).then(sample(SAMPLE / 2))
}

fn shifts() -> [Function; 5] {
    [
        // Beyond 31 places either way every further count gives the same answer.
        function!("shift", shift_inputs(-33..=33), |(v, n)| leaf_shift(v, n), {
            "codebook/search.rs scaled" => codebook::search::scaled(v, n),
            "energy.rs" => energy::shift(v, n),
            "gain/quantization.rs" => quantization::shift(v, n),
        }),
        // These copies shift to the left alone.
        function!(
            "shift",
            shift_inputs(0..=33).map(|(v, n)| (v, n & i16::MAX)),
            |(v, n)| leaf_shift(v, n),
            { "gain.rs shift_left, from 0" => gain::shift_left(v, n as u32) }
        ),
        function!("shift", sample(SAMPLE / 32).with_each(0..=31), |(v, n)| leaf_shift(v, n), {
            "pitch/search.rs, 0 to 31" => pitch::search::shift(v, n as u32),
        }),
        function!("shift_word", every::<(i16, i16)>(), |(v, n)| leaf_shift_word(v, n), {
            "gain/quantization.rs" => quantization::shift_word(v, n),
        }),
        function!("shift_word", every().with_each(0..=15), |(v, n)| leaf_shift_word(v, n), {
            "pitch/open_loop.rs, 0 to 15" => pitch::open_loop::shift_word(v, n as u32),
        }),
    ]
}

fn division() -> [Function; 3] {
    [
        function!(
            "divide",
            every::<(i16, i16)>().only(|(xy, yy)| xy >= 0 && published::divides(xy >> 1, yy)),
            |(xy, yy)| leaf_divide(xy >> 1, yy),
            { "gain/quantization.rs pitch_gain" => published::pitch_gain_ratio(xy, yy) }
        ),
        function!(
            "divide",
            every::<(i16, i16)>().only(|(a, b)| a > i16::MAX / 2 && a < b),
            |(a, b)| leaf_divide(a, b),
            { "quotient written here, from 16384" => published::divide(a, b) }
        ),
        function!(
            "divide",
            every::<(i16, i16)>().only(|(a, b)| a < 0 || b <= 0 || a >= b),
            |(a, b)| leaf_divide(a, b),
            { "rule outside the domain" => published::divide(a, b) }
        ),
    ]
}

fn tables() -> [Function; 4] {
    [
        function!(
            "interpolated",
            sample::<(u16, u16, u32)>(SAMPLE).map(|(from, to, m)| (from & 0x7fff, to & 0x7fff, m)),
            |(from, to, m)| i64::from(leaf_interpolated(from, to, m)),
            { "formula written here" => published::interpolated(from, to, m) }
        ),
        function!("inverse_sqrt", every::<i32>(), |v| leaf_inverse_sqrt(v), {
            "energy.rs" => inverse_sqrt(v),
        }),
        function!("log2", every::<i32>(), |v| log2(v), {
            "logarithm.rs" => logarithm(v),
        }),
        function!("pow2", every::<(u8, u16)>(), |(e, f)| pow2(e, f), {
            "logarithm.rs" => power(e, f),
        }),
    ]
}

fn logarithm(value: i32) -> Logarithm {
    let logarithm::Logarithm {
        exponent,
        fraction_q15,
    } = logarithm::log2(value);
    Logarithm {
        exponent,
        fraction_q15,
    }
}

/// The published answer in the form of the library's.
fn power(exponent: u8, fraction_q15: u16) -> PowerAnswer {
    let (number, magnitude, value) = match published::pow2(exponent, fraction_q15) {
        Ok(value) => (0, 0, value),
        Err(refusal) => (refusal.number, refusal.detail, 0),
    };
    PowerAnswer {
        number,
        negative: 0,
        magnitude,
        value,
    }
}
