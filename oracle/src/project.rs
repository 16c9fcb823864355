//! The library's side: the functions of its static libraries. Those that other programs call are
//! declared by the Rust bindings, so it is these that are compared.
//!
//! Nothing checks the declarations against the library's source; they repeat its interface.

pub use mr74::entries::{
    ChannelAnswer, ChannelState, END, FrameAnswer, FramePitch, GainAnswer, LengthAnswer,
    LimitAnswer, Logarithm, NO_CHANNEL, OpenLoopAnswer, PitchAnswer, PitchGainAnswer, PitchState,
    PlacesAnswer, PowerAnswer, PulsesAnswer, ServiceAnswer, SharpeningGain, SpectrumAnswer,
    StepAnswer, WatchedGainAnswer, convolve, fresh_pitch, fresh_player, log2, mark, next,
    observe_spectrum, open_loop, pow2, read_lag, read_pulses, residual, watch_limit,
};

use mr74::entries::{self, SubframeLists};
use std::slice;

/// A 32-bit number as its high word and its 15 low bits.
#[repr(C)]
#[derive(Debug, Clone, Copy, PartialEq, Eq)]
pub struct Halves {
    pub high: i16,
    pub low: i16,
}

/// The two sums that one walk over a list carries.
#[repr(C)]
#[derive(Debug, Clone, Copy, PartialEq, Eq)]
pub struct EnergyAndSum {
    pub energy: i32,
    pub sum: i32,
}

/// What a function that refuses nothing but lengths answers where it is accepted.
pub const ACCEPTED: LengthAnswer = LengthAnswer {
    number: 0,
    magnitude: 0,
};

/// A `PitchAnswer` without the state.
#[derive(Debug, Clone, Copy, PartialEq, Eq)]
pub struct Answer {
    pub number: u8,
    pub magnitude: u64,
    pub index: u8,
    pub samples: u16,
    pub fraction: i16,
}

impl From<PitchAnswer> for Answer {
    fn from(answer: PitchAnswer) -> Self {
        Self {
            number: answer.number,
            magnitude: answer.magnitude,
            index: answer.index,
            samples: answer.samples,
            fraction: answer.fraction,
        }
    }
}

// These take and give numbers alone, or borrow lists of a fixed length, and are defined on all
// values of their types, so any call of them is safe.
unsafe extern "C" {
    pub safe fn leaf_clip16(value: i32) -> i16;
    pub safe fn leaf_clip32(value: i64) -> i32;
    pub safe fn leaf_add16(left: i16, right: i16) -> i16;
    pub safe fn leaf_sub16(left: i16, right: i16) -> i16;
    pub safe fn leaf_negate16(value: i16) -> i16;
    pub safe fn leaf_absolute16(value: i16) -> i16;
    pub safe fn leaf_add32(left: i32, right: i32) -> i32;
    pub safe fn leaf_sub32(left: i32, right: i32) -> i32;
    pub safe fn leaf_negate32(value: i32) -> i32;
    pub safe fn leaf_absolute32(value: i32) -> i32;
    pub safe fn leaf_product(left: i16, right: i16) -> i32;
    pub safe fn leaf_mac(sum: i32, left: i16, right: i16) -> i32;
    pub safe fn leaf_msu(sum: i32, left: i16, right: i16) -> i32;
    pub safe fn leaf_fractional(left: i16, right: i16) -> i16;
    pub safe fn leaf_rounded(value: i32) -> i16;
    pub safe fn leaf_high(value: i32) -> i16;
    pub safe fn leaf_deposit_high(value: i16) -> i32;
    pub safe fn leaf_low_word(value: i32) -> i16;
    pub safe fn leaf_split(value: i32) -> Halves;
    pub safe fn leaf_multiply(left: i32, right: i32) -> i32;
    pub safe fn leaf_multiply_word(value: i32, coefficient: i16) -> i32;
    pub safe fn leaf_shift(value: i32, count: i16) -> i32;
    pub safe fn leaf_shift_word(value: i16, count: i16) -> i16;
    pub safe fn leaf_even(value: i32) -> i32;
    pub safe fn leaf_normalize(value: i32) -> i16;
    pub safe fn leaf_unsigned_abs(value: i32) -> u32;
    pub safe fn leaf_divide(numerator: i16, denominator: i16) -> i16;
    pub safe fn leaf_interpolated(from: u16, to: u16, mantissa: u32) -> u32;
    pub safe fn leaf_inverse_sqrt(value: i32) -> i32;
    pub safe fn leaf_product_high(left: i16, right: i16, count: u32) -> i16;
    pub safe fn leaf_energy40(words: &[i16; 40]) -> i32;
    pub safe fn leaf_dot40(left: &[i16; 40], right: &[i16; 40]) -> i32;
    pub safe fn leaf_energy_and_sum40(left: &[i16; 40], right: &[i16; 40]) -> EnergyAndSum;
}

// The lists of a call in groups, as the comparisons have them.

/// The search or its preview.
pub type Searching = fn(PitchState, &[i16], &[i16], &[i16], [u16; 2], u8) -> PitchAnswer;

macro_rules! searchings {
    ($($name:ident),+) => {$(
        pub fn $name(
            state: PitchState,
            excitation: &[i16],
            target: &[i16],
            impulse_q12: &[i16],
            [first, second]: [u16; 2],
            subframe: u8,
        ) -> PitchAnswer {
            entries::$name(state, excitation, target, impulse_q12, first, second, subframe)
        }
    )+};
}
searchings!(pitch_search, preview);

/// Serves the next waiting channel with these inputs of a search.
pub fn serve(
    channels: &mut [ChannelState],
    last: usize,
    [excitation, target, impulse_q12]: [&[i16]; 3],
    [first, second]: [u16; 2],
    subframe: u8,
) -> ServiceAnswer {
    entries::serve(
        channels,
        last,
        excitation,
        target,
        impulse_q12,
        first,
        second,
        subframe,
    )
}

/// A channel record as it lies in memory, with the byte behind the mark.
pub type RecordWords = [u16; 5];

/// The channels that lie in these words.
pub fn channels(words: &mut [RecordWords]) -> &mut [ChannelState] {
    const _: () = assert!(size_of::<ChannelState>() == size_of::<RecordWords>());
    const _: () = assert!(align_of::<ChannelState>() == align_of::<RecordWords>());
    // SAFETY: both have one size and alignment, and any words are a channel.
    unsafe { slice::from_raw_parts_mut(words.as_mut_ptr().cast(), words.len()) }
}

/// Reads the samples and each subframe's excitation, target and impulse response. The detector's
/// old words are lent, and updated there.
pub fn frame(
    searcher: PitchState,
    samples: &[i16],
    sets: [[&[i16]; 3]; 4],
    history_q0: &mut [i16],
) -> FrameAnswer {
    let sets = sets.map(|[excitation, target, impulse_q12]| SubframeLists {
        excitation,
        target,
        impulse_q12,
    });
    entries::frame(searcher, samples, sets, history_q0)
}

/// Reads the speech, the coefficients, the quantized ones, the error history and the weighting
/// history, and writes the residual, the impulse response, the target and the error.
pub fn prepare(read: [&[i16]; 5], written: [&mut [i16]; 4]) -> LengthAnswer {
    let [
        speech,
        coefficients,
        quantized,
        error_history,
        weighting_history,
    ] = read;
    let [residual, impulse, target, error] = written;
    entries::prepare(
        speech,
        coefficients,
        quantized,
        error_history,
        weighting_history,
        residual,
        impulse,
        target,
        error,
    )
}

/// Reads the target and the impulse response, and writes the innovation, the filtered pulses and
/// the sharpened impulse response.
pub fn pulse_search(
    [target, impulse_q12]: [&[i16]; 2],
    lag: u16,
    pitch_sharp_q14: SharpeningGain,
    [innovation, filtered, sharpened_impulse]: [&mut [i16]; 3],
) -> PulsesAnswer {
    entries::pulse_search(
        target,
        impulse_q12,
        lag,
        pitch_sharp_q14,
        innovation,
        filtered,
        sharpened_impulse,
    )
}

pub fn pitch_gain([target, adaptive]: [&[i16]; 2]) -> PitchGainAnswer {
    entries::pitch_gain(target, adaptive)
}

/// Reads the target, the adaptive words and the filtered innovation.
pub fn quantize(
    [target, adaptive, filtered]: [&[i16]; 3],
    exponent: i16,
    fraction: u16,
    limit: u8,
) -> GainAnswer {
    entries::quantize(target, adaptive, filtered, exponent, fraction, limit)
}

/// `quantize` within the limit that the watch chooses. The stored gains are lent, and updated there.
pub fn watched_gain(
    [target, adaptive, filtered]: [&[i16]; 3],
    exponent: i16,
    fraction: u16,
    pitch_gain_q14: i16,
    count: u8,
    gains: &mut [i16],
) -> WatchedGainAnswer {
    entries::watched_gain(
        target,
        adaptive,
        filtered,
        exponent,
        fraction,
        pitch_gain_q14,
        count,
        gains,
    )
}

/// The record at a place of the feed, by a searcher and a reader. The detector's old words are lent
/// and updated there, and the words of a filtering record are written to the last list.
pub fn step(
    feed: &[u8],
    at: usize,
    [searcher, reader]: [PitchState; 2],
    history_q0: &mut [i16],
    words: &mut [i16],
) -> StepAnswer {
    entries::step(feed, at, searcher, reader, history_q0, words)
}

/// The searcher and the reader after a step.
pub fn states(answer: &StepAnswer) -> [PitchState; 2] {
    [answer.searcher(), answer.reader()]
}

/// The same answer with another searcher and reader.
pub fn with_states(answer: StepAnswer, [searcher, reader]: [PitchState; 2]) -> StepAnswer {
    StepAnswer {
        searcher_samples: searcher.samples,
        searcher_fraction: searcher.fraction,
        searcher_next: searcher.next,
        searcher_upper: searcher.upper,
        searcher_start: searcher.start,
        reader_samples: reader.samples,
        reader_fraction: reader.fraction,
        reader_next: reader.next,
        reader_upper: reader.upper,
        reader_start: reader.start,
        ..answer
    }
}
