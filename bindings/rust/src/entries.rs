//! The library's functions as they are: lists of any length, numbers of any value, and answers
//! whose `number` is 0 where the call was accepted. Else it is the refusal's, `magnitude` is its
//! detail (below 0 where `negative` is not 0), the values are 0, no list has been written, and the
//! states are those that were given; `serve` differs where the search of a served channel is
//! refused. include/mr74.h says what each list is.
//!
//! All unsafe code is here. Nothing checks these declarations against the library's source; they
//! repeat its interface, and the oracle compares every one of them through this module.

use std::slice;

macro_rules! answers {
    ($($(#[$meta:meta])* $name:ident { $($field:ident: $type:ty,)* })*) => {$(
        $(#[$meta])*
        #[repr(C)]
        #[derive(Debug, Clone, Copy, PartialEq, Eq)]
        pub struct $name {
            $(pub $field: $type,)*
        }
    )*};
}

answers! {
    LengthAnswer { number: u8, magnitude: u64, }
    OpenLoopAnswer { number: u8, magnitude: u64, lag: u16, }
    /// A searcher or a lag reader: the lag before, its thirds, the subframe expected next, the upper
    /// lag, and the start of the last window. No answer depends on the thirds or on the start. An
    /// `upper` of 120 is an announcement player's, and every other is taken as a handset's. A
    /// `next` outside 1 to 4 is refused by 2, after the call's own subframe (a whole frame is given
    /// none). A refusal, and a preview always, hands back the numbers that were given, whatever
    /// they are.
    PitchState { samples: u16, fraction: i16, next: u8, upper: u8, start: u16, }
    /// The index and the lag, then the searcher or reader after the call.
    PitchAnswer {
        number: u8,
        magnitude: u64,
        index: u8,
        samples: u16,
        fraction: i16,
        previous_samples: u16,
        previous_fraction: i16,
        next: u8,
        upper: u8,
        start: u16,
    }
    /// The index and the lag of one subframe of a whole frame.
    FramePitch { index: u8, samples: u16, fraction: i16, }
    /// Both open-loop lags and four pitches, then the searcher after the call.
    FrameAnswer {
        number: u8,
        magnitude: u64,
        first_lag: u16,
        second_lag: u16,
        pitches: [FramePitch; 4],
        searcher: PitchState,
    }
    /// A channel: its searcher's numbers, and its mark. It waits where the mark is not 0: `mark`
    /// writes 1, and `serve` writes 0.
    ChannelState { searcher: PitchState, waiting: u8, }
    /// The channel that is next or was marked, `NO_CHANNEL` where refused.
    ChannelAnswer { number: u8, magnitude: u64, channel: usize, }
    /// The channel that was served, the last served number for the next call, and what is sent. By
    /// 15 and 17 no channel is served: it is `NO_CHANNEL`, and `last` is the one that was given. By
    /// 1 to 4 the served channel's search is refused.
    ServiceAnswer {
        number: u8,
        magnitude: u64,
        channel: usize,
        last: usize,
        pitch: FramePitch,
    }
    PulsesAnswer { number: u8, magnitude: u64, positions: u16, signs: u16, }
    PlacesAnswer {
        number: u8,
        magnitude: u64,
        first: usize,
        second: usize,
        third: usize,
        last: usize,
    }
    PitchGainAnswer {
        number: u8,
        magnitude: u64,
        gain_q14: i16,
        yy: i16,
        yy_exponent: i16,
        xy: i16,
        xy_exponent: i16,
        energy_clips: u8,
        target_clips: u8,
    }
    GainAnswer {
        number: u8,
        negative: u8,
        magnitude: u64,
        index: u16,
        pitch_q14: i16,
        correction_q12: i16,
        energy_q10: i16,
        energy_clips: u8,
        target_clips: u8,
        innovation_clips: u8,
        target_innovation_clips: u8,
        adaptive_innovation_clips: u8,
    }
    /// Whether the spectrum is resonant, and the count for the next call: the one that was given
    /// where refused.
    SpectrumAnswer { number: u8, magnitude: u64, resonant: bool, count: u8, }
    LimitAnswer { number: u8, magnitude: u64, limit: u8, }
    /// As `quantize` answers, and the limit that was chosen.
    WatchedGainAnswer { gain: GainAnswer, limit: u8, }
    Logarithm { exponent: u8, fraction_q15: u16, }
    PowerAnswer { number: u8, negative: u8, magnitude: u64, value: i32, }
    /// The record's kind, or `END`, and its body's first place in the feed and length.
    RecordAnswer { number: u8, magnitude: u64, kind: u8, from: usize, length: usize, }
    /// The record's kind, or `END`, and the numbers of its line; then searcher and reader after it.
    StepAnswer {
        number: u8,
        negative: u8,
        magnitude: u64,
        line: u8,
        first: i32,
        second: i32,
        third: i32,
        fourth: i32,
        searcher_samples: u16,
        searcher_fraction: i16,
        searcher_next: u8,
        searcher_upper: u8,
        searcher_start: u16,
        reader_samples: u16,
        reader_fraction: i16,
        reader_next: u8,
        reader_upper: u8,
        reader_start: u16,
    }
}

/// The gain of the pitch sharpening, in Q14. No other gain, and no plain number, is of this type:
///
/// ```compile_fail,E0308
/// let silence = [0; mr74::SUBFRAME_SAMPLES];
/// let lag = mr74::pitch::PitchLag::from_absolute(62);
/// mr74::codebook::search::search(&silence, &silence, lag, 8192);
/// ```
#[repr(C)]
#[derive(Debug, Clone, Copy, Default, PartialEq, Eq)]
pub struct SharpeningGain(pub i16);

/// What stands for a record's kind where the feed has ended.
pub const END: u8 = 7;

/// The last served number where none was served yet, and what stands for a channel where there is
/// none.
pub const NO_CHANNEL: usize = usize::MAX;

/// A channel of `pitch::dispatch`: the numbers of a `Search`, and 0 or 1 as its mark.
#[repr(transparent)]
#[derive(Debug, Clone, PartialEq, Eq)]
pub struct Channel(pub(crate) ChannelState);

impl Channel {
    pub(crate) fn numbers(channels: &[Self]) -> &[ChannelState] {
        // SAFETY: a channel has the layout of its numbers, and the list is borrowed as lent.
        unsafe { slice::from_raw_parts(channels.as_ptr().cast(), channels.len()) }
    }

    /// Only the library writes there: 0, 1 and what a search keeps.
    pub(crate) fn numbers_mut(channels: &mut [Self]) -> &mut [ChannelState] {
        // SAFETY: as above.
        unsafe { slice::from_raw_parts_mut(channels.as_mut_ptr().cast(), channels.len()) }
    }
}

/// What the encoder had at a subframe, lists of any length.
#[derive(Debug, Clone, Copy, PartialEq, Eq)]
pub struct SubframeLists<'a> {
    pub excitation: &'a [i16],
    pub target: &'a [i16],
    pub impulse_q12: &'a [i16],
}

/// The same as it crosses: each list as its first word and its length.
#[repr(C)]
struct LentLists {
    excitation: *const i16,
    excitation_length: usize,
    target: *const i16,
    target_length: usize,
    impulse_q12: *const i16,
    impulse_length: usize,
}

impl LentLists {
    fn of(lists: SubframeLists<'_>) -> Self {
        Self {
            excitation: lists.excitation.as_ptr(),
            excitation_length: lists.excitation.len(),
            target: lists.target.as_ptr(),
            target_length: lists.target.len(),
            impulse_q12: lists.impulse_q12.as_ptr(),
            impulse_length: lists.impulse_q12.len(),
        }
    }
}

impl PitchAnswer {
    /// The searcher or reader after the call.
    pub fn state(&self) -> PitchState {
        PitchState {
            samples: self.previous_samples,
            fraction: self.previous_fraction,
            next: self.next,
            upper: self.upper,
            start: self.start,
        }
    }
}

impl StepAnswer {
    /// The searcher after the step.
    pub fn searcher(&self) -> PitchState {
        PitchState {
            samples: self.searcher_samples,
            fraction: self.searcher_fraction,
            next: self.searcher_next,
            upper: self.searcher_upper,
            start: self.searcher_start,
        }
    }

    /// The reader after the step.
    pub fn reader(&self) -> PitchState {
        PitchState {
            samples: self.reader_samples,
            fraction: self.reader_fraction,
            next: self.reader_next,
            upper: self.reader_upper,
            start: self.reader_start,
        }
    }
}

/// Declares a function and its safe form. A list crosses as its first word and its length, the four
/// sets of a frame one after the other, a number or a struct as it is.
macro_rules! entries {
    ($($(#[$meta:meta])* fn $name:ident as $symbol:ident($($parameters:tt)*) -> $answer:ty;)*) => {$(
        entries! { @ [$(#[$meta])* $name $symbol $answer] [] [] [] $($parameters)*, }
    )*};
    (@ $head:tt [$($p:tt)*] [$($t:tt)*] [$($a:tt)*] $list:ident: &[$word:ty], $($rest:tt)*) => {
        entries! { @ $head [$($p)* $list: &[$word],] [$($t)* _: *const $word, _: usize,]
            [$($a)* $list.as_ptr(), $list.len(),] $($rest)* }
    };
    (@ $head:tt [$($p:tt)*] [$($t:tt)*] [$($a:tt)*] $list:ident: &mut [$word:ty], $($rest:tt)*) => {
        entries! { @ $head [$($p)* $list: &mut [$word],] [$($t)* _: *mut $word, _: usize,]
            [$($a)* $list.as_mut_ptr(), $list.len(),] $($rest)* }
    };
    (@ $head:tt [$($p:tt)*] [$($t:tt)*] [$($a:tt)*] $sets:ident: [SubframeLists; 4],
        $($rest:tt)*) => {
        entries! { @ $head [$($p)* $sets: [SubframeLists<'_>; 4],]
            [$($t)* _: LentLists, _: LentLists, _: LentLists, _: LentLists,]
            [$($a)* LentLists::of($sets[0]), LentLists::of($sets[1]), LentLists::of($sets[2]),
                LentLists::of($sets[3]),] $($rest)* }
    };
    (@ $head:tt [$($p:tt)*] [$($t:tt)*] [$($a:tt)*] $number:ident: $type:ty, $($rest:tt)*) => {
        entries! { @ $head [$($p)* $number: $type,] [$($t)* _: $type,]
            [$($a)* $number,] $($rest)* }
    };
    (@ [$(#[$meta:meta])* $name:ident $symbol:ident $answer:ty]
        [$($p:tt)*] [$($t:tt)*] [$($a:tt)*] $(,)?) => {
        $(#[$meta])*
        #[inline]
        #[allow(clippy::too_many_arguments)]
        pub fn $name($($p)*) -> $answer {
            unsafe extern "C" {
                fn $symbol($($t)*) -> $answer;
            }
            // SAFETY: the function takes all numbers and all lists; each pointer is that of a list
            // with the length beside it, borrowed for the call.
            unsafe { $symbol($($a)*) }
        }
    };
}

entries! {
    fn log2 as mr74_log2(value: i32) -> Logarithm;

    fn pow2 as mr74_pow2(exponent: u8, fraction_q15: u16) -> PowerAnswer;

    fn residual as mr74_residual(
        coefficients_q12: &[i16],
        samples: &[i16],
        residual_q0: &mut [i16]
    ) -> LengthAnswer;

    fn prepare as mr74_prepare(
        speech_q0: &[i16],
        coefficients_q12: &[i16],
        quantized_q12: &[i16],
        error_history_q0: &[i16],
        weighting_history_q0: &[i16],
        residual_q0: &mut [i16],
        impulse_q12: &mut [i16],
        target_q0: &mut [i16],
        error_q0: &mut [i16]
    ) -> LengthAnswer;

    /// The detector's old words are lent, and updated there.
    fn open_loop as mr74_open_loop(samples_q0: &[i16], history_q0: &mut [i16]) -> OpenLoopAnswer;

    fn open_loop_lag as mr74_open_loop_lag(samples: u16) -> OpenLoopAnswer;

    /// Of a handset.
    fn fresh_pitch as mr74_fresh_pitch() -> PitchState;

    /// Of an announcement player.
    fn fresh_player as mr74_fresh_player() -> PitchState;

    fn pitch_search as mr74_pitch_search(
        searcher: PitchState,
        excitation: &[i16],
        target: &[i16],
        impulse_q12: &[i16],
        first: u16,
        second: u16,
        subframe: u8
    ) -> PitchAnswer;

    /// Answers as `pitch_search` does, but for the state, which is the one that was given: `start`
    /// is that of the searcher's last window, not of the previewed one.
    fn preview as mr74_preview(
        searcher: PitchState,
        excitation: &[i16],
        target: &[i16],
        impulse_q12: &[i16],
        first: u16,
        second: u16,
        subframe: u8
    ) -> PitchAnswer;

    fn read_lag as mr74_read_lag(reader: PitchState, subframe: u8, index: u8) -> PitchAnswer;

    fn convolve as mr74_convolve(
        input: &[i16],
        impulse_q12: &[i16],
        output: &mut [i16]
    ) -> LengthAnswer;

    /// The lags, the pitches and the states after them are those of two calls of `open_loop`, one
    /// for each half of the samples, and four of `pitch_search`, subframes 1 to 4 with both lags.
    /// The detector's old words are lent, and updated there where the whole frame is accepted. A
    /// searcher that does not expect subframe 1 is refused by 4 before 3.
    fn frame as mr74_frame(
        searcher: PitchState,
        samples_q0: &[i16],
        sets: [SubframeLists; 4],
        history_q0: &mut [i16]
    ) -> FrameAnswer;

    /// A search by the first waiting channel after the last one served, going round; from the first
    /// channel on where `last` is not below the list's length. Its mark is cleared, and it counts
    /// as served, even where the search is refused.
    fn serve as mr74_serve(
        channels: &mut [ChannelState],
        last: usize,
        excitation: &[i16],
        target: &[i16],
        impulse_q12: &[i16],
        first: u16,
        second: u16,
        subframe: u8
    ) -> ServiceAnswer;

    /// The channel that `serve` would take.
    fn next as mr74_next(channels: &[ChannelState], last: usize) -> ChannelAnswer;

    fn mark as mr74_mark(channels: &mut [ChannelState], channel: usize) -> ChannelAnswer;

    fn pulse_search as mr74_pulse_search(
        target: &[i16],
        impulse_q12: &[i16],
        lag: u16,
        pitch_sharp_q14: SharpeningGain,
        innovation_q13: &mut [i16],
        filtered_q12: &mut [i16],
        sharpened_impulse_q12: &mut [i16]
    ) -> PulsesAnswer;

    fn read_pulses as mr74_read_pulses(
        positions: u16,
        signs: u16,
        samples_q13: &mut [i16]
    ) -> PlacesAnswer;

    fn pitch_gain as mr74_pitch_gain(target: &[i16], adaptive: &[i16]) -> PitchGainAnswer;

    fn quantize as mr74_quantize(
        target: &[i16],
        adaptive: &[i16],
        filtered_innovation_q12: &[i16],
        exponent: i16,
        fraction: u16,
        limit: u8
    ) -> GainAnswer;

    /// The spectrum has 10 words.
    fn observe_spectrum as mr74_observe_spectrum(lsp: &[i16], count: u8) -> SpectrumAnswer;

    /// The limit that `watched_gain` would choose. The gains are seven.
    fn watch_limit as mr74_watch_limit(
        pitch_gain_q14: i16,
        count: u8,
        gains: &[i16]
    ) -> LimitAnswer;

    /// `quantize` within the limit that the watch chooses by its count and its seven gains, which
    /// are lent, and updated there. Their length is looked at last of the lists.
    fn watched_gain as mr74_watched_gain(
        target: &[i16],
        adaptive: &[i16],
        filtered_innovation_q12: &[i16],
        exponent: i16,
        fraction: u16,
        pitch_gain_q14: i16,
        count: u8,
        gains: &mut [i16]
    ) -> WatchedGainAnswer;

    /// The record at a place of a feed.
    fn record as mr74_record(feed: &[u8], at: usize) -> RecordAnswer;

    /// Runs the record at a place of a feed. The detector's words are lent and updated there, and
    /// the last list takes the 160 words of a filtering record; every other record, and a refused
    /// one, leaves it as it was. A reset makes searcher and reader fresh, and each keeps its upper
    /// lag; a state that the record does not use comes back as it was given.
    fn step as mr74_step(
        feed: &[u8],
        at: usize,
        searcher: PitchState,
        reader: PitchState,
        history_q0: &mut [i16],
        words: &mut [i16]
    ) -> StepAnswer;
}
