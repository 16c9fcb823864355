//! The stages, each on all its records of a feed in order, with the state that it keeps.

use super::{
    Feed, Row, best, dispatch,
    frames::{Library, Published},
};
use crate::{
    bindings, calls,
    codec::mr74::{
        codebook::Codebook,
        pitch::{
            self,
            search::{SearchError, SearchedPitch},
        },
    },
    feed::{self, Record},
    filtering,
    frames::{Frame, Step, logged},
    gain,
    inputs::Random,
    open_loop::HALF_FRAME,
    project::{
        GainAnswer, PitchAnswer, WatchedGainAnswer, observe_spectrum, preview, quantize,
        watched_gain,
    },
    pulses,
    search::{self, Searcher},
    selection::LagReader,
    stability::{FRESH_GAINS, Gains, RESONANT, Spectrum, Staged, Watch, speech_spectrum},
    words::{EXCITATION, SUBFRAME},
};
use std::{hint::black_box, time::Instant};

const ROUNDS: usize = 25;
/// The rounds of two sides that do the same work.
const EVEN_ROUNDS: usize = 300;
/// What dispatching may cost, in hundredths of the searches, and the watch, in those of the stage.
const DISPATCH: f64 = 105.0;
const WATCH: f64 = 105.0;
/// The spectra that are drawn for each feed, whose records have none.
const SPECTRA: usize = 1_000;
/// The least time of a round, in seconds.
const ROUND: f64 = 0.001;

/// The seconds of a stage's call on a feed's calls: the library's and the Rust's.
type Times = fn(&Calls) -> [f64; 2];

/// The time of the library on a feed's calls, as a ratio to that of other calls of it.
type Ratio = fn(&Calls) -> f64;

enum Measure {
    /// Beside the Rust, and how often the encoder calls it in a second of speech.
    Stage(f64, Times),
    /// Beside other calls of the library, and the greatest ratio in hundredths.
    Even(f64, Ratio),
    /// Shown only.
    Shown(Times),
}

/// How often the encoder calls a stage in a second: for each subframe, or for each half frame.
const SUBFRAMES: f64 = 200.0;
const HALF_FRAMES: f64 = 100.0;
/// The encoder does not call it: what it stands for is counted by itself.
const NEVER: f64 = 0.0;

pub struct Measured {
    pub rows: Vec<Row>,
    /// For each feed, how many calls one core carries with the library and with the Rust.
    pub carried: Vec<[u64; 2]>,
}

/// A call has what the published encoder calls of these stages. For each half frame that is the
/// open loop. For each subframe it is the residual, which its filter of weighted speech takes, the
/// filtering, the pitch search, the convolution of the adaptive words, their pitch gain, the pulses
/// and the gain row. Its other work is not counted, nor are the readers and the dispatcher.
pub fn measured(feeds: &[Feed]) -> Measured {
    use Measure::*;
    let measures: [(&str, Measure); 19] = [
        ("open loop", Stage(HALF_FRAMES, Calls::open_loop)),
        ("pitch", Stage(SUBFRAMES, Calls::pitch)),
        ("preview", Stage(NEVER, Calls::preview)),
        ("frame", Stage(NEVER, Calls::frame)),
        (
            "frame, its six calls being 1",
            Even(100.0, Calls::frame_to_calls),
        ),
        ("dispatch", Stage(NEVER, Calls::dispatch)),
        (
            "dispatch, its searches being 1",
            Even(DISPATCH, Calls::dispatch_to_searches),
        ),
        (
            "the same, each step seeing all 24",
            Even(DISPATCH, Calls::long_dispatch_to_searches),
        ),
        ("pulses", Stage(SUBFRAMES, Calls::pulses)),
        ("gain", Stage(SUBFRAMES, Calls::gain)),
        ("watched gain", Stage(NEVER, Calls::watched_gain)),
        (
            "watched gain, the plain being 1",
            Even(WATCH, Calls::watched_gain_to_plain),
        ),
        ("filtering", Stage(SUBFRAMES, Calls::filtering)),
        ("residual", Stage(SUBFRAMES, Calls::residual)),
        ("convolve", Stage(SUBFRAMES, Calls::convolve)),
        ("pitch gain", Stage(SUBFRAMES, Calls::pitch_gain)),
        ("lag reader", Shown(Calls::lag_reader)),
        ("pulse reader", Shown(Calls::pulse_reader)),
        ("spectrum", Shown(Calls::spectrum)),
    ];
    let calls: Vec<_> = feeds.iter().map(|feed| Calls::of(&feed.records)).collect();
    let mut seconds = vec![[0.0; 2]; feeds.len()];
    let mut rows = Vec::new();
    for (name, measure) in measures {
        rows.push(match measure {
            Stage(often, times) => {
                let times: Vec<_> = calls.iter().map(times).collect();
                for (seconds, times) in seconds.iter_mut().zip(&times) {
                    *seconds = [0, 1].map(|side| seconds[side] + often * times[side]);
                }
                Row::held(name, times.into_iter().map(quotient).collect())
            }
            Even(most, ratio) => Row::within(name, most, calls.iter().map(ratio).collect()),
            Shown(times) => Row::shown(name, calls.iter().map(times).map(quotient).collect()),
        });
    }
    let carried = seconds.into_iter();
    let carried = carried.map(|sides| sides.map(|seconds| (1.0 / seconds) as u64));
    Measured {
        rows,
        carried: carried.collect(),
    }
}

fn quotient([ours, other]: [f64; 2]) -> f64 {
    ours / other
}

/// One side: what it keeps at first, and what it does with a call.
struct Side<C, S, A> {
    fresh: fn() -> S,
    call: fn(&mut S, &C) -> A,
}

impl<C, S, A> Side<C, S, A> {
    /// The time of all calls, so many times over.
    fn round(&self, calls: &[C], times: usize) -> f64 {
        // Through a pointer, so that neither side is compiled into the loop.
        let call = black_box(self.call);
        let start = Instant::now();
        for _ in 0..times {
            let mut state = (self.fresh)();
            for input in calls {
                black_box(call(&mut state, black_box(input)));
            }
        }
        start.elapsed().as_secs_f64()
    }

    /// How many times all calls make a round.
    fn times(&self, calls: &[C]) -> usize {
        assert!(!calls.is_empty(), "a feed without such records");
        1 + (ROUND / self.round(calls, 1)) as usize
    }
}

/// The seconds of a call of each side.
fn times<C, S, T, A, B>(calls: &[C], ours: Side<C, S, A>, other: Side<C, T, B>) -> [f64; 2] {
    let times = other.times(calls);
    let best = best(
        ROUNDS,
        || ours.round(calls, times),
        || other.round(calls, times),
    );
    best.map(|seconds| seconds / (times * calls.len()) as f64)
}

/// The ratio of two sides that do the same work. It is so near 1 that the machine's changes between
/// two rounds matter, so it is the middle one of the ratios of many rounds.
fn even_ratio<C, S, T, A, B>(calls: &[C], ours: Side<C, S, A>, other: Side<C, T, B>) -> f64 {
    let times = other.times(calls);
    let mut ratios = [(); EVEN_ROUNDS].map(|()| {
        let ours = ours.round(calls, times);
        ours / other.round(calls, times)
    });
    ratios.sort_by(f64::total_cmp);
    ratios[EVEN_ROUNDS / 2]
}

/// The times of functions that keep nothing.
macro_rules! plain {
    ($calls:expr, |$call:ident| $ours:expr, $other:expr $(,)?) => {
        times(
            $calls,
            Side {
                fresh: || (),
                call: |(), $call| $ours,
            },
            Side {
                fresh: || (),
                call: |(), $call| $other,
            },
        )
    };
}

/// The same of stages that keep something, which a reset makes fresh.
macro_rules! kept {
    (
        $measured:ident of $calls:expr,
        |$state:ident, $call:ident| $($fresh:path => $answer:expr),+ $(,)?
    ) => {
        $measured(
            $calls,
            $(Side {
                fresh: $fresh,
                call: |$state, Kept { reset, call: $call }| {
                    if *reset {
                        *$state = $fresh();
                    }
                    $answer
                },
            }),+
        )
    };
    ($calls:expr, $($sides:tt)+) => {
        kept!(times of $calls, $($sides)+)
    };
}

/// A call, and whether a reset comes before it.
struct Kept<C> {
    reset: bool,
    call: C,
}

/// A pitch search that is accepted, for both sides.
struct Pitch {
    excitation: [i16; EXCITATION],
    target: [i16; SUBFRAME],
    impulse: [i16; SUBFRAME],
    ours: [mr74::pitch::search::OpenLoopLag; 2],
    other: [pitch::search::OpenLoopLag; 2],
    subframe: mr74::pitch::search::Subframe,
    published: pitch::search::Subframe,
    /// The searcher that the search meets.
    before: Searcher,
}

impl Pitch {
    fn previewed(&self) -> PitchAnswer {
        preview(
            self.before.state(),
            &self.excitation,
            &self.target,
            &self.impulse,
            self.ours.map(|lag| lag.samples()),
            self.subframe.number(),
        )
    }

    /// The Rust has no preview: this is what takes its place.
    fn searched_on_a_copy(&self) -> Result<SearchedPitch, SearchError> {
        self.before.search.clone().search(
            &self.excitation,
            &self.target,
            &self.impulse,
            self.other,
            self.published,
        )
    }
}

/// A gain record behind resonant spectra: its call within the limit that the watch chooses, and the
/// pitch gain that its caller has.
struct Watched {
    call: gain::Call,
    pitch_gain: i16,
}

impl Watched {
    /// The records of a feed in order.
    fn of(calls: &[gain::Call]) -> Vec<Self> {
        let mut watch = Watch::resonant();
        let calls = calls.iter().map(|call| {
            let pitch_gain = call.pitch_gain().gain_q14;
            let limit = watch.stage(call, pitch_gain).limit;
            let call = gain::Call {
                limit,
                ..call.clone()
            };
            Self { call, pitch_gain }
        });
        calls.collect()
    }

    fn watched(&self, gains: &mut Gains) -> WatchedGainAnswer {
        let call = &self.call;
        watched_gain(
            call.lists(),
            call.exponent,
            call.fraction,
            self.pitch_gain,
            RESONANT,
            gains,
        )
    }

    fn plain(&self) -> GainAnswer {
        let call = &self.call;
        quantize(call.lists(), call.exponent, call.fraction, call.choice())
    }

    fn published(&self, watch: &mut Watch) -> Staged {
        watch.stage(&self.call, self.pitch_gain)
    }
}

/// The calls of a feed's records that are accepted, of readings all.
#[derive(Default)]
struct Calls {
    halves: Vec<Kept<[i16; HALF_FRAME]>>,
    pitches: Vec<Kept<Pitch>>,
    frames: Vec<Kept<Frame>>,
    pulses: Vec<pulses::Call>,
    pulse_words: Vec<[u16; 2]>,
    gains: Vec<gain::Call>,
    watched: Vec<Watched>,
    spectra: Vec<Spectrum>,
    filters: Vec<filtering::Call>,
    readings: Vec<Kept<[u8; 2]>>,
}

impl Calls {
    fn of(records: &[Record]) -> Self {
        let random = &mut Random::at(0);
        let mut calls = Self {
            frames: frames(records),
            spectra: (0..SPECTRA).map(|_| speech_spectrum(random)).collect(),
            ..Self::default()
        };
        let mut searcher = Searcher::default();
        let mut resets = [false; 3];
        for Record { kind, body } in records {
            let [half, pitch, reading] = &mut resets;
            match kind {
                0 => {
                    searcher.reset();
                    resets = [true; 3];
                }
                1 => calls.halves.push(Kept {
                    reset: std::mem::take(half),
                    call: feed::words(body).try_into().expect("a half frame"),
                }),
                2 => {
                    let before = searcher.clone();
                    let call = calls::recorded(body);
                    if let Ok(found) = search::published(&before, &mut searcher, &call) {
                        calls.pitches.push(Kept {
                            reset: std::mem::take(pitch),
                            call: Pitch {
                                excitation: *found.lists.excitation,
                                target: *found.lists.target,
                                impulse: *found.lists.impulse,
                                ours: call.open_loop.map(open_loop_lag),
                                other: found.open_loop,
                                subframe: bindings::numbered(call.subframe),
                                published: found.subframe,
                                before: before.clone(),
                            },
                        });
                    }
                }
                3 => {
                    if let Ok(call) = pulses::recorded(body) {
                        let found = call.search();
                        let words = [found.pulse_positions, found.pulse_signs];
                        calls.pulse_words.push(words);
                        calls.pulses.push(call);
                    }
                }
                4 => calls.gains.extend(gain::recorded(body)),
                5 => calls.filters.push(filtering::recorded(body)),
                _ => calls.readings.push(Kept {
                    reset: std::mem::take(reading),
                    call: [body[0], body[1]],
                }),
            }
        }
        calls.watched = Watched::of(&calls.gains);
        calls
    }

    fn open_loop(&self) -> [f64; 2] {
        kept!(&self.halves, |detector, half|
            mr74::pitch::open_loop::Detector::default => detector.push(half),
            pitch::open_loop::Detector::default => detector.push(half),
        )
    }

    fn pitch(&self) -> [f64; 2] {
        kept!(&self.pitches, |searcher, call|
            mr74::pitch::search::Search::default => searcher.search(
                &call.excitation, &call.target, &call.impulse, call.ours, call.subframe,
            ),
            pitch::search::Search::default => searcher.search(
                &call.excitation, &call.target, &call.impulse, call.other, call.published,
            ),
        )
    }

    /// Each of a pitch record on the searcher that the record meets.
    fn preview(&self) -> [f64; 2] {
        plain!(
            &self.pitches,
            |kept| kept.call.previewed(),
            kept.call.searched_on_a_copy(),
        )
    }

    fn frame(&self) -> [f64; 2] {
        kept!(&self.frames, |states, frame|
            Library::fresh => states.frame(frame),
            Published::default => states.six_calls(frame),
        )
    }

    /// To the library's own calls, through the entries for C as the frame is.
    fn frame_to_calls(&self) -> f64 {
        kept!(even_ratio of &self.frames, |states, frame|
            Library::fresh => states.frame(frame),
            Library::fresh => states.six_calls(frame),
        )
    }

    /// Frames for all channels, those at the end left out.
    fn channels(&self) -> Vec<dispatch::Frames<'_>> {
        let (frames, _) = self.frames.as_chunks();
        let frames = frames.iter();
        frames
            .map(|frames| frames.each_ref().map(|kept| &kept.call))
            .collect()
    }

    fn dispatch(&self) -> [f64; 2] {
        times(
            &self.channels(),
            Side {
                fresh: dispatch::Library::fresh,
                call: dispatch::Library::upward,
            },
            Side {
                fresh: dispatch::Published::fresh,
                call: dispatch::Published::upward,
            },
        )
    }

    fn dispatch_to_searches(&self) -> f64 {
        even_ratio(
            &self.channels(),
            Side {
                fresh: dispatch::Library::fresh,
                call: dispatch::Library::upward,
            },
            Side {
                fresh: dispatch::Searches::fresh,
                call: dispatch::Searches::upward,
            },
        )
    }

    /// Each step looks at all channels.
    fn long_dispatch_to_searches(&self) -> f64 {
        even_ratio(
            &self.channels(),
            Side {
                fresh: dispatch::Library::fresh,
                call: dispatch::Library::downward,
            },
            Side {
                fresh: dispatch::Searches::fresh,
                call: dispatch::Searches::downward,
            },
        )
    }

    fn pulses(&self) -> [f64; 2] {
        plain!(
            &self.pulses,
            |call| bindings::pulse_search(call),
            call.search()
        )
    }

    fn gain(&self) -> [f64; 2] {
        plain!(
            &self.gains,
            |call| bindings::quantize(call),
            call.quantize()
        )
    }

    fn watched_gain(&self) -> [f64; 2] {
        times(
            &self.watched,
            Side {
                fresh: || FRESH_GAINS,
                call: |gains, stage| stage.watched(gains),
            },
            Side {
                fresh: Watch::resonant,
                call: |watch, stage| stage.published(watch),
            },
        )
    }

    /// To the library's own stage within the same limit, through the same entries.
    fn watched_gain_to_plain(&self) -> f64 {
        even_ratio(
            &self.watched,
            Side {
                fresh: || FRESH_GAINS,
                call: |gains, stage| stage.watched(gains),
            },
            Side {
                fresh: || (),
                call: |(), stage| stage.plain(),
            },
        )
    }

    fn filtering(&self) -> [f64; 2] {
        plain!(
            &self.filters,
            |call| bindings::prepare(call),
            call.prepare()
        )
    }

    fn residual(&self) -> [f64; 2] {
        plain!(
            &self.filters,
            |call| bindings::residual(call),
            call.residual()
        )
    }

    /// Of a pitch record's target and impulse response.
    fn convolve(&self) -> [f64; 2] {
        plain!(
            &self.pitches,
            |kept| mr74::pitch::search::convolve(&kept.call.target, &kept.call.impulse),
            pitch::search::convolve(&kept.call.target, &kept.call.impulse),
        )
    }

    fn pitch_gain(&self) -> [f64; 2] {
        plain!(
            &self.gains,
            |call| bindings::pitch_gain(call),
            call.pitch_gain()
        )
    }

    /// The Rust has no reader of subframes: the other side is 01's rule over its two readings.
    fn lag_reader(&self) -> [f64; 2] {
        kept!(&self.readings, |reader, sent|
            mr74::pitch::LagReader::default => {
                reader.read(bindings::numbered(sent[0]), sent[1])
            },
            LagReader::default => reader.read(sent[0], sent[1]),
        )
    }

    fn pulse_reader(&self) -> [f64; 2] {
        plain!(
            &self.pulse_words,
            |words| mr74::codebook::Codebook::try_new(words[0], words[1]),
            Codebook::try_new(words[0], words[1]),
        )
    }

    fn spectrum(&self) -> [f64; 2] {
        times(
            &self.spectra,
            Side {
                fresh: || 0,
                call: |count, lsp| {
                    let answer = observe_spectrum(lsp, *count);
                    *count = answer.count;
                    answer.resonant
                },
            },
            Side {
                fresh: Watch::default,
                call: |watch, lsp| watch.observe(lsp),
            },
        )
    }
}

/// The whole frames of a feed.
fn frames(records: &[Record]) -> Vec<Kept<Frame>> {
    let mut frames = Vec::new();
    let mut reset = false;
    for step in logged(records) {
        match step {
            Step::Reset => reset = true,
            Step::Frame(frame) => frames.push(Kept {
                reset: std::mem::take(&mut reset),
                call: *frame,
            }),
        }
    }
    frames
}

fn open_loop_lag(samples: u16) -> mr74::pitch::search::OpenLoopLag {
    mr74::pitch::search::OpenLoopLag::try_new(samples).expect("a lag that was accepted")
}
