//! The time of a call, as a ratio to the published Rust in the same run.

mod gain;
mod stability;

use crate::{
    codec::mr74::{
        codebook::{Codebook, search::SearchResult},
        encoder_filtering::PreparedSubframe,
        energy::inverse_sqrt,
        gain::quantization,
        logarithm,
        pitch::{
            self,
            open_loop::Detector,
            search::{OpenLoopLag, Search, SearchedPitch},
        },
    },
    filtering::{self, loud_call, speech_call},
    inputs::{Argument, Random},
    open_loop::{HALF_FRAME, HISTORY},
    project::*,
    published, pulses,
    search::Searcher,
    speech::Speech,
    subframes::{number, searched_start},
    words::{EXCITATION, SUBFRAME, uniform},
};
use std::{hint::black_box, time::Instant};

const INPUTS: usize = 1 << 16;
/// Inputs of a function on lists, few enough to stay in the machine's nearest memory.
const LISTS: usize = 1 << 8;
const ROUNDS: usize = 100;

/// The ratio on random inputs that are admitted.
fn ratio<I: Argument, A, B>(
    name: &str,
    admits: fn(I) -> bool,
    ours: fn(I) -> A,
    other: fn(I) -> B,
) {
    let mut random = Random::at(0);
    let mut inputs = Vec::with_capacity(INPUTS);
    while inputs.len() < INPUTS {
        let input = I::random(&mut random);
        if admits(input) {
            inputs.push(input);
        }
    }
    measure(name, &inputs, ours, other);
}

/// Both sides are called through pointers, so neither is compiled into the loop.
fn measure<I: Copy, A, B>(name: &str, inputs: &[I], ours: fn(I) -> A, other: fn(I) -> B) {
    // The rounds of the two sides alternate, so that both see the same machine.
    let mut best = [f64::MAX; 2];
    for _ in 0..ROUNDS {
        best[0] = best[0].min(round(inputs, black_box(ours)));
        best[1] = best[1].min(round(inputs, black_box(other)));
    }
    let [library, rust] = best;
    println!(
        "{name} library {library:.2} ns, Rust {rust:.2} ns, ratio {:.2}",
        library / rust
    );
}

/// Nanoseconds a call.
fn round<I: Copy, A>(inputs: &[I], function: fn(I) -> A) -> f64 {
    let start = Instant::now();
    for &input in inputs {
        black_box(function(input));
    }
    start.elapsed().as_secs_f64() * 1e9 / inputs.len() as f64
}

pub fn report() {
    report_operators();
    for (kind, loud) in [("quiet speech", false), ("loud words", true)] {
        report_lists(kind, loud);
    }
    report_pushes();
    report_filtering();
    report_pulses();
    gain::report();
    stability::report();
}

fn report_operators() {
    ratio::<(i16, i16), _, _>(
        "product",
        |_| true,
        |(a, b)| leaf_product(a, b),
        |(a, b)| quantization::product(a, b),
    );
    ratio::<(i16, i16), _, _>(
        "fractional",
        |_| true,
        |(a, b)| leaf_fractional(a, b),
        |(a, b)| quantization::fractional(a, b),
    );
    ratio::<(i32, i32), _, _>(
        "multiply",
        |_| true,
        |(a, b)| leaf_multiply(a, b),
        |(a, b)| pitch::search::multiply(a, b),
    );
    ratio::<(i32, i16), _, _>(
        "shift",
        |_| true,
        |(v, n)| leaf_shift(v, n),
        |(v, n)| quantization::shift(v, n),
    );
    ratio::<i32, _, _>(
        "normalize",
        |_| true,
        |v| leaf_normalize(v),
        quantization::normalize,
    );
    ratio::<(i16, i16), _, _>(
        "divide",
        |(a, b)| published::divides(a >> 1, b) && a >= 0,
        |(a, b)| leaf_divide(a >> 1, b),
        |(a, b)| published::pitch_gain_ratio(a, b),
    );
    ratio::<i32, _, _>(
        "inverse_sqrt",
        |_| true,
        |v| leaf_inverse_sqrt(v),
        inverse_sqrt,
    );
    ratio::<i32, _, _>("log2", |_| true, log2, logarithm::log2);
    ratio::<(u8, u16), _, _>(
        "pow2",
        |(e, f)| e <= 30 && f <= 32767,
        |(e, f)| pow2(e, f),
        |(e, f)| logarithm::pow2(e, f),
    );
}

/// A call of the search that is accepted, for both sides.
struct Call {
    before: Search,
    state: PitchState,
    excitation: [i16; EXCITATION],
    target: [i16; SUBFRAME],
    impulse: [i16; SUBFRAME],
    open_loop: [OpenLoopLag; 2],
    lags: [u16; 2],
}

/// A chain of calls. Of loud words, the excitation and the target are uniform.
fn calls(loud: bool) -> Vec<Call> {
    const BITS: u32 = 9;
    let random = &mut Random::at(0);
    let mut speech = Speech::new(random, BITS);
    let mut searcher = Searcher::default();
    let mut calls = Vec::new();
    while calls.len() < 2 * LISTS {
        speech.advance(random);
        let lags = [speech.open_loop(random), speech.open_loop(random)];
        let call = Call {
            before: searcher.search.clone(),
            state: searcher.state(),
            excitation: if loud {
                uniform(random)
            } else {
                speech.excitation
            },
            target: if loud {
                uniform(random)
            } else {
                speech.target()
            },
            impulse: speech.impulse,
            open_loop: lags.map(|lag| OpenLoopLag::try_new(lag).expect("a lag within limits")),
            lags,
        };
        let (answer, after) = published_search(&call);
        let subframe = searcher.search.next;
        searcher.start = searched_start(&searcher, call.open_loop, subframe, answer);
        searcher.search = after;
        calls.push(call);
    }
    calls
}

fn report_lists(kind: &str, loud: bool) {
    let calls = calls(loud);
    let (absolute, relative): (Vec<_>, Vec<_>) =
        calls.iter().partition(|call| call.before.next.absolute());
    measure(
        &format!("convolve ({kind})"),
        &absolute,
        library_convolve,
        published_convolve,
    );
    for (name, calls) in [("absolute", absolute), ("relative", relative)] {
        let name = format!("search ({name} subframe, {kind})");
        measure(&name, &calls, library_search, published_search);
    }
}

#[inline(never)]
fn library_convolve(call: &Call) -> (LengthAnswer, [i16; SUBFRAME]) {
    let mut output = [0; SUBFRAME];
    let answer = convolve(&call.target, &call.impulse, &mut output);
    (answer, output)
}

#[inline(never)]
fn published_convolve(call: &Call) -> [i16; SUBFRAME] {
    pitch::search::convolve(&call.target, &call.impulse)
}

#[inline(never)]
fn library_search(call: &Call) -> PitchAnswer {
    pitch_search(
        call.state,
        &call.excitation,
        &call.target,
        &call.impulse,
        call.lags,
        number(call.before.next),
    )
}

/// The answer, and the search after it.
#[inline(never)]
fn published_search(call: &Call) -> (SearchedPitch, Search) {
    let mut search = call.before.clone();
    let answer = search.search(
        &call.excitation,
        &call.target,
        &call.impulse,
        call.open_loop,
        call.before.next,
    );
    (answer.expect("a call in order"), search)
}

/// A push, for both sides.
struct Push {
    before: Detector,
    samples: [i16; HALF_FRAME],
}

impl Push {
    /// The energy of all words, not clipped.
    fn energy(&self) -> i64 {
        let words = self.before.history_q0.iter().chain(&self.samples);
        words.map(|&word| 2 * i64::from(word).pow(2)).sum()
    }
}

/// A chain of pushes of words that resemble speech, their highest pulses of so many bits; where
/// none are given, of uniform words.
fn pushes(bits: Option<u32>) -> Vec<Push> {
    let random = &mut Random::at(0);
    let mut speech = bits.map(|bits| Speech::new(random, bits));
    let mut detector = Detector::default();
    let mut pushes = Vec::new();
    while pushes.len() < LISTS {
        let samples = match &mut speech {
            Some(speech) => speech.half_frame(random),
            None => uniform(random),
        };
        let push = Push {
            before: detector.clone(),
            samples,
        };
        (_, detector) = published_push(&push);
        pushes.push(push);
    }
    pushes
}

/// Words of the three loudnesses by which the push shifts them left, not at all, or right.
fn report_pushes() {
    const LOW: i64 = 1 << 20;
    const CLIP: i64 = (1 << 31) - 1;
    for (kind, bits, energies) in [
        ("quiet speech", Some(5), 0..LOW),
        ("medium speech", Some(11), LOW..CLIP),
        ("full-scale words", None, CLIP..i64::MAX),
    ] {
        let pushes = pushes(bits);
        let right = pushes.iter().all(|push| energies.contains(&push.energy()));
        assert!(right, "words of another loudness than {kind}");
        let pushes: Vec<_> = pushes.iter().collect();
        let name = format!("open_loop ({kind})");
        measure(&name, &pushes, library_push, published_push);
    }
}

/// The answer, and the history after it.
#[inline(never)]
fn library_push(push: &Push) -> (OpenLoopAnswer, [i16; HISTORY]) {
    let mut history = push.before.history_q0;
    let answer = open_loop(&push.samples, &mut history);
    (answer, history)
}

/// The lag, and the detector after it.
#[inline(never)]
fn published_push(push: &Push) -> (OpenLoopLag, Detector) {
    let mut detector = push.before.clone();
    let lag = detector.push(&push.samples);
    (lag, detector)
}

/// A call of `residual` or of `prepare`, for both sides.
type Filtering = filtering::Call;

fn report_filtering() {
    type Draw = fn(&mut Random) -> Filtering;
    let kinds: [(&str, Draw); 2] = [
        ("speech, stable filter", speech_call),
        ("full-scale words, unstable filter", loud_call),
    ];
    for (kind, draw) in kinds {
        let random = &mut Random::at(0);
        let calls: Vec<_> = (0..LISTS).map(|_| draw(random)).collect();
        let calls: Vec<_> = calls.iter().collect();
        let name = format!("residual ({kind})");
        measure(&name, &calls, library_residual, published_residual);
        let name = format!("prepare ({kind})");
        measure(&name, &calls, library_prepare, published_prepare);
    }
}

#[inline(never)]
fn library_residual(call: &Filtering) -> (LengthAnswer, [i16; SUBFRAME]) {
    let mut output = [0; SUBFRAME];
    let answer = residual(&call.coefficients, &call.speech, &mut output);
    (answer, output)
}

#[inline(never)]
fn published_residual(call: &Filtering) -> [i16; SUBFRAME] {
    call.residual()
}

#[inline(never)]
fn library_prepare(call: &Filtering) -> (LengthAnswer, [[i16; SUBFRAME]; 4]) {
    let mut outputs = [[0; SUBFRAME]; 4];
    let written = outputs.each_mut().map(|output| output.as_mut_slice());
    let answer = prepare(call.lists(), written);
    (answer, outputs)
}

#[inline(never)]
fn published_prepare(call: &Filtering) -> PreparedSubframe {
    call.prepare()
}

/// A call of the pulse search, for both sides.
type Pulses = pulses::Call;

fn report_pulses() {
    type Draw = fn(&mut Random) -> Pulses;
    let kinds: [(&str, Draw); 3] = [
        ("speech", |random| pulses::speech_call(random, 12)),
        ("quiet speech", |random| pulses::speech_call(random, 5)),
        ("full-scale words", pulses::full_scale_call),
    ];
    for (kind, draw) in kinds {
        let random = &mut Random::at(0);
        let calls: Vec<_> = (0..LISTS).map(|_| draw(random)).collect();
        let calls: Vec<_> = calls.iter().collect();
        let name = format!("pulse_search ({kind})");
        measure(&name, &calls, library_pulses, published_pulses);
    }
    ratio::<(u16, u16), _, _>(
        "read_pulses",
        |(positions, signs)| positions < 8192 && signs < 16,
        library_reading,
        |(positions, signs)| Codebook::try_new(positions, signs),
    );
}

#[inline(never)]
fn library_pulses(call: &Pulses) -> (PulsesAnswer, [[i16; SUBFRAME]; 3]) {
    let mut outputs = [[0; SUBFRAME]; 3];
    let written = outputs.each_mut().map(|output| output.as_mut_slice());
    let answer = pulse_search(call.read(), call.lag, SharpeningGain(call.gain), written);
    (answer, outputs)
}

#[inline(never)]
fn published_pulses(call: &Pulses) -> SearchResult {
    call.search()
}

fn library_reading((positions, signs): (u16, u16)) -> (PlacesAnswer, [i16; SUBFRAME]) {
    let mut samples = [0; SUBFRAME];
    let answer = read_pulses(positions, signs, &mut samples);
    (answer, samples)
}
