//! The Rust bindings beside the published Rust, by the names and shapes that both have. A value of
//! one and its namesake of the other are compared as they are shown, so that the names of types and
//! fields count too. A searcher has an upper lag and a start that the published one has not: they
//! are added where that one is shown. A pitch gain and a row have counts that the published ones
//! have not, and are compared by their parts.

mod parts;
mod watch;

use crate::{
    adopted,
    calls::{self, Step},
    chains::Chain,
    codec::mr74::{
        codebook::Codebook,
        logarithm,
        pitch::{self, PitchLag},
    },
    compare::{Function, Line, function, in_threads},
    filtering, gain,
    inputs::{Argument, Inputs, Random, every, sample},
    open_loop::{self, HALF_FRAME},
    published, pulses,
    reader::{Reading, read},
    search::Searcher,
    selection::first,
    subframes::{Refusal, number, read_start, subframe},
    upper::Upper,
    words::{SUBFRAME, impulse_response, mixed},
};
use mr74::{
    codebook::search::{SearchResult, SharpeningGain},
    encoder_filtering::PreparedSubframe,
    gain::quantization::{GainLimit, PitchGain, Prediction, QuantizedRow},
    pitch::{
        Fraction, LagReader,
        search::{OpenLoopLag, Search, SearchedPitch, Subframe},
    },
};
use std::fmt::Debug;

const CALLS: u64 = 50_000;
const NUMBERS: u64 = 1_000_000;
/// Chains of the search, of the detector and of the lag reader, and the steps of one.
const CHAINS: u64 = 1_000;
const STEPS: usize = 64;

pub fn functions() -> Vec<Function> {
    let mut functions = vec![
        function!("log2", sample::<i32>(NUMBERS), |v| told(mr74::logarithm::log2(v)), {
            "logarithm.rs" => told(logarithm::log2(v)),
        }),
        function!("pow2", sample(NUMBERS), |(e, f)| told(mr74::logarithm::pow2(e, f)), {
            "logarithm.rs" => told(published::pow2(e, f)),
        }),
        function!(
            "Codebook::try_new",
            pulse_words(),
            |(positions, signs)| told(mr74::codebook::Codebook::try_new(positions, signs)),
            { "codebook.rs" => told(read_pulses(positions, signs)) }
        ),
        function!("OpenLoopLag", every::<u16>(), |n| told(lag(n)), {
            "pitch/search.rs" => told(published_lag(n)),
        }),
        function!("record", calls(), |index| told(record(index)), {
            "rule of 01" => told(expected_record(index)),
        }),
        function!("PitchLag", lag_indexes(), |(first, second)| told(lags(first, second)), {
            "pitch.rs" => told(published_lags(first, second)),
        }),
    ];
    functions.extend(lists());
    functions.extend(chains());
    functions.extend(adopted::functions());
    functions
}

fn lists() -> [Function; 6] {
    [
        function!("residual", calls(), |index| told(residual(&filters(index))), {
            "encoder_filtering.rs" => told(filters(index).residual()),
        }),
        function!("prepare", calls(), |index| told(prepare(&filters(index))), {
            "encoder_filtering.rs" => told(filters(index).prepare()),
        }),
        function!("convolve", calls(), |index| told(convolve(&pair(index))), {
            "pitch/search.rs" => told(published_convolve(&pair(index))),
        }),
        function!("codebook::search", calls(), |index| told(pulse_search(&pulse_call(index))), {
            "codebook/search.rs" => told(Ok::<_, Refusal>(pulse_call(index).search())),
        }),
        function!("pitch_gain", calls(), |index| parts::of_gain(&gains(index)), {
            "gain/quantization.rs" => parts::of_published_gain(&gains(index)),
        }),
        function!("quantize", calls(), |index| parts::of_row(&gains(index)), {
            "gain/quantization.rs" => Ok(parts::of_published_row(&gains(index))),
        }),
    ]
}

fn chains() -> [Function; 6] {
    const PLAYER: &str = "upper lag 120, answers and state";
    [
        Function {
            name: "Search",
            compare: || {
                let chain = |index| search_chain(Upper::Handset, Search::default(), index);
                compare_chains("pitch/search.rs, answers and state", chain)
            },
        },
        Function {
            name: "Search",
            compare: || {
                let chain = |index| search_chain(Upper::Player, Search::player(), index);
                compare_chains(PLAYER, chain)
            },
        },
        Function {
            name: "Detector",
            compare: || compare_chains("pitch/open_loop.rs, answers and state", detector_chain),
        },
        Function {
            name: "LagReader",
            compare: || {
                let chain = |index| reader_chain(Upper::Handset, LagReader::default(), index);
                compare_chains("pitch.rs, answers and state", chain)
            },
        },
        Function {
            name: "LagReader",
            compare: || {
                let chain = |index| reader_chain(Upper::Player, LagReader::player(), index);
                compare_chains(PLAYER, chain)
            },
        },
        Function {
            name: "Stability",
            compare: watch::compare,
        },
    ]
}

pub fn told(value: impl Debug) -> String {
    format!("{value:?}")
}

// ---- The bindings, called with the oracle's calls.

pub fn residual(call: &filtering::Call) -> [i16; SUBFRAME] {
    mr74::encoder_filtering::residual(&call.coefficients, &call.speech)
}

pub fn prepare(call: &filtering::Call) -> PreparedSubframe {
    mr74::encoder_filtering::prepare(
        &call.speech,
        &call.coefficients,
        &call.quantized,
        &call.error_history,
        &call.weighting_history,
    )
}

pub fn convolve([input, impulse]: &[[i16; SUBFRAME]; 2]) -> [i16; SUBFRAME] {
    mr74::pitch::search::convolve(input, impulse)
}

pub fn pulse_search(call: &pulses::Call) -> Result<SearchResult, mr74::Refusal> {
    let lag = mr74::pitch::PitchLag {
        samples: call.lag,
        fraction: Fraction::Zero,
    };
    let gain = SharpeningGain(call.gain);
    mr74::codebook::search::search(&call.target, &call.impulse, lag, gain)
}

pub fn pitch_gain(call: &gain::Call) -> PitchGain {
    mr74::gain::quantization::pitch_gain(&call.target, &call.adaptive)
}

pub fn quantize(call: &gain::Call) -> Result<QuantizedRow, mr74::Refusal> {
    let limit = match call.choice() {
        0 => GainLimit::Unrestricted,
        _ => GainLimit::Resonance,
    };
    mr74::gain::quantization::quantize(
        &call.target,
        &call.adaptive,
        &call.filtered,
        prediction(call),
        limit,
    )
}

fn prediction(call: &gain::Call) -> Prediction {
    Prediction {
        exponent: call.exponent,
        fraction: call.fraction,
    }
}

/// A call whose lists and subframe the types admit.
fn searched(search: &mut Search, call: &calls::Call) -> Result<SearchedPitch, mr74::Refusal> {
    let lists = lists_of(call);
    search.search(
        lists.excitation,
        lists.target,
        lists.impulse,
        open_loop_lags(call)?,
        numbered(call.subframe),
    )
}

fn previewed(search: &Search, call: &calls::Call) -> Result<SearchedPitch, mr74::Refusal> {
    let lists = lists_of(call);
    search.preview(
        lists.excitation,
        lists.target,
        lists.impulse,
        open_loop_lags(call)?,
        numbered(call.subframe),
    )
}

fn lists_of(call: &calls::Call) -> calls::Lists<'_> {
    call.lists().expect("lists of the search's lengths")
}

fn open_loop_lags(call: &calls::Call) -> Result<[OpenLoopLag; 2], mr74::Refusal> {
    let [first, second] = call.open_loop;
    Ok([OpenLoopLag::try_new(first)?, OpenLoopLag::try_new(second)?])
}

pub fn numbered(subframe: u8) -> Subframe {
    match subframe {
        1 => Subframe::One,
        2 => Subframe::Two,
        3 => Subframe::Three,
        4 => Subframe::Four,
        _ => panic!("subframe {subframe}"),
    }
}

// ---- What they are called with.

fn calls() -> Inputs<impl Fn(u64) -> Option<u64> + Sync> {
    Inputs {
        count: CALLS,
        at: Some,
    }
}

fn filters(index: u64) -> filtering::Call {
    filtering::Drawn::at(index, &[]).call
}

fn pulse_call(index: u64) -> pulses::Call {
    pulses::Drawn::at(index, &[]).call
}

fn gains(index: u64) -> gain::Call {
    gain::Drawn::at(index, &[]).call
}

fn pair(index: u64) -> [[i16; SUBFRAME]; 2] {
    let random = &mut Random::at(index);
    match index % 2 {
        0 => [mixed(random), mixed(random)],
        _ => [mixed(random), impulse_response(random)],
    }
}

/// All words that are accepted, then any.
fn pulse_words() -> Inputs<impl Fn(u64) -> Option<(u16, u16)> + Sync> {
    const ACCEPTED: u64 = 1 << 17;
    Inputs {
        count: 2 * ACCEPTED,
        at: |index| {
            Some(match index < ACCEPTED {
                true => ((index >> 4) as u16, (index & 15) as u16),
                false => Argument::random(&mut Random::at(index)),
            })
        },
    }
}

/// All pairs of an absolute index and a relative one, refused ones too.
fn lag_indexes() -> Inputs<impl Fn(u64) -> Option<(u8, u8)> + Sync> {
    Inputs {
        count: 1 << 16,
        at: |index| Some(((index >> 8) as u8, index as u8)),
    }
}

// ---- The published answers in the bindings' form.

fn read_pulses(positions: u16, signs: u16) -> Result<Codebook, Refusal> {
    Codebook::try_new(positions, signs).map_err(Refusal::from)
}

fn published_convolve([input, impulse]: &[[i16; SUBFRAME]; 2]) -> [i16; SUBFRAME] {
    pitch::search::convolve(input, impulse)
}

fn lag(samples: u16) -> Result<u16, mr74::Refusal> {
    OpenLoopLag::try_new(samples).map(OpenLoopLag::samples)
}

fn published_lag(samples: u16) -> Result<u16, Refusal> {
    let lag = pitch::search::OpenLoopLag::try_new(samples);
    Ok(lag.map(pitch::search::OpenLoopLag::samples)?)
}

/// A feed that may have any kind and may be cut short, and a place that may lie behind it.
fn feed_at(index: u64) -> (Vec<u8>, usize) {
    let random = &mut Random::at(index);
    let length = random.below(600);
    let at = random.below(length + 3) as usize / 2;
    let mut feed: Vec<u8> = (0..length).map(|_| random.word() as u8).collect();
    if let Some(kind) = feed.get_mut(at) {
        *kind %= 8;
    }
    (feed, at)
}

fn record(index: u64) -> Result<Option<(u8, Vec<u8>, usize)>, mr74::Refusal> {
    let (feed, at) = feed_at(index);
    let record = mr74::feed::record(&feed, at)?;
    Ok(record.map(|record| (record.kind, record.body.to_vec(), record.next)))
}

fn expected_record(index: u64) -> Result<Option<(u8, Vec<u8>, usize)>, Refusal> {
    let (feed, at) = feed_at(index);
    let head = feed.get(at..).and_then(first).transpose();
    let head = head.map_err(|refusal| Refusal {
        number: refusal.number,
        detail: refusal.detail as u64,
    })?;
    Ok(head.map(|head| (head.kind, head.body.to_vec(), feed.len() - head.rest.len())))
}

/// The lag of an absolute index, and that of a relative one after it.
fn lags(first: u8, second: u8) -> [Result<mr74::pitch::PitchLag, mr74::Refusal>; 2] {
    let first = mr74::pitch::PitchLag::from_absolute(first);
    [
        Ok(first),
        mr74::pitch::PitchLag::from_relative(second, first),
    ]
}

fn published_lags(first: u8, second: u8) -> [Result<PitchLag, Refusal>; 2] {
    let first = PitchLag::from_absolute(first);
    let second = PitchLag::from_relative(second, first);
    [Ok(first), second.map_err(Refusal::from)]
}

// ---- Chains of calls, where each side goes on from its own state.

/// What each side answers and then keeps, step by step.
pub type Told = [String; 2];

pub fn compare_chains(with: &'static str, chain: fn(u64) -> Vec<Told>) -> Vec<Line> {
    let mut line = Line::new(with);
    let parts = in_threads(
        CHAINS,
        || Line::new(with),
        |line, indexes| {
            for index in indexes {
                compare_chain(line, index, &chain(index));
            }
        },
    );
    for part in parts {
        line.add(part);
    }
    vec![line]
}

fn compare_chain(line: &mut Line, index: u64, steps: &[Told]) {
    for (step, [ours, other]) in steps.iter().enumerate() {
        line.compared += 1;
        if ours != other {
            line.difference(index, &("chain, step", index, step), ours, other);
        }
    }
}

fn search_chain(upper: Upper, mut ours: Search, index: u64) -> Vec<Told> {
    let mut chain = Chain::at(index, &[]);
    let mut other = Searcher::fresh(upper);
    let mut steps = Vec::new();
    while let Some(step) = chain.next(&other) {
        let answers = match step {
            Step::Reset => {
                ours.reset();
                other.reset();
                [told("reset"), told("reset")]
            }
            // The types leave no other length and no other subframe to be asked for.
            Step::Search(call) if call.lists().is_err() || subframe(call.subframe).is_err() => {
                continue;
            }
            Step::Search(call) => {
                // A preview first, beside the search of a copy.
                let shown_first = told(previewed(&ours, &call)) + &told(&ours);
                let of_copy = told(published_searched(&mut other.clone(), &call));
                steps.push([shown_first, of_copy + &shown(&other)]);
                [
                    told(searched(&mut ours, &call)),
                    told(published_searched(&mut other, &call)),
                ]
            }
        };
        let [answer, expected] = answers;
        steps.push([answer + &told(&ours), expected + &shown(&other)]);
    }
    steps
}

/// The type of a lag admits all of the handset's, and refuses the others before a search does.
fn published_searched(
    searcher: &mut Searcher,
    call: &calls::Call,
) -> Result<pitch::search::SearchedPitch, Refusal> {
    Upper::Handset.open_loop(call.open_loop)?;
    searcher.searched(call)
}

/// The published search as it is shown, with the upper lag and the start behind its own fields.
fn shown(searcher: &Searcher) -> String {
    const END: &str = " }";
    let search = told(&searcher.search);
    let fields = search.strip_suffix(END).expect("named fields");
    let Searcher { upper, start, .. } = searcher;
    format!("{fields}, upper: {upper:?}, start: {start}{END}")
}

fn detector_chain(index: u64) -> Vec<Told> {
    let mut chain = open_loop::Chain::at(index, &[]);
    let mut ours = mr74::pitch::open_loop::Detector::default();
    let mut other = pitch::open_loop::Detector::default();
    let step = |_| {
        let samples: [i16; HALF_FRAME] = chain.words(&other.history_q0);
        let answers = [told(ours.push(&samples)), told(other.push(&samples))];
        let [answer, expected] = answers;
        [answer + &told(&ours), expected + &told(&other)]
    };
    (0..STEPS).map(step).collect()
}

/// Mostly the subframe that is expected, any index.
fn reader_chain(upper: Upper, mut ours: LagReader, index: u64) -> Vec<Told> {
    let random = &mut Random::at(index);
    let mut previous = pitch::search::Search::default().previous;
    let mut expected = 1;
    let mut start = 0;
    let step = |_| {
        let asked = match random.below(4) {
            0 => 1 + random.below(4) as u8,
            _ => expected,
        };
        let sent = random.below(34) as u8 + 222 * random.below(2) as u8;
        let answer = ours.read(numbered(asked), sent);
        let published = read(Reading {
            upper,
            previous,
            expected,
            start,
            subframe: asked,
            index: sent,
        });
        if let Ok(lag) = published {
            previous = lag;
            expected = asked % 4 + 1;
            start = read_start(asked, lag, sent);
        }
        let next = subframe(expected).map(number).expect("a subframe");
        [
            told((
                answer,
                ours.previous,
                ours.next.number(),
                ours.upper,
                ours.start,
            )),
            told((published, previous, next, upper, start)),
        ]
    };
    (0..STEPS).map(step).collect()
}
