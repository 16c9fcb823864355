//! The recorded sample of the gain stage: calls with the answers of the published Rust, for the
//! replay program. The library's answers are not asked for.
//!
//! A record starts with a byte each for the number of target words, of adaptive words and of
//! innovation words; then come the exponent, the fraction, the limit choice in one byte, and those
//! words. Its two lines are `pitch_gain` with the gain, yy, its exponent, xy, its exponent and the
//! counts of its two sums, and `gain` with the index, the pitch gain, the correction and the counts of
//! its five sums. Either may be `refused` with the number and its detail.

use super::{
    calls::{Call, LISTS, SignedRefusal, checked, checked_pitch},
    cases::{self, CHANGES, Quantized},
    clips, pitch_cases,
    rows::ROWS,
    sources::{self, Drawn},
};
use crate::{
    codec::mr74::gain::{TABLE, quantization::pitch_gain},
    counts::Found,
    feed::bytes,
    inputs::Random,
    record::{Kind, Recorded},
    words::{SUBFRAME, uniform},
};

/// The calls that are looked at for those which meet a case or have another row, and those behind them
/// that are made for a number of clipped terms.
const CALLS: u64 = 60_000;
const CLIPPED: u64 = 4_000;

/// Calls, and calls that are refused.
pub fn sample() -> Recorded {
    let mut sample = Sample(Recorded::default());
    for call in calls() {
        sample.record(call.lists(), call.exponent, call.fraction, call.choice());
    }
    sample.refused();
    sample.0
}

/// The cases that some calls met.
struct Met {
    sources: Found<sources::Case>,
    pitch: Found<pitch_cases::Case>,
    quantize: Found<cases::Case>,
    /// A bit for each row.
    rows: u128,
}

impl Met {
    fn new() -> Self {
        Self {
            sources: Found::new(),
            pitch: Found::new(),
            quantize: Found::new(),
            rows: 0,
        }
    }

    fn by(drawn: &Drawn) -> Self {
        let call = &drawn.call;
        let row = usize::from(call.quantize());
        let quantized = Quantized { call, row };
        let mut cases = quantized.cases().found;
        for number in 0..CHANGES.len() {
            quantized.find_change(&mut cases, number);
        }
        let mut sources = Found::new();
        sources.case(drawn.source, true);
        Self {
            sources,
            pitch: pitch_cases::cases(call, &call.pitch_gain()),
            quantize: cases,
            rows: 1 << row,
        }
    }

    /// Without the cases of the counts, which stand last in either list.
    fn without_counts(&self) -> Self {
        Self {
            sources: self.sources.before(sources::Case::Clips),
            pitch: self.pitch.before(pitch_cases::Case::EnergyOnce),
            quantize: self.quantize.before(cases::Case::ProductOnce),
            rows: self.rows,
        }
    }

    fn add(&mut self, other: &Self) {
        self.sources.add(&other.sources);
        self.pitch.add(&other.pitch);
        self.quantize.add(&other.quantize);
        self.rows |= other.rows;
    }

    /// How many of these the other has not.
    fn missing_in(&self, other: &Self) -> u32 {
        self.sources.missing_in(&other.sources)
            + self.pitch.missing_in(&other.pitch)
            + self.quantize.missing_in(&other.quantize)
            + (self.rows & !other.rows).count_ones()
    }

    /// Asserts that no case is missing that a call without a feed can meet.
    fn assert_all(&self) {
        const { assert!(ROWS == u128::BITS as usize) };
        self.sources.assert_met(|case| !case.needs_feed());
        self.pitch.assert_met(|_| true);
        self.quantize.assert_met(cases::Case::must_occur);
        assert_eq!(self.rows, u128::MAX, "a row without a call");
    }
}

/// Calls that meet all cases and have all rows. No feed is among them, so that the sample is the same
/// without one. The first are chosen as if no case were of the counts, so that they stay those that
/// were recorded before there were any.
fn calls() -> Vec<Call> {
    let drawn = (0..CALLS).map(|index| Drawn::at(index, &[]));
    let clipped = (0..CLIPPED).map(Drawn::of_clips);
    let drawn: Vec<_> = drawn.chain(clipped).collect();
    let all: Vec<_> = drawn.iter().map(Met::by).collect();
    let first = &all[..CALLS as usize];
    let plain: Vec<_> = first.iter().map(Met::without_counts).collect();
    let mut chosen = choose(&plain, &mut Met::new());
    let mut met = Met::new();
    for &place in &chosen {
        met.add(&all[place]);
    }
    chosen.extend(choose(&all, &mut met));
    met.assert_all();
    let call = |place: usize| drawn[place].call.clone();
    chosen.into_iter().map(call).collect()
}

/// Of the calls that meet these the places of some that meet all, each the one that meets most of what
/// none before it met; of those that meet as many the last, in any case.
fn choose(calls: &[Met], met: &mut Met) -> Vec<usize> {
    let mut places = Vec::new();
    loop {
        let missing = |&place: &usize| calls[place].missing_in(met);
        let most = (0..calls.len()).max_by_key(missing).expect("a call");
        if calls[most].missing_in(met) == 0 {
            return places;
        }
        met.add(&calls[most]);
        places.push(most);
    }
}

struct Sample(Recorded);

impl Sample {
    /// A call of lists of any length, with any pair and choice.
    fn record(&mut self, lists: [&[i16]; LISTS], exponent: i16, fraction: u16, choice: u8) {
        let lengths = lists.map(<[i16]>::len);
        self.0.begin(Kind::GainRow);
        let stdin = &mut self.0.stdin;
        stdin.extend(lengths.map(|length| length as u8));
        stdin.extend(exponent.to_be_bytes());
        stdin.extend(fraction.to_be_bytes());
        stdin.push(choice);
        stdin.extend(bytes(&lists.concat()));

        const LENGTH: &str = "a length that was checked";
        let [target, adaptive, filtered] = lists;
        match checked_pitch([target.len(), adaptive.len()]) {
            Ok(()) => {
                let lists = [target, adaptive].map(|list| list.try_into().expect(LENGTH));
                let [target, adaptive] = &lists;
                let answer = pitch_gain(target, adaptive);
                let numbers = [answer.gain_q14].into_iter().chain(answer.correlations);
                let clips = clips::of_pitch_gain(target, adaptive).map(i16::from);
                self.0.line("pitch_gain", numbers.chain(clips));
            }
            Err(refusal) => self.refuse(refusal.into()),
        }
        match checked(lengths, exponent, fraction, choice) {
            Ok(limit) => {
                let call = Call {
                    target: target.try_into().expect(LENGTH),
                    adaptive: adaptive.try_into().expect(LENGTH),
                    filtered: filtered.try_into().expect(LENGTH),
                    exponent,
                    fraction,
                    limit,
                };
                let index = call.quantize();
                let [pitch, correction, _] = TABLE[usize::from(index)];
                let numbers = [index.into(), i32::from(pitch), correction.into()];
                let clips = call.clips().map(i32::from);
                self.0.line("gain", numbers.into_iter().chain(clips));
            }
            Err(refusal) => self.refuse(refusal),
        }
    }

    /// Each list of a wrong length alone and before others, with good and bad choices and pairs; bad
    /// choices; and bad pairs.
    fn refused(&mut self) {
        const LENGTHS: [[usize; LISTS]; 7] = [
            [0, 0, 0],
            [39, 40, 40],
            [41, 39, 63],
            [40, 0, 40],
            [40, 41, 1],
            [40, 40, 39],
            [40, 40, 63],
        ];
        const OTHERS: [(i16, u16, u8); 12] = [
            (0, 0, 2),
            (0, 0, u8::MAX),
            (-129, 0, 2),
            (0, u16::MAX, 128),
            (-129, 0, 0),
            (128, 0, 1),
            (i16::MIN, 0, 0),
            (i16::MAX, 32767, 1),
            (-129, 32768, 1),
            (-128, 32768, 1),
            (127, 32768, 0),
            (0, u16::MAX, 0),
        ];
        let random = &mut Random::at(1);
        for (number, lengths) in LENGTHS.into_iter().enumerate() {
            let (exponent, fraction, choice) = match number % 3 {
                0 => (0, 0, 0),
                1 => (-129, 0, 1),
                _ => (7, 32768, 2),
            };
            let words: [i16; 63] = uniform(random);
            let lists = lengths.map(|length| &words[..length]);
            self.record(lists, exponent, fraction, choice);
        }
        for (exponent, fraction, choice) in OTHERS {
            let words: [i16; SUBFRAME] = uniform(random);
            self.record([&words; LISTS], exponent, fraction, choice);
        }
    }

    fn refuse(&mut self, refusal: SignedRefusal) {
        let numbers = [refusal.number.into(), refusal.detail];
        self.0.line("refused", numbers);
    }
}
