//! The recorded sample of the pulses: readings and searches with the answers of the published Rust,
//! for the replay program. The library's answers are not asked for.
//!
//! A record starts with its kind. 0, a reading: the position word and the sign word. 1, a search: a
//! byte each with the number of target words and of impulse words, then the lag, the gain, and those
//! words. Its line is `read` with the four places and the 40 samples, `pulses` with the position
//! word, the sign word and the 120 words of innovation, filtered pulses and sharpened impulse
//! response, or `refused` with the number and its detail.

use super::{
    SIGN_WORDS,
    calls::{Call, checked},
    cases::{Case, Searched},
    reader::Reading,
    sources::{self, Drawn, GAINS},
};
use crate::{
    counts::Found,
    feed::bytes,
    inputs::Random,
    record::{Kind, Recorded},
    subframes::Refusal,
    words::{SUBFRAME, uniform},
};

const READING: u8 = 0;
const SEARCH: u8 = 1;

/// The searches that are accepted, and the calls that are looked at for those which meet a case.
const SEARCHES: usize = 60;
const CALLS: u64 = 60_000;

/// Readings, searches, and searches that are refused.
pub fn sample() -> Recorded {
    let mut sample = Sample(Recorded::default());
    for reading in readings() {
        sample.read(reading);
    }
    for call in searches() {
        sample.search(&call.target, &call.impulse, call.lag, call.gain);
    }
    sample.refused_searches();
    sample.0
}

/// Each Gray number in each track and each sign word, the ends, some others, and refused words.
fn readings() -> Vec<Reading> {
    const POINTS: [(u16, u16); 14] = [
        (0, 0),
        (0, 15),
        (6, 15),
        (8191, 0),
        (8191, 15),
        (8192, 0),
        (8192, 16),
        (u16::MAX, 15),
        (u16::MAX, u16::MAX),
        (0, 16),
        (8191, 16),
        (0, u16::MAX),
        (8191, u16::MAX),
        (4681, 8192),
    ];
    let grays = (0..SIGN_WORDS as u16).map(|signs| {
        let [first, second, third, last] = [0, 1, 3, 5].map(|further| (signs + further) % 8);
        let last_track = signs / 8;
        let positions = first | second << 3 | third << 6 | last_track << 9 | last << 10;
        (positions, signs)
    });
    let random = &mut Random::at(0);
    let others = [(); 10].map(|()| (random.below(8192) as u16, random.below(16) as u16));
    grays
        .chain(POINTS)
        .chain(others)
        .map(|(positions, signs)| Reading {
            positions,
            signs,
            length: SUBFRAME,
        })
        .collect()
}

/// The cases that some searches met.
struct Met {
    sources: Found<sources::Case>,
    cases: Found<Case>,
    /// A bit for each gain at an end, and for each sign word.
    gains: u32,
    signs: u32,
}

impl Met {
    fn new() -> Self {
        Self {
            sources: Found::new(),
            cases: Found::new(),
            gains: 0,
            signs: 0,
        }
    }

    fn by(drawn: &Drawn) -> Self {
        let answer = drawn.call.search();
        let searched = Searched {
            call: &drawn.call,
            answer: &answer,
        };
        let mut met = Self::new();
        met.sources.case(drawn.source, true);
        met.cases = searched.cases(true).found;
        for (place, gain) in GAINS.into_iter().enumerate() {
            met.gains |= u32::from(gain == drawn.call.gain) << place;
        }
        met.signs = 1 << answer.pulse_signs;
        met
    }

    fn add(&mut self, other: &Self) {
        self.sources.add(&other.sources);
        self.cases.add(&other.cases);
        self.gains |= other.gains;
        self.signs |= other.signs;
    }

    /// How many of these the other has not.
    fn missing_in(&self, other: &Self) -> u32 {
        self.sources.missing_in(&other.sources)
            + self.cases.missing_in(&other.cases)
            + (self.gains & !other.gains).count_ones()
            + (self.signs & !other.signs).count_ones()
    }

    /// Asserts that no case is missing that a call without a feed can meet.
    fn assert_all(&self) {
        self.sources.assert_met(|case| !case.needs_feed());
        self.cases
            .assert_met(|case| case.must_occur() && !case.is_rare());
        assert_eq!(self.gains, (1 << GAINS.len()) - 1, "a gain without a call");
        assert_eq!(self.signs, (1 << SIGN_WORDS) - 1, "signs without a call");
    }
}

/// Calls that meet all cases, each the one that meets most of those which none before it met, then
/// further ones of all sources. No feed is among them, so that the sample is the same without one.
fn searches() -> Vec<Call> {
    let calls: Vec<_> = (0..CALLS)
        .map(|index| {
            let drawn = Drawn::at(index, &[]);
            let met = Met::by(&drawn);
            (drawn.call, met)
        })
        .collect();
    let mut met = Met::new();
    let mut searches = Vec::new();
    loop {
        // Of those that meet as many the last, in any case.
        let most = calls.iter().max_by_key(|(_, by)| by.missing_in(&met));
        let (call, by) = most.expect("a call");
        if by.missing_in(&met) == 0 {
            break;
        }
        met.add(by);
        searches.push(call.clone());
    }
    met.assert_all();
    let others = CALLS..CALLS + SEARCHES.saturating_sub(searches.len()) as u64;
    searches.extend(others.map(|index| Drawn::at(index, &[]).call));
    searches
}

struct Sample(Recorded);

impl Sample {
    fn read(&mut self, reading: Reading) {
        self.0.begin(Kind::Pulses);
        self.0.stdin.push(READING);
        for word in [reading.positions, reading.signs] {
            self.0.stdin.extend(word.to_be_bytes());
        }
        match reading.read() {
            Ok(codebook) => {
                let places = codebook.positions().iter().map(|&place| place as i64);
                let samples = codebook.samples_q13().iter().map(|&word| word.into());
                self.0.line("read", places.chain(samples));
            }
            Err(refusal) => self.refused(refusal),
        }
    }

    /// A search of lists of any length; the lists that are written have the right one.
    fn search(&mut self, target: &[i16], impulse: &[i16], lag: u16, gain: i16) {
        self.0.begin(Kind::Pulses);
        let stdin = &mut self.0.stdin;
        stdin.push(SEARCH);
        stdin.extend([target, impulse].map(|list| list.len() as u8));
        stdin.extend(lag.to_be_bytes());
        stdin.extend(gain.to_be_bytes());
        stdin.extend(bytes(&[target, impulse].concat()));
        let lengths = [target.len(), impulse.len(), SUBFRAME, SUBFRAME, SUBFRAME];
        if let Err(refusal) = checked(lengths, lag) {
            return self.refused(refusal);
        }
        let answer = Call {
            target: target.try_into().expect("a length that was checked"),
            impulse: impulse.try_into().expect("a length that was checked"),
            lag,
            gain,
        }
        .search();
        let words = [answer.pulse_positions, answer.pulse_signs].map(i64::from);
        let lists = [
            answer.innovation_q13,
            answer.filtered_q12,
            answer.sharpened_impulse_q12,
        ];
        let lists = lists.as_flattened().iter().map(|&word| word.into());
        self.0.line("pulses", words.into_iter().chain(lists));
    }

    /// Lists of wrong lengths, with good and bad lags, and bad lags.
    fn refused_searches(&mut self) {
        const LENGTHS: [[usize; 2]; 13] = [
            [0, 0],
            [0, 40],
            [1, 40],
            [39, 40],
            [41, 40],
            [63, 40],
            [39, 41],
            [41, 39],
            [40, 0],
            [40, 1],
            [40, 39],
            [40, 41],
            [40, 63],
        ];
        const LAGS: [u16; 10] = [0, 1, 18, 145, 146, 255, 256, 296, 32768, u16::MAX];
        let random = &mut Random::at(1);
        let words: [i16; 63] = uniform(random);
        for (number, [target, impulse]) in LENGTHS.into_iter().enumerate() {
            let lag = if number % 2 == 0 { 40 } else { 145 };
            self.search(&words[..target], &words[..impulse], lag, 8192);
        }
        for lag in LAGS {
            let list = &words[..SUBFRAME];
            self.search(list, list, lag, i16::MIN);
        }
    }

    fn refused(&mut self, refusal: Refusal) {
        let numbers = [refusal.number.into(), refusal.detail];
        self.0.line("refused", numbers);
    }
}
