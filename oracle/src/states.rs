//! Searchers and lag readers in numbers, those too that no call hands out: what a call refuses and
//! what it hands back, by 01's rule.

use crate::{
    calls::Call,
    codec::mr74::pitch::{PitchLag, search::SearchedPitch},
    compare::{Function, Line, compare, function},
    inputs::{Inputs, Random},
    project::{PitchAnswer, PitchState, Searching, pitch_search, preview, read_lag},
    reader,
    search::{Searcher, previous},
    subframes::{Refusal, answer, subframe},
    upper::Upper,
    words::{EXCITATION, SUBFRAME, impulse_response, quiet},
};

/// Numbers at the ends of their types and of what the calls hand out, and beside them.
pub const SAMPLES: [u16; 8] = [0, 4, 19, 40, 143, 144, 32768, u16::MAX];
pub const FRACTIONS: [i16; 8] = [i16::MIN, -2, -1, 0, 1, 2, 5, i16::MAX];
pub const NUMBERS: [u8; 7] = [0, 1, 2, 3, 4, 5, 255];
pub const STARTS: [u16; 8] = [7, 0, 20, 134, 137, 19, 32768, u16::MAX];
pub const UPPERS: [u8; 7] = [143, 120, 0, 7, 119, 121, 255];
pub const INDEXES: [u8; 4] = [0, 31, 32, 255];

/// The open-loop lags of a search: both in the range of each upper lag, one of them outside, or one
/// of them above a player's.
pub const LAGS: [[u16; 2]; 5] = [[80, 60], [19, 60], [80, 144], [121, 120], [120, 121]];

/// The list that has a word too few.
pub const SHORT: [Option<usize>; 4] = [None, Some(0), Some(1), Some(2)];

pub fn functions() -> [Function; 4] {
    [
        Function {
            name: "read_lag_state",
            compare: compare_reads,
        },
        function!(
            "read_lag_state",
            reads(4 * PAIRS, every_word, some_index),
            |call| call.ours(),
            { "rule of 01, every fraction, lag and start" => call.expected() }
        ),
        Function {
            name: "search_state",
            compare: compare_searches,
        },
        Function {
            name: "search_state",
            compare: || {
                let asked = asked(PAIRS, every_word);
                compared_searches("rule of 01, every fraction, lag and start", &asked)
            },
        },
    ]
}

/// A state, the subframe of a call, and what is left of the index.
pub type Numbers = (PitchState, u8, u64);

/// How many upper numbers `every_number` has.
const EACH: u64 = UPPERS.len() as u64;

/// The pairs of an expected number and a subframe that `every_word` has, each for a player and for
/// another upper number.
const PAIRS: u64 = 2 * 49;

/// Every expected number with every subframe, and some upper numbers.
pub fn every_number(index: u64) -> Numbers {
    let rest = index >> 16;
    let state = PitchState {
        samples: SAMPLES[(index % 7 + rest) as usize % 8],
        fraction: FRACTIONS[(index % 5 + rest) as usize % 8],
        next: index as u8,
        upper: UPPERS[rest as usize % UPPERS.len()],
        start: STARTS[(index % 3 + rest) as usize % STARTS.len()],
    };
    (state, (index >> 8) as u8, rest / EACH)
}

/// Every fraction, every lag and every start, at some numbers.
fn every_word(index: u64) -> Numbers {
    let (word, rest) = (index as u16, index >> 16);
    let state = PitchState {
        samples: word,
        fraction: word as i16,
        next: NUMBERS[rest as usize % 7],
        upper: match rest / 49 % 2 {
            0 => 120,
            _ => UPPERS[usize::from(word) % UPPERS.len()],
        },
        start: word.swap_bytes(),
    };
    (state, NUMBERS[rest as usize / 7 % 7], rest / PAIRS)
}

/// How often each of these numbers is the expected answer's, 0 where it is accepted.
pub fn numbers_met<I, F>(
    inputs: &Inputs<F>,
    number: impl Fn(I) -> u8,
    asked: &[(u8, &'static str)],
) -> Line
where
    F: Fn(u64) -> Option<I>,
{
    let mut counts = [0; 256];
    for input in (0..inputs.count).filter_map(&inputs.at) {
        counts[usize::from(number(input))] += 1;
    }
    Line::of_cases(
        asked
            .iter()
            .map(|&(number, name)| (name, counts[usize::from(number)])),
    )
}

/// How often these upper numbers are accepted and refused, at the expected numbers.
pub fn uppers_met<I, F>(inputs: &Inputs<F>, call: impl Fn(I) -> (PitchState, PitchAnswer)) -> Line
where
    F: Fn(u64) -> Option<I>,
{
    const MET: [(u8, &str); 6] = [
        (0, "accepted, upper number 120"),
        (1, "accepted, upper number 143"),
        (2, "accepted, another upper number, 143 after it"),
        (3, "refused, upper number 120"),
        (4, "refused, upper number 143"),
        (5, "refused, another upper number, the same after it"),
    ];
    let met = |input: I| {
        let (given, expected) = call(input);
        let upper = match given.upper {
            120 => 0,
            143 => 1,
            _ => 2,
        };
        match expected.number {
            0 => upper,
            _ => 3 + upper,
        }
    };
    numbers_met(inputs, met, &MET)
}

// ---- The reader.

#[derive(Debug, Clone, Copy)]
struct Read {
    state: PitchState,
    subframe: u8,
    index: u8,
}

fn reads(
    count: u64,
    numbers: fn(u64) -> Numbers,
    sent: fn(u64) -> u8,
) -> Inputs<impl Fn(u64) -> Option<Read> + Sync> {
    Inputs {
        count: count << 16,
        at: move |index| {
            let (state, subframe, rest) = numbers(index);
            let index = sent(rest);
            Some(Read {
                state,
                subframe,
                index,
            })
        },
    }
}

fn compare_reads() -> Vec<Line> {
    const MET: [(u8, &str); 4] = [
        (0, "accepted"),
        (2, "refused 2"),
        (4, "refused 4"),
        (5, "refused 5"),
    ];
    let reads = reads(256 * EACH, every_number, |rest| rest as u8);
    let with = ["rule of 01, every expected number, subframe and index"];
    let mut lines = compare(&reads, Read::ours, with, |call| [call.expected()]);
    lines.push(numbers_met(&reads, |call| call.expected().number, &MET));
    lines.push(uppers_met(&reads, |call: Read| {
        (call.state, call.expected())
    }));
    lines
}

fn some_index(rest: u64) -> u8 {
    INDEXES[rest as usize % INDEXES.len()]
}

impl Read {
    fn ours(self) -> PitchAnswer {
        read_lag(self.state, self.subframe, self.index)
    }

    fn expected(self) -> PitchAnswer {
        let read = read(self.state, self.subframe, self.index);
        let after = read.map_or(self.state, |(_, after)| after);
        answer(read.map(|(lag, _)| (0, lag)), after)
    }
}

/// A reading by 01's rule, and the state after it: number 2 for the subframe, then for the expected
/// one.
pub fn read(state: PitchState, received: u8, index: u8) -> Result<(PitchLag, PitchState), Refusal> {
    subframe(received)?;
    subframe(state.next)?;
    let reading = reader::Reading {
        upper: Upper::of(state.upper),
        previous: previous(state),
        expected: state.next,
        start: state.start,
        subframe: received,
        index,
    };
    let lag = reader::read(reading)?;
    Ok((lag, reading.state_after(lag)))
}

// ---- The searcher.

/// The lags that are asked for, and which list has a word too few.
#[derive(Debug, Clone, Copy)]
struct Asked {
    state: PitchState,
    subframe: u8,
    lags: [u16; 2],
    short: Option<usize>,
}

fn asked(pairs: u64, numbers: fn(u64) -> Numbers) -> Inputs<impl Fn(u64) -> Option<Asked> + Sync> {
    Inputs {
        count: (LAGS.len() as u64 * SHORT.len() as u64 * pairs) << 16,
        at: move |index| {
            let (state, subframe, rest) = numbers(index);
            Some(Asked {
                state,
                subframe,
                lags: LAGS[rest as usize % LAGS.len()],
                short: SHORT[rest as usize / LAGS.len() % SHORT.len()],
            })
        },
    }
}

fn compared_searches<F>(with: &'static str, asked: &Inputs<F>) -> Vec<Line>
where
    F: Fn(u64) -> Option<Asked> + Sync,
{
    let call = drawn();
    let mut lines = compare(
        asked,
        |asked: Asked| asked.ours(pitch_search, &call),
        [with],
        |asked: Asked| [asked.expected(&call)],
    );
    lines.extend(compare(
        asked,
        |asked: Asked| asked.ours(preview, &call),
        ["the same searches, previews"],
        |asked: Asked| [asked.expected_preview(&call)],
    ));
    lines
}

/// The numbers that searches must meet, 0 where they are accepted.
pub const SEARCHES_MET: [(u8, &str); 5] = [
    (0, "accepted"),
    (1, "refused 1"),
    (2, "refused 2"),
    (3, "refused 3"),
    (4, "refused 4"),
];

fn compare_searches() -> Vec<Line> {
    let asked = asked(EACH, every_number);
    let with = "rule of 01, every expected number and subframe";
    let mut lines = compared_searches(with, &asked);
    let call = drawn();
    lines.push(numbers_met(
        &asked,
        |asked: Asked| asked.expected(&call).number,
        &SEARCHES_MET,
    ));
    lines.push(uppers_met(&asked, |asked: Asked| {
        (asked.state, asked.expected(&call))
    }));
    lines.push(previews_met(&asked));
    lines
}

/// What previews must meet: numbers that no call hands out, and that they hand back.
fn previews_met<F>(asked: &Inputs<F>) -> Line
where
    F: Fn(u64) -> Option<Asked>,
{
    const MET: [(u8, &str); 4] = [
        (1, "accepted preview that keeps another start"),
        (2, "accepted preview that keeps another fraction"),
        (3, "accepted preview that keeps another upper number"),
        (4, "preview refused 2 that keeps another expected number"),
    ];
    let call = drawn();
    let met = |asked: Asked| {
        let state = asked.state;
        match asked.expected_preview(&call).number {
            0 if !matches!(state.start, 0 | 20..=137) => 1,
            0 if !(-1..=1).contains(&state.fraction) => 2,
            0 if ![120, 143].contains(&state.upper) => 3,
            2 if subframe(asked.subframe).is_ok() => 4,
            _ => 0,
        }
    };
    numbers_met(asked, met, &MET)
}

/// Lists that a search accepts.
pub fn drawn() -> Call {
    let random = &mut Random::at(0);
    let excitation: [i16; EXCITATION] = quiet(random, 3);
    let target: [i16; SUBFRAME] = quiet(random, 3);
    Call {
        excitation: excitation.to_vec(),
        target: target.to_vec(),
        impulse: impulse_response(random).to_vec(),
        open_loop: [80, 80],
        subframe: 1,
    }
}

/// The call's lists, of which the one at this place has a word too few.
pub fn lists(call: &Call, short: Option<usize>) -> [&[i16]; 3] {
    let lists = [&call.excitation, &call.target, &call.impulse];
    let mut place = 0;
    lists.map(|list| {
        let short = short == Some(place);
        place += 1;
        &list[usize::from(short)..]
    })
}

impl Asked {
    fn ours(&self, searching: Searching, call: &Call) -> PitchAnswer {
        let [excitation, target, impulse] = lists(call, self.short);
        let Self { state, lags, .. } = *self;
        searching(state, excitation, target, impulse, lags, self.subframe)
    }

    fn expected(&self, call: &Call) -> PitchAnswer {
        let found = self.found(call);
        let after = found.map_or(self.state, |(_, after)| after);
        answer(found.map(|(found, _)| (found.index, found.lag)), after)
    }

    /// The search's answer, and the state as it was given.
    fn expected_preview(&self, call: &Call) -> PitchAnswer {
        let found = self.found(call);
        answer(found.map(|(found, _)| (found.index, found.lag)), self.state)
    }

    fn found(&self, call: &Call) -> Result<(SearchedPitch, PitchState), Refusal> {
        match self.short {
            Some(place) => Err(Refusal {
                number: 1,
                detail: [EXCITATION, SUBFRAME, SUBFRAME][place] as u64 - 1,
            }),
            None => searched(self.state, call, self.lags, self.subframe),
        }
    }
}

/// A search by 01's rule on lists of the right lengths, and the state after it: number 2 for the
/// subframe, then for the expected one, then the published search.
pub fn searched(
    given: PitchState,
    call: &Call,
    lags: [u16; 2],
    received: u8,
) -> Result<(SearchedPitch, PitchState), Refusal> {
    let lists = call.lists()?;
    let received = subframe(received)?;
    let mut searcher = Searcher::of(given)?;
    let open_loop = searcher.upper.open_loop(lags)?;
    let found = searcher.found(lists, open_loop, received)?;
    Ok((found, searcher.state()))
}
