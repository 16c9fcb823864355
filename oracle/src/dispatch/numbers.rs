//! Channel records in numbers, those too that no call hands out: any mark, any expected number and
//! any upper number. What is expected is the model's choice, and then the library's own search.

use super::model::{Dispatcher, Record, mark};
use crate::{
    calls::Call,
    compare::{Line, compare},
    inputs::{Inputs, Random},
    project::{
        self, ChannelAnswer, FramePitch, NO_CHANNEL, PitchAnswer, PitchState, RecordWords,
        ServiceAnswer, channels, pitch_search,
    },
    states::{LAGS, NUMBERS, SHORT, drawn, every_number, lists, numbers_met, uppers_met},
    subframes::Refusal,
};
use std::hint::black_box;

/// The lists with each expected number and each upper number.
const LISTS: u64 = 8;

/// A telling, a step and a mark, each on the records as they are asked, and the records after each,
/// with the byte that lies behind each mark.
#[derive(Debug, PartialEq)]
struct Answered {
    told: (ChannelAnswer, Vec<RecordWords>),
    served: (ServiceAnswer, Vec<RecordWords>),
    marked: (ChannelAnswer, Vec<RecordWords>),
}

pub fn compare_numbers() -> Vec<Line> {
    const MET: [(u8, &str); 11] = [
        (0, "accepted, mark 1"),
        (10, "accepted, mark 2"),
        (11, "accepted, mark 255"),
        (12, "accepted, another mark"),
        (1, "refused 1"),
        (2, "refused 2, the record's expected number"),
        (5, "refused 2, the step's subframe"),
        (3, "refused 3"),
        (4, "refused 4"),
        (17, "refused 17"),
        (16, "mark refused 16"),
    ];
    let call = drawn();
    let with = ["model over mr74_pitch_search, every expected and upper number"];
    let at = |index| Asked::at(index, &call);
    let mut lines = compare(
        &asked(),
        |index| at(index).ours(),
        with,
        |index| [at(index).expected()],
    );
    lines.push(numbers_met(&asked(), |index| at(index).met(), &MET));
    let served = asked().only(|index| at(index).served().is_ok());
    lines.push(uppers_met(&served, |index| {
        let asked = at(index);
        let (channel, answer) = asked.served().expect("a channel that waits");
        (asked.records()[channel].searcher, answer)
    }));
    lines
}

fn asked() -> Inputs<impl Fn(u64) -> Option<u64> + Sync> {
    Inputs {
        count: LISTS << 16,
        at: Some,
    }
}

/// The records, and what the three calls are given.
struct Asked<'a> {
    words: Vec<RecordWords>,
    last: usize,
    marked: usize,
    call: &'a Call,
    lags: [u16; 2],
    short: Option<usize>,
    subframe: u8,
}

impl<'a> Asked<'a> {
    /// A list in which the first channel that waits, if one does, has the upper number of this
    /// index, and its expected number or, in every other list, one of 1 to 4.
    fn at(index: u64, call: &'a Call) -> Self {
        let random = &mut Random::at(index);
        let count = 1 + random.below(24) as usize;
        let mut words: Vec<RecordWords> = (0..count).map(|_| any_record(random)).collect();
        let round = 1 + random.below(count as u64) as usize;
        let last = match random.below(4) {
            0 => count + random.below(3) as usize,
            1 => NO_CHANNEL,
            _ => random.below(count as u64) as usize,
        };
        let before = if last < count { last } else { count - 1 };
        // Between the last one and the first that waits none does.
        let between = (1..round).map(|further| (before + further) % count);
        between.for_each(|channel| words[channel][4] &= 0xff00);
        let first = (before + round) % count;
        let (mut state, ..) = every_number(index);
        state.upper = (index >> 8) as u8;
        if index >> 16 & 1 != 0 {
            state.next = 1 + state.next % 4;
        }
        words[first] = record_words(state, some_mark(random), 0x5a);
        let right = (1..=4).contains(&state.next) && random.below(8) != 0;
        let often = random.below(2) == 0;
        Self {
            words,
            last,
            marked: match random.below(8) {
                0 => count + random.below(3) as usize,
                _ => random.below(count as u64) as usize,
            },
            call,
            lags: match often {
                true => LAGS[0],
                false => LAGS[random.below(LAGS.len() as u64) as usize],
            },
            short: match random.below(8) {
                0 => SHORT[random.below(SHORT.len() as u64) as usize],
                _ => None,
            },
            subframe: match right {
                true => state.next,
                false => NUMBERS[random.below(NUMBERS.len() as u64) as usize],
            },
        }
    }

    fn ours(&self) -> Answered {
        let mut words = [(); 3].map(|()| self.words.clone());
        let [told, served, marked] = words.each_mut().map(|words| channels(words));
        let told = project::next(told, self.last);
        let lists = lists(self.call, self.short);
        let served = project::serve(served, self.last, lists, self.lags, self.subframe);
        let marked = project::mark(marked, self.marked);
        // The compiler may take a list that is lent for reading as unchanged: it is read again.
        self.answered(told, served, marked, black_box(words))
    }

    fn expected(&self) -> Answered {
        let told = Dispatcher { last: self.last() }.next(&self.records());
        let (served, records, last) = self.serve();
        let mut marked_records = self.records();
        let marked = mark(&mut marked_records, self.marked);
        let after = [self.records(), records, marked_records];
        let words = after.map(|records| {
            let pairs = records.into_iter().zip(&self.words);
            pairs
                .map(|(record, [.., mark])| {
                    record_words(record.searcher, record.waiting, (mark >> 8) as u8)
                })
                .collect()
        });
        self.answered(
            super::channel_answer(told),
            service_answer(served, last),
            super::channel_answer(marked),
            words,
        )
    }

    /// The byte behind a mark may be any after its record was written.
    fn answered(
        &self,
        told: ChannelAnswer,
        served: ServiceAnswer,
        marked: ChannelAnswer,
        [after_told, mut after_served, mut after_marked]: [Vec<RecordWords>; 3],
    ) -> Answered {
        let written = [
            (&mut after_served, served.channel),
            (&mut after_marked, marked.channel),
        ];
        for (words, channel) in written {
            if let Some([.., mark]) = words.get_mut(channel) {
                *mark &= 0xff;
            }
        }
        Answered {
            told: (told, after_told),
            served: (served, after_served),
            marked: (marked, after_marked),
        }
    }

    fn last(&self) -> Option<usize> {
        Some(self.last).filter(|&last| last != NO_CHANNEL)
    }

    fn records(&self) -> Vec<Record<PitchState>> {
        let records = self.words.iter();
        records
            .map(|&[samples, fraction, next, start, mark]| Record {
                searcher: PitchState {
                    samples,
                    fraction: fraction as i16,
                    next: next as u8,
                    upper: (next >> 8) as u8,
                    start,
                },
                waiting: mark as u8,
            })
            .collect()
    }

    /// The model's step, the records after it and the last served number.
    fn serve(&self) -> (Served, Vec<Record<PitchState>>, usize) {
        let mut records = self.records();
        let mut dispatcher = Dispatcher { last: self.last() };
        let served = dispatcher.serve(&mut records, |state| {
            let [excitation, target, impulse] = lists(self.call, self.short);
            let answer = pitch_search(
                *state,
                excitation,
                target,
                impulse,
                self.lags,
                self.subframe,
            );
            *state = answer.state();
            answer
        });
        (served, records, dispatcher.last.unwrap_or(NO_CHANNEL))
    }

    fn served(&self) -> Served {
        self.serve().0
    }

    /// Which of the cases that must occur it meets.
    fn met(&self) -> u8 {
        match self.served() {
            Err(refusal) => refusal.number,
            _ if self.marked >= self.words.len() => 16,
            Ok((channel, answer)) => match (answer.number, self.words[channel][4] as u8) {
                (0, 1) => 0,
                (0, 2) => 10,
                (0, 255) => 11,
                (0, _) => 12,
                (2, _) if !(1..=4).contains(&self.subframe) => 5,
                (number, _) => number,
            },
        }
    }
}

/// The served channel, and what the library's search answers.
type Served = Result<(usize, PitchAnswer), Refusal>;

fn service_answer(served: Served, last: usize) -> ServiceAnswer {
    match served {
        Ok((channel, answer)) => ServiceAnswer {
            number: answer.number,
            magnitude: answer.magnitude,
            channel,
            last,
            pitch: FramePitch {
                index: answer.index,
                samples: answer.samples,
                fraction: answer.fraction,
            },
        },
        Err(refusal) => super::service_answer(&Err(refusal), last),
    }
}

/// A record of any numbers, with a mark of some.
fn any_record(random: &mut Random) -> RecordWords {
    let (state, ..) = every_number(random.word());
    let mark = some_mark(random);
    record_words(state, mark, random.word() as u8)
}

fn some_mark(random: &mut Random) -> u8 {
    match random.below(8) {
        0 => 0,
        1..=2 => 1,
        3..=4 => 2,
        5 => 255,
        _ => random.word() as u8,
    }
}

/// A record as it lies in memory, with this byte behind the mark.
fn record_words(state: PitchState, mark: u8, behind: u8) -> RecordWords {
    [
        state.samples,
        state.fraction as u16,
        u16::from_le_bytes([state.next, state.upper]),
        state.start,
        u16::from_le_bytes([mark, behind]),
    ]
}
