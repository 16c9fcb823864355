//! A dispatcher over lent channels answers and keeps what a model does that searches by
//! `Search::search` alone. By 15, 16 and 17 it refuses before anything else, and nothing changes.

mod inputs;
mod searches;
mod states;
mod words;

use inputs::{Drawn, SILENCE, SILENT_EXCITATION, SUBFRAMES, on_silence};
use mr74::{
    Refusal,
    entries::{self, ChannelAnswer, ChannelState, FramePitch, NO_CHANNEL, ServiceAnswer},
    pitch::{
        UpperLag,
        dispatch::{Channel, Dispatcher, Served, mark},
        search::{Search, Subframe},
    },
};
use searches::Inputs;
use states::odd;

const MOST: usize = 24;

fn refusal(number: u8, detail: usize) -> Refusal {
    Refusal {
        number,
        detail: detail as i128,
    }
}

/// The searchers with their marks, and the last served number.
#[derive(Debug, Clone, PartialEq, Eq)]
struct Model {
    channels: Vec<(Search, bool)>,
    last: Option<usize>,
}

impl Model {
    /// One channel in three is a player, and none waits.
    fn fresh(count: usize, last: Option<usize>) -> Self {
        let searcher = |channel| match channel % 3 {
            2 => Search::player(),
            _ => Search::default(),
        };
        let channels = (0..count).map(|channel| (searcher(channel), false));
        Self {
            channels: channels.collect(),
            last,
        }
    }

    fn count(&self) -> Result<usize, Refusal> {
        match self.channels.len() {
            count @ 1..=MOST => Ok(count),
            count => Err(refusal(15, count)),
        }
    }

    fn mark(&mut self, channel: usize) -> Result<(), Refusal> {
        if channel >= self.count()? {
            return Err(refusal(16, channel));
        }
        self.channels[channel].1 = true;
        Ok(())
    }

    fn next(&self) -> Result<usize, Refusal> {
        let count = self.count()?;
        let from = match self.last {
            Some(last) if last < count => last + 1,
            _ => 0,
        };
        (from..from + count)
            .map(|place| place % count)
            .find(|&channel| self.channels[channel].1)
            .ok_or(refusal(17, 0))
    }

    fn serve(&mut self, inputs: &Inputs) -> Result<Served, Refusal> {
        let channel = self.next()?;
        let (searcher, waiting) = &mut self.channels[channel];
        *waiting = false;
        self.last = Some(channel);
        let found = inputs.search(searcher);
        Ok(Served { channel, found })
    }
}

/// A list with its dispatcher, and the model of both.
struct Both {
    channels: Vec<Channel>,
    dispatcher: Dispatcher,
    model: Model,
}

impl Both {
    fn fresh(count: usize, last: Option<usize>) -> Self {
        let model = Model::fresh(count, last);
        let channels = model.channels.iter().cloned();
        Self {
            channels: channels
                .map(|(searcher, _)| Channel::new(searcher))
                .collect(),
            dispatcher: Dispatcher { last },
            model,
        }
    }

    /// Every record and the last served number are those of the model.
    fn compare(&self) {
        let told = |channel: &Channel| (channel.searcher(), channel.is_waiting());
        let kept = Model {
            channels: self.channels.iter().map(told).collect(),
            last: self.dispatcher.last,
        };
        assert_eq!(kept, self.model);
    }

    fn mark(&mut self, channel: usize) -> Result<(), Refusal> {
        let answer = mark(&mut self.channels, channel);
        assert_eq!(answer, self.model.mark(channel));
        self.compare();
        answer
    }

    fn next(&self) -> Result<usize, Refusal> {
        let answer = self.dispatcher.next(&self.channels);
        assert_eq!(answer, self.model.next());
        self.compare();
        answer
    }

    fn serve(&mut self, inputs: &Inputs) -> Result<Served, Refusal> {
        let answer = self.dispatcher.serve(
            &mut self.channels,
            &inputs.excitation,
            &inputs.target,
            &inputs.impulse,
            inputs.lags,
            inputs.subframe,
        );
        assert_eq!(answer, self.model.serve(inputs));
        self.compare();
        answer
    }

    /// The subframe that the next channel expects.
    fn expected(&self) -> Subframe {
        match self.model.next() {
            Ok(channel) => self.model.channels[channel].0.next,
            Err(_) => Subframe::One,
        }
    }
}

#[test]
fn a_dispatcher_does_what_its_model_does() {
    let mut drawn = Drawn(1);
    // Answers by the number of their refusal, and by 0 the accepted marks, tellings and searches.
    let (mut marks, mut told, mut served, mut found) = ([0; 18], [0; 18], [0; 18], [0; 18]);
    let number = |refusal: Option<Refusal>| usize::from(refusal.map_or(0, |it| it.number));
    for count in 0..=MOST + 2 {
        for last in [
            None,
            Some(0),
            Some(count / 2),
            Some(count),
            Some(usize::MAX),
        ] {
            let mut both = Both::fresh(count, last);
            for _ in 0..80 {
                match drawn.below(8) {
                    0 => told[number(both.next().err())] += 1,
                    1..4 => {
                        let inputs = Inputs::drawn(&mut drawn, both.expected());
                        let answer = both.serve(&inputs);
                        served[number(answer.err())] += 1;
                        if let Ok(served) = answer {
                            found[number(served.found.err())] += 1;
                        }
                    }
                    _ => {
                        let channel = match drawn.below(16) {
                            0 => usize::MAX - drawn.below(2) as usize,
                            _ => drawn.below(count as u32 + 2) as usize,
                        };
                        marks[number(both.mark(channel).err())] += 1;
                    }
                }
            }
        }
    }
    assert!(marks[0] > 3000 && marks[15] > 400 && marks[16] > 500);
    assert!(told[0] > 700 && told[15] > 100 && told[17] > 50);
    assert!(served[0] > 2000 && served[15] > 300 && served[17] > 200);
    assert!(found[0] > 1500 && found[3] > 100 && found[4] > 200);
}

#[test]
fn the_first_that_waits_after_the_last_served_is_told() {
    for count in 1..=9 {
        for pattern in 0..1 << count {
            let mut both = Both::fresh(count, None);
            for channel in (0..count).filter(|channel| pattern >> channel & 1 == 1) {
                assert_eq!(both.mark(channel), Ok(()));
            }
            let beyond = [count, count + 1, MOST, 256, 1 << 16, 1 << 32, usize::MAX];
            let lasts = (0..count).chain(beyond).map(Some);
            for last in [None].into_iter().chain(lasts) {
                both.dispatcher.last = last;
                both.model.last = last;
                assert_eq!(both.next().is_err(), pattern == 0);
            }
        }
    }
}

#[test]
fn a_channel_is_served_within_as_many_steps_as_there_are() {
    let inputs = Inputs::silent([80, 80], Subframe::One);
    for count in 1..=MOST {
        for waiting in 0..count {
            for (last, expected) in [(None, waiting + 1), (Some(waiting), count)] {
                let mut both = Both::fresh(count, last);
                assert_eq!(both.mark(waiting), Ok(()));
                let mut steps = 0;
                loop {
                    for other in (0..count).filter(|&other| other != waiting) {
                        assert_eq!(mark(&mut both.channels, other), Ok(()));
                        assert_eq!(both.model.mark(other), Ok(()));
                    }
                    steps += 1;
                    // A channel that is served again expects another subframe, and is refused.
                    if both.serve(&inputs).map(|served| served.channel) == Ok(waiting) {
                        break;
                    }
                    assert!(steps < count);
                }
                assert_eq!(steps, expected);
            }
        }
    }
}

#[test]
fn a_channels_answers_are_those_of_its_searcher_alone() {
    let runs = [3, 4].map(|seed| answers(&mut Drawn(seed)));
    let [one, other] = &runs;
    let mut same = 0;
    for (one, other) in one.iter().zip(other) {
        let common = one.len().min(other.len());
        assert_eq!(one[..common], other[..common]);
        same += common;
    }
    assert!(same > 800 && one != other);
}

/// What each channel's searches answer where its inputs are drawn for it alone.
fn answers(marks: &mut Drawn) -> Vec<Vec<Result<u8, Refusal>>> {
    let mut both = Both::fresh(MOST, None);
    let mut alone: Vec<_> = both.channels.iter().map(Channel::searcher).collect();
    let mut drawn: Vec<_> = (0..MOST as u32).map(Drawn).collect();
    let mut answers = vec![Vec::new(); MOST];
    for _ in 0..1200 {
        for _ in 0..1 + marks.below(3) {
            assert_eq!(both.mark(marks.below(MOST as u32) as usize), Ok(()));
        }
        let channel = both.next().expect("one was marked");
        let inputs = Inputs::drawn(&mut drawn[channel], alone[channel].next);
        let found = inputs.search(&mut alone[channel]);
        assert_eq!(both.serve(&inputs), Ok(Served { channel, found }));
        assert_eq!(both.channels[channel].searcher(), alone[channel]);
        answers[channel].push(found.map(|pitch| pitch.index));
    }
    answers
}

#[test]
fn a_refused_search_counts_as_served() {
    let mut both = Both::fresh(3, None);
    for channel in 0..3 {
        assert_eq!(both.mark(channel), Ok(()));
    }
    let out_of_turn = Inputs::silent([80, 80], Subframe::Two);
    let high = Inputs::silent([80, 121], Subframe::One);
    let served = |channel, found| Ok(Served { channel, found });
    assert_eq!(both.serve(&out_of_turn), served(0, Err(refusal(4, 1))));
    assert_eq!(both.mark(0), Ok(()));
    assert_eq!(both.next(), Ok(1));
    assert_eq!(both.serve(&out_of_turn), served(1, Err(refusal(4, 1))));
    assert_eq!(both.serve(&high), served(2, Err(refusal(3, 121))));
    let again = both.serve(&high).map(|served| served.found.is_ok());
    assert_eq!((again, both.dispatcher.last), (Ok(true), Some(0)));
    assert_eq!(both.next(), Err(refusal(17, 0)));
}

#[test]
fn a_channel_is_made_and_reset() {
    let mut channels = [Channel::new(Search::player())];
    assert_eq!(channels[0].searcher(), Search::player());
    let mut dispatcher = Dispatcher::new();
    assert_eq!(dispatcher, Dispatcher { last: None });
    assert_eq!(mark(&mut channels, 0), Ok(()));
    let mut searcher = Search::player();
    let inputs = Inputs::silent([80, 80], Subframe::One);
    let found = inputs.search(&mut searcher);
    let served = dispatcher.serve(
        &mut channels,
        &inputs.excitation,
        &inputs.target,
        &inputs.impulse,
        inputs.lags,
        inputs.subframe,
    );
    assert_eq!(served, Ok(Served { channel: 0, found }));
    assert_eq!(channels, [Channel::new(searcher)]);
    for marked in [false, true] {
        channels[0].reset();
        assert_eq!(channels[0].searcher().upper, UpperLag::Player);
        assert_eq!(channels[0].searcher(), Search::player());
        assert_eq!(channels[0].is_waiting(), marked);
        assert_eq!(mark(&mut channels, 0), Ok(()));
    }
}

/// Channels of odd numbers with these marks.
fn marked(marks: &[u8]) -> Vec<ChannelState> {
    let channel = |(place, &waiting): (usize, &u8)| ChannelState {
        searcher: odd(place as u8, place as u8),
        waiting,
    };
    marks.iter().enumerate().map(channel).collect()
}

/// `last` numbers: a place of a list, one beyond it, and the last of all.
const LASTS: [usize; 7] = [0, 1, 2, 23, 24, NO_CHANNEL - 1, NO_CHANNEL];

/// A telling and a service are refused by this number, which leaves the records and `last`. What
/// the search would turn down is everything.
fn refuse_both(channels: &[ChannelState], number: u8, magnitude: usize) {
    let mut after = channels.to_vec();
    for last in LASTS {
        let told = entries::next(&after, last);
        assert_eq!(told, no_channel(number, magnitude));
        assert_eq!(after, channels);
        let served = entries::serve(&mut after, last, &[1], &[2; 39], &[3; 41], 19, 144, 9);
        let nothing = ServiceAnswer {
            number,
            magnitude: magnitude as u64,
            channel: NO_CHANNEL,
            last,
            pitch: NO_PITCH,
        };
        assert_eq!(served, nothing);
        assert_eq!(after, channels);
    }
}

fn no_channel(number: u8, magnitude: usize) -> ChannelAnswer {
    ChannelAnswer {
        number,
        magnitude: magnitude as u64,
        channel: NO_CHANNEL,
    }
}

const NO_PITCH: FramePitch = FramePitch {
    index: 0,
    samples: 0,
    fraction: 0,
};

/// A mark is refused by this number, which leaves the records.
fn refuse_mark(channels: &[ChannelState], channel: usize, number: u8, magnitude: usize) {
    let mut after = channels.to_vec();
    let answer = entries::mark(&mut after, channel);
    assert_eq!(answer, no_channel(number, magnitude));
    assert_eq!(after, channels);
}

#[test]
fn other_lengths_are_refused_by_15_before_16_and_17() {
    for count in [0, 25, 26, 48, 256, 65537] {
        for waiting in [0, 1, 255] {
            let channels = marked(&vec![waiting; count]);
            refuse_both(&channels, 15, count);
            for channel in [0, 1, 23, 24, 25, 255, count, usize::MAX] {
                refuse_mark(&channels, channel, 15, count);
            }
        }
    }
}

#[test]
fn numbers_beyond_the_list_are_refused_by_16() {
    for count in 1..=MOST {
        let channels = marked(&vec![3; count]);
        for beyond in [0, 1, 256 - count, 65536, usize::MAX - count] {
            let channel = count + beyond;
            refuse_mark(&channels, channel, 16, channel);
        }
    }
    let mut channels = [Channel::new(Search::default())];
    assert_eq!(
        mark(&mut channels, usize::MAX),
        Err(refusal(16, usize::MAX))
    );
}

#[test]
fn lists_where_none_waits_are_refused_by_17_before_a_search() {
    for count in 1..=MOST {
        refuse_both(&marked(&vec![0; count]), 17, 0);
    }
}

#[test]
fn a_mark_is_any_number_but_0() {
    for waiting in 1..=255 {
        for (place, last) in [(0, 0), (1, 0), (2, 1), (0, 2), (1, 9), (2, NO_CHANNEL)] {
            let mut marks = [0; 3];
            marks[place] = waiting;
            let channels = marked(&marks);
            let told = ChannelAnswer {
                number: 0,
                magnitude: 0,
                channel: place,
            };
            assert_eq!(entries::next(&channels, last), told);
            let mut after = channels.clone();
            let served = entries::serve(&mut after, last, &[], &[], &[], 0, 0, 0);
            let expected = ServiceAnswer {
                number: 1,
                magnitude: 0,
                channel: place,
                last: place,
                pitch: NO_PITCH,
            };
            assert_eq!((served, after), (expected, marked(&[0; 3])));
            // Another mark writes 1, and no other record.
            for again in 0..3 {
                let mut after = channels.clone();
                let answer = entries::mark(&mut after, again);
                let mut expected = marks;
                expected[again] = 1;
                let channel = again;
                assert_eq!(answer, ChannelAnswer { channel, ..told });
                assert_eq!(after, marked(&expected));
            }
        }
    }
}

#[test]
fn a_served_search_answers_and_keeps_its_numbers() {
    let mut met = [0; 5];
    for upper in [0, 7, 120, 143, 255] {
        for next in 0..=6 {
            for lags in [[80, 100], [120, 121], [19, 144], [121, 80]] {
                for subframe in 0..=6 {
                    let found = on_silence(entries::pitch_search, odd(next, upper), lags, subframe);
                    let mut channels = marked(&[7, 9, 8]);
                    channels[1].searcher = odd(next, upper);
                    let mut expected = channels.clone();
                    expected[1] = ChannelState {
                        searcher: found.state(),
                        waiting: 0,
                    };
                    let [first, second] = lags;
                    let (words, past) = (&SILENCE, &SILENT_EXCITATION);
                    let answer = entries::serve(
                        &mut channels,
                        0,
                        past,
                        words,
                        words,
                        first,
                        second,
                        subframe,
                    );
                    let served = ServiceAnswer {
                        number: found.number,
                        magnitude: found.magnitude,
                        channel: 1,
                        last: 1,
                        pitch: FramePitch {
                            index: found.index,
                            samples: found.samples,
                            fraction: found.fraction,
                        },
                    };
                    assert_eq!((answer, channels), (served, expected));
                    met[usize::from(found.number)] += 1;
                }
            }
        }
    }
    assert!(met[0] > 20 && met[2] > 100 && met[3] > 100 && met[4] > 50);
}

#[test]
fn a_served_search_refuses_lengths_first() {
    let lengths = |excitation: &[i16], target: &[i16], impulse: &[i16]| {
        let mut channels = marked(&[0, 5]);
        let answer = entries::serve(&mut channels, 7, excitation, target, impulse, 19, 144, 9);
        assert_eq!(channels, marked(&[0, 0]));
        assert_eq!((answer.channel, answer.last), (1, 1));
        (answer.number, answer.magnitude)
    };
    let (past, words) = (&SILENT_EXCITATION, &SILENCE);
    assert_eq!(lengths(&past[1..], &words[1..], &[]), (1, 193));
    assert_eq!(lengths(past, &words[1..], &[]), (1, 39));
    assert_eq!(lengths(past, words, &[]), (1, 0));
    assert_eq!(lengths(past, words, words), (2, 9));
}

#[test]
fn every_subframe_is_served() {
    let mut both = Both::fresh(1, None);
    for _ in 0..3 {
        for subframe in SUBFRAMES {
            assert_eq!(both.mark(0), Ok(()));
            let served = both.serve(&Inputs::silent([80, 100], subframe));
            assert!(served.is_ok_and(|served| served.found.is_ok()));
        }
    }
}

#[test]
fn records_and_answers_have_the_librarys_sizes() {
    assert_eq!(size_of::<ChannelState>(), 10);
    assert_eq!(size_of::<Channel>(), 10);
    assert_eq!(size_of::<ChannelAnswer>(), 24);
    assert_eq!(size_of::<ServiceAnswer>(), 40);
}
