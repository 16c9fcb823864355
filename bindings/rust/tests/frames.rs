//! A whole frame answers and keeps what two detector calls and then four searches do. Where any
//! part of it is refused, a number and a detail come back and nothing has changed.

mod inputs;
mod states;
mod words;

use inputs::{Drawn, SILENCE, SILENT_EXCITATION, SUBFRAMES, on_silence};
use mr74::{
    Refusal, SUBFRAME_SAMPLES,
    entries::{self, FrameAnswer, FramePitch, PitchState, SubframeLists},
    pitch::{
        LagReader,
        frame::{FRAME_SAMPLES, Frame, SubframeInputs, frame},
        open_loop::Detector,
        search::{EXCITATION_SAMPLES, OpenLoopLag, Search, Subframe},
    },
};
use states::odd;

type Words = [i16; SUBFRAME_SAMPLES];

const HALF_FRAME: usize = FRAME_SAMPLES / 2;
const HISTORY: usize = 143;

/// What is searched in a subframe.
#[derive(Clone, Copy)]
struct Set {
    excitation: [i16; EXCITATION_SAMPLES],
    target: Words,
    impulse: Words,
}

const SILENT: Set = Set {
    excitation: SILENT_EXCITATION,
    target: SILENCE,
    impulse: SILENCE,
};

impl Set {
    fn drawn(drawn: &mut Drawn) -> Self {
        Self {
            excitation: drawn.words(),
            target: drawn.words(),
            impulse: drawn.words(),
        }
    }

    fn lists(&self) -> SubframeLists<'_> {
        SubframeLists {
            excitation: &self.excitation,
            target: &self.target,
            impulse_q12: &self.impulse,
        }
    }

    fn inputs(&self) -> SubframeInputs<'_> {
        SubframeInputs {
            excitation: &self.excitation,
            target: &self.target,
            impulse_q12: &self.impulse,
        }
    }
}

#[derive(Debug, Clone, PartialEq, Eq)]
struct States {
    detector: Detector,
    search: Search,
}

impl States {
    fn fresh(search: Search) -> Self {
        Self {
            detector: Detector::default(),
            search,
        }
    }
}

struct Logged {
    samples: [i16; FRAME_SAMPLES],
    sets: [Set; 4],
}

impl Logged {
    fn drawn(drawn: &mut Drawn) -> Self {
        Self {
            samples: drawn.words(),
            sets: std::array::from_fn(|_| Set::drawn(drawn)),
        }
    }

    /// A frame that is 0 but for pulses, and the detector before it. Places below 0 are in the
    /// detector's history.
    fn pulses(places: &[i32]) -> (Self, Detector) {
        const PULSE: i16 = 8000;
        let mut detector = Detector::default();
        let mut samples = [0; FRAME_SAMPLES];
        for &place in places {
            match usize::try_from(place) {
                Ok(place) => samples[place] = PULSE,
                Err(_) => detector.history_q0[(HISTORY as i32 + place) as usize] = PULSE,
            }
        }
        let sets = [SILENT; 4];
        (Self { samples, sets }, detector)
    }

    fn frame(&self, states: &mut States) -> Result<Frame, Refusal> {
        let sets = self.sets.each_ref().map(Set::inputs);
        frame(
            &mut states.detector,
            &mut states.search,
            &self.samples,
            sets,
        )
    }

    /// The same by single calls, on a copy that is kept where all of them are accepted.
    fn parts(&self, states: &mut States) -> Result<Frame, Refusal> {
        let expected = states.search.next;
        if expected != Subframe::One {
            return Err(refusal(4, expected.number().into()));
        }
        let mut after = states.clone();
        let open_loop = self.open_loop(&mut after.detector);
        let mut find = |place: usize| {
            let Set {
                excitation,
                target,
                impulse,
            } = &self.sets[place];
            let subframe = SUBFRAMES[place];
            after
                .search
                .search(excitation, target, impulse, open_loop, subframe)
        };
        let pitches = [find(0)?, find(1)?, find(2)?, find(3)?];
        *states = after;
        Ok(Frame { open_loop, pitches })
    }

    fn open_loop(&self, detector: &mut Detector) -> [OpenLoopLag; 2] {
        [0, HALF_FRAME].map(|from| detector.push(&std::array::from_fn(|i| self.samples[from + i])))
    }

    /// What the library answers, and the history after it.
    fn answer(&self, given: PitchState, detector: &Detector) -> (FrameAnswer, [i16; HISTORY]) {
        let mut history = detector.history_q0;
        let sets = self.sets.each_ref().map(Set::lists);
        let answer = entries::frame(given, &self.samples, sets, &mut history);
        (answer, history)
    }
}

fn refusal(number: u8, detail: i128) -> Refusal {
    Refusal { number, detail }
}

/// Number and detail of a refused frame. There is no lag and no index in it, and the searcher is
/// the one that was given.
fn refused(answer: FrameAnswer, given: PitchState) -> (u8, u64) {
    let (number, magnitude) = (answer.number, answer.magnitude);
    let nothing = FramePitch {
        index: 0,
        samples: 0,
        fraction: 0,
    };
    let expected = FrameAnswer {
        number,
        magnitude,
        first_lag: 0,
        second_lag: 0,
        pitches: [nothing; 4],
        searcher: given,
    };
    assert_eq!(answer, expected);
    assert_ne!(number, 0);
    (number, magnitude)
}

/// Upper lags: the first is taken as a handset's.
const UPPERS: [u8; 3] = [7, 120, 143];

#[test]
fn a_frame_answers_and_keeps_what_its_parts_do() {
    // Accepted, refused by 3, refused by 4.
    let [accepted, by_3, by_4] = frames(Search::default(), 1);
    assert!(accepted > 200 && by_3 == 0 && by_4 > 20);
    let [accepted, by_3, by_4] = frames(Search::player(), 2);
    assert!(accepted > 50 && by_3 > 50 && by_4 > 20);
}

/// A chain of frames, counted by what they answer.
fn frames(search: Search, seed: u32) -> [usize; 3] {
    const FRAMES: usize = 400;
    let mut drawn = Drawn(seed);
    let mut whole = States::fresh(search);
    let mut met = [0; 3];
    for _ in 0..FRAMES {
        let logged = Logged::drawn(&mut drawn);
        // One in eight may begin at another subframe.
        whole.search.next = match drawn.below(8) {
            0 => SUBFRAMES[drawn.below(4) as usize],
            _ => Subframe::One,
        };
        let before = whole.clone();
        let mut parts = whole.clone();
        let answer = logged.frame(&mut whole);
        assert_eq!(answer, logged.parts(&mut parts));
        assert_eq!(whole, parts);
        assert_eq!(answer.is_err(), whole == before);
        met[match answer {
            Ok(_) => 0,
            Err(Refusal { number: 3, .. }) => 1,
            Err(Refusal { number, .. }) => {
                assert_eq!(number, 4);
                2
            }
        }] += 1;
    }
    met
}

#[test]
fn known_frames_are_answered() -> Result<(), Refusal> {
    // A pulse every 57 samples, and then silence behind it.
    let (logged, detector) = Logged::pulses(&[-114, -57, 0, 57, 114]);
    let mut states = States {
        detector,
        search: Search::default(),
    };
    let numbers = |frame: Frame| {
        let lags = frame.open_loop.map(OpenLoopLag::samples);
        (lags, frame.pitches.map(|sent| sent.index))
    };
    let found = numbers(logged.frame(&mut states)?);
    assert_eq!(found, ([57, 57], [120, 27, 120, 27]));
    let (silent, _) = Logged::pulses(&[]);
    let found = numbers(silent.frame(&mut states)?);
    assert_eq!(found, ([80, 80], [189, 27, 189, 27]));
    assert_eq!(
        (states.search.next, states.search.start),
        (Subframe::One, 77)
    );
    Ok(())
}

#[test]
fn a_searcher_may_have_any_numbers() {
    let (silent, fresh) = Logged::pulses(&[]);
    for upper in [0, 7, 119, 120, 121, 143, 255] {
        for samples in [0, 19, 40, 144, u16::MAX] {
            let given = PitchState {
                samples,
                ..odd(1, upper)
            };
            let lags = silent
                .open_loop(&mut fresh.clone())
                .map(OpenLoopLag::samples);
            let mut searcher = given;
            let pitches = [1, 2, 3, 4].map(|subframe| {
                let found = on_silence(entries::pitch_search, searcher, lags, subframe);
                assert_eq!(found.number, 0);
                searcher = found.state();
                FramePitch {
                    index: found.index,
                    samples: found.samples,
                    fraction: found.fraction,
                }
            });
            let [first_lag, second_lag] = lags;
            let expected = FrameAnswer {
                number: 0,
                magnitude: 0,
                first_lag,
                second_lag,
                pitches,
                searcher,
            };
            assert_eq!(silent.answer(given, &fresh), (expected, [0; HISTORY]));
            assert_eq!(searcher.upper, if upper == 120 { 120 } else { 143 });
        }
    }
}

/// The lists in the order in which they are looked at: the samples, excitation, target and impulse
/// of each set, the history.
const LENGTHS: [usize; 14] = [
    FRAME_SAMPLES,
    EXCITATION_SAMPLES,
    SUBFRAME_SAMPLES,
    SUBFRAME_SAMPLES,
    EXCITATION_SAMPLES,
    SUBFRAME_SAMPLES,
    SUBFRAME_SAMPLES,
    EXCITATION_SAMPLES,
    SUBFRAME_SAMPLES,
    SUBFRAME_SAMPLES,
    EXCITATION_SAMPLES,
    SUBFRAME_SAMPLES,
    SUBFRAME_SAMPLES,
    HISTORY,
];

/// A call with lists of these lengths, and whether it has changed the history.
fn with_lengths(given: PitchState, lengths: [usize; 14]) -> (FrameAnswer, bool) {
    let lists = lengths.map(|length| (0..length).map(|i| i as i16 % 97).collect::<Vec<_>>());
    let sets = [1, 4, 7, 10].map(|first| SubframeLists {
        excitation: &lists[first],
        target: &lists[first + 1],
        impulse_q12: &lists[first + 2],
    });
    let mut history = lists[13].clone();
    let answer = entries::frame(given, &lists[0], sets, &mut history);
    (answer, history != lists[13])
}

/// Number and detail of a frame that is refused with lists of these lengths.
fn refused_lengths(given: PitchState, lengths: [usize; 14]) -> (u8, u64) {
    let (answer, changed) = with_lengths(given, lengths);
    assert!(!changed);
    refused(answer, given)
}

#[test]
fn good_lengths_are_accepted() {
    let (answer, changed) = with_lengths(odd(1, 143), LENGTHS);
    assert_eq!((answer.number, changed), (0, true));
}

#[test]
fn each_length_is_refused_by_1() {
    for place in 0..LENGTHS.len() {
        let good = LENGTHS[place];
        for wrong in [0, 1, good - 1, good + 1, 2 * good, 70000] {
            let mut lengths = LENGTHS;
            lengths[place] = wrong;
            let given = odd(1, 7);
            assert_eq!(refused_lengths(given, lengths), (1, wrong as u64));
        }
    }
}

#[test]
fn the_first_wrong_length_is_told() {
    // All of them differ, so that a length tells its list.
    let too_short = |place: usize| place;
    let too_long = |place: usize| 200 + place;
    for first in 0..LENGTHS.len() {
        for second in first + 1..LENGTHS.len() {
            for (one, other) in [
                (too_short(first), too_long(second)),
                (too_long(first), too_short(second)),
                (too_short(first), too_short(second)),
                (too_long(first), too_long(second)),
            ] {
                let mut lengths = LENGTHS;
                lengths[first] = one;
                lengths[second] = other;
                let given = odd(1, 7);
                assert_eq!(refused_lengths(given, lengths), (1, one as u64));
            }
        }
    }
}

#[test]
fn lengths_come_before_2_and_4() {
    for place in 0..LENGTHS.len() {
        let mut lengths = LENGTHS;
        lengths[place] += 1;
        for next in 0..=5 {
            for upper in UPPERS {
                let wrong = lengths[place] as u64;
                let given = odd(next, upper);
                assert_eq!(refused_lengths(given, lengths), (1, wrong));
            }
        }
    }
}

#[test]
fn unknown_expected_subframes_are_refused_by_2() {
    for next in [0].into_iter().chain(5..=255) {
        for upper in UPPERS {
            let refused = refused_lengths(odd(next, upper), LENGTHS);
            assert_eq!(refused, (2, next.into()));
        }
    }
}

#[test]
fn other_expected_subframes_are_refused_by_4() {
    for next in 2..=4 {
        for upper in UPPERS {
            let refused = refused_lengths(odd(next, upper), LENGTHS);
            assert_eq!(refused, (4, next.into()));
        }
    }
    for search in [Search::default(), Search::player()] {
        for next in [Subframe::Two, Subframe::Three, Subframe::Four] {
            let mut states = States::fresh(search.clone());
            states.search.next = next;
            let before = states.clone();
            let logged = Logged::drawn(&mut Drawn(3));
            let answer = logged.frame(&mut states);
            assert_eq!(answer, Err(refusal(4, next.number().into())));
            assert_eq!(states, before);
        }
    }
}

/// Pulses, the open-loop lags that they have, and the first that a player refuses.
const PULSES: [(&[i32], [u16; 2], Option<u16>); 8] = [
    (&[-120, 0, 120], [120, 120], None),
    (&[-143, 0, 85, 142], [143, 57], Some(143)),
    (&[-121, 0, 85, 142], [121, 57], Some(121)),
    (&[0, 121], [80, 121], Some(121)),
    (&[0, 143], [80, 143], Some(143)),
    (&[-130, 0, 140], [130, 140], Some(130)),
    (&[-140, 0, 130], [140, 130], Some(140)),
    (&[-121, 0, 120], [121, 120], Some(121)),
];

#[test]
fn a_player_refuses_lags_above_120_by_3() {
    for (places, lags, detail) in PULSES {
        let (logged, detector) = Logged::pulses(places);
        let told = logged.open_loop(&mut detector.clone());
        assert_eq!(told.map(OpenLoopLag::samples), lags);

        let player = odd(1, 120);
        let (answer, history) = logged.answer(player, &detector);
        match detail {
            None => assert_eq!((answer.number, answer.searcher.upper), (0, 120)),
            Some(detail) => {
                assert_eq!(refused(answer, player), (3, detail.into()));
                assert_eq!(history, detector.history_q0);
            }
        }
        // Every other number is taken as the handset, which takes all of them.
        for upper in [119, 121, 143] {
            let (answer, history) = logged.answer(odd(1, upper), &detector);
            assert_eq!((answer.number, answer.searcher.upper), (0, 143));
            assert_eq!([answer.first_lag, answer.second_lag], lags);
            assert_ne!(history, detector.history_q0);
        }

        let search = Search::player();
        let mut whole = States { detector, search };
        let before = whole.clone();
        let mut parts = before.clone();
        let answer = logged.frame(&mut whole);
        match detail {
            None => assert_eq!(answer.map(|frame| frame.open_loop), Ok(told)),
            Some(detail) => {
                assert_eq!(answer, Err(refusal(3, detail.into())));
                assert_eq!(whole, before);
            }
        }
        assert_eq!(answer, logged.parts(&mut parts));
        assert_eq!(whole, parts);
    }
}

#[test]
fn a_players_number_4_comes_before_3() {
    for (places, ..) in PULSES {
        let (logged, detector) = Logged::pulses(places);
        for next in [0, 2, 3, 4, 5] {
            let given = odd(next, 120);
            let (answer, history) = logged.answer(given, &detector);
            let number = if (1..=4).contains(&next) { 4 } else { 2 };
            assert_eq!(refused(answer, given), (number, next.into()));
            assert_eq!(history, detector.history_q0);
        }
        for next in [Subframe::Two, Subframe::Three, Subframe::Four] {
            let mut search = Search::player();
            search.next = next;
            let detector = detector.clone();
            let mut states = States { detector, search };
            let before = states.clone();
            let answer = logged.frame(&mut states);
            assert_eq!(answer, Err(refusal(4, next.number().into())));
            assert_eq!(states, before);
        }
    }
}

#[test]
fn a_reader_reads_a_frame_as_it_reads_four_searches() -> Result<(), Refusal> {
    // Lags recovered, other readings, frames that were refused.
    let [recovered, others, refused] = read_frames(Search::default(), LagReader::default(), 4)?;
    assert!(recovered > 500 && others > 200 && refused == 0);
    let [recovered, others, refused] = read_frames(Search::player(), LagReader::player(), 5)?;
    assert!(recovered > 150 && others > 60 && refused > 50);
    Ok(())
}

/// Frames whose indexes arrive at one reader, and those of single searches at another: of four
/// frames in five one index damaged, the same at both.
fn read_frames(search: Search, reader: LagReader, seed: u32) -> Result<[usize; 3], Refusal> {
    const FRAMES: usize = 250;
    let mut drawn = Drawn(seed);
    let mut whole = States::fresh(search);
    let mut parts = whole.clone();
    let mut of_whole = reader.clone();
    let mut of_parts = reader;
    let mut met = [0; 3];
    for frame in 0..FRAMES {
        let logged = Logged::drawn(&mut drawn);
        let sent = logged.frame(&mut whole);
        let singly = logged.parts(&mut parts);
        // A refused frame has no indexes, and the readers go on from where they were.
        let (Ok(sent), Ok(singly)) = (sent, singly) else {
            assert_eq!(sent, singly);
            met[2] += 1;
            continue;
        };
        let damaged = frame % 5;
        let change = 1 + drawn.below(31) as u8;
        let arrived = |place, index| {
            if place == damaged {
                index ^ change
            } else {
                index
            }
        };
        for (place, subframe) in SUBFRAMES.into_iter().enumerate() {
            let index = arrived(place, sent.pitches[place].index);
            let read = of_whole.read(subframe, index)?;
            let index = arrived(place, singly.pitches[place].index);
            assert_eq!(Ok(read), of_parts.read(subframe, index));
            assert_eq!(of_whole, of_parts);
            // Its own index is intact, and it is subframe one or three or follows an intact one.
            if place != damaged && (place % 2 == 0 || place - 1 != damaged) {
                assert_eq!(read, sent.pitches[place].lag);
                met[0] += 1;
            } else {
                met[1] += 1;
            }
        }
        if damaged != 2 {
            assert_eq!(of_whole.start, whole.search.start);
        }
    }
    Ok(met)
}

#[test]
fn a_refused_frame_leaves_nothing_to_read() -> Result<(), Refusal> {
    let (high, _) = Logged::pulses(&[0, 130]);
    let mut drawn = Drawn(6);
    let (mut states, mut reader) = (States::fresh(Search::player()), LagReader::player());
    let mut sent = 0;
    for _ in 0..100 {
        // Refused by 3 behind silence, by 4 out of turn.
        states.detector.reset();
        let before = states.clone();
        assert_eq!(high.frame(&mut states), Err(refusal(3, 130)));
        assert_eq!(states, before);
        states.search.next = Subframe::Three;
        assert_eq!(high.frame(&mut states), Err(refusal(4, 3)));
        states.search.next = Subframe::One;
        assert_eq!(states, before);

        let Ok(frame) = Logged::drawn(&mut drawn).frame(&mut states) else {
            continue;
        };
        for (pitch, subframe) in frame.pitches.into_iter().zip(SUBFRAMES) {
            assert_eq!(reader.read(subframe, pitch.index)?, pitch.lag);
        }
        assert_eq!(reader.previous, states.search.previous);
        assert_eq!(reader.next, states.search.next);
        sent += 1;
    }
    assert!(sent > 20);
    Ok(())
}
