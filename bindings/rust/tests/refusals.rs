//! Every number that is refused, with its detail, and that nothing changes then.

use mr74::{
    Refusal, SUBFRAME_SAMPLES,
    codebook::{
        Codebook,
        search::{SharpeningGain, search},
    },
    entries,
    feed::record,
    gain::quantization::{GainLimit, Prediction, quantize},
    logarithm::pow2,
    pitch::{
        Fraction, LagReader, PitchLag, UpperLag,
        search::{EXCITATION_SAMPLES, OpenLoopLag, Search, Subframe},
    },
};

const SILENCE: [i16; SUBFRAME_SAMPLES] = [0; SUBFRAME_SAMPLES];

fn refusal(number: u8, detail: i128) -> Refusal {
    Refusal { number, detail }
}

#[test]
fn lengths_are_refused_by_1() {
    let mut output = [7; SUBFRAME_SAMPLES];
    let answer = entries::convolve(&SILENCE[1..], &SILENCE, &mut output);
    assert_eq!((answer.number, answer.magnitude), (1, 39));
    let answer = entries::convolve(&SILENCE, &[], &mut output);
    assert_eq!((answer.number, answer.magnitude), (1, 0));
    assert_eq!(output, [7; SUBFRAME_SAMPLES]);
    let mut history = [7; 142];
    let answer = entries::open_loop(&[0; 80], &mut history);
    assert_eq!((answer.number, answer.magnitude, answer.lag), (1, 142, 0));
    assert_eq!(history, [7; 142]);
}

#[test]
fn subframes_and_limits_are_refused_by_2() {
    let answer = entries::read_lag(entries::fresh_pitch(), 5, 0);
    assert_eq!((answer.number, answer.magnitude), (2, 5));
    assert_eq!(answer.state(), entries::fresh_pitch());
    let answer = entries::quantize(&SILENCE, &SILENCE, &SILENCE, 128, 0, 2);
    assert_eq!((answer.number, answer.magnitude), (2, 2));
}

#[test]
fn expected_subframes_are_refused_by_2_and_numbers_come_back() {
    let state = |next| entries::PitchState {
        samples: 7,
        fraction: 5,
        next,
        upper: 7,
        start: u16::MAX,
    };
    for next in [0, 5, 255] {
        let read = entries::read_lag(state(next), 4, 0);
        assert_eq!((read.number, read.magnitude), (2, next.into()));
        assert_eq!(read.state(), state(next));
        let read = entries::read_lag(state(next), 6, 0);
        assert_eq!((read.number, read.magnitude), (2, 6));
        let excitation = [0; EXCITATION_SAMPLES];
        let found = entries::pitch_search(state(next), &excitation, &SILENCE, &SILENCE, 19, 19, 4);
        assert_eq!((found.number, found.magnitude), (2, next.into()));
        assert_eq!(found.state(), state(next));
    }
    let read = entries::read_lag(state(3), 4, 0);
    assert_eq!((read.number, read.magnitude), (4, 3));
    assert_eq!(read.state(), state(3));
}

#[test]
fn steps_write_no_words_but_those_of_a_filtering_record() {
    let state = entries::PitchState {
        samples: 7,
        fraction: 5,
        next: 9,
        upper: 7,
        start: 7,
    };
    let step = |feed: &[u8]| {
        let mut words = [7; 160];
        let answer = entries::step(feed, 0, state, state, &mut [0; 143], &mut words);
        let kept = [answer.reader_next, answer.searcher_next];
        (answer.number, answer.magnitude, kept, words == [7; 160])
    };
    let filtering = [&[5][..], &[1; 184]].concat();
    assert_eq!(step(&[0]), (0, 0, [1, 1], true));
    assert_eq!(step(&[6, 1, 189]), (2, 9, [9, 9], true));
    assert_eq!(step(&[7]), (9, 7, [9, 9], true));
    assert_eq!(step(&[1, 0, 0]), (10, 2, [9, 9], true));
    assert_eq!(step(&filtering), (0, 0, [9, 9], false));
    assert_eq!(step(&[]), (0, 0, [9, 9], true));
}

#[test]
fn open_loop_lags_are_refused_by_3() {
    for lag in [0, 19, 144, u16::MAX] {
        assert_eq!(OpenLoopLag::try_new(lag), Err(refusal(3, lag.into())));
    }
    for lag in [20, 120, 121, 143] {
        assert_eq!(OpenLoopLag::try_new(lag).map(OpenLoopLag::samples), Ok(lag));
    }
}

/// A search of silence with these open-loop lags.
fn find(searcher: &mut Search, lags: [u16; 2], subframe: Subframe) -> Result<u16, Refusal> {
    let lags = lags.map(|lag| OpenLoopLag::try_new(lag).expect("a lag"));
    let excitation = [0; EXCITATION_SAMPLES];
    let found = searcher.search(&excitation, &SILENCE, &SILENCE, lags, subframe)?;
    Ok(found.lag.samples())
}

#[test]
fn a_player_refuses_open_loop_lags_above_120_by_3() -> Result<(), Refusal> {
    let mut searcher = Search::player();
    for subframe in [
        Subframe::One,
        Subframe::Two,
        Subframe::Three,
        Subframe::Four,
    ] {
        let before = searcher.clone();
        for (lags, detail) in [
            ([121, 80], 121),
            ([80, 121], 121),
            ([121, 143], 121),
            ([143, 121], 143),
            ([120, 143], 143),
        ] {
            let refused = find(&mut searcher, lags, subframe);
            assert_eq!(refused, Err(refusal(3, detail)));
            assert_eq!(searcher, before);
            assert!(find(&mut Search::default(), lags, Subframe::One).is_ok());
        }
        find(&mut searcher, [120, 20], subframe)?;
        assert_eq!(searcher.upper, UpperLag::Player);
    }
    assert_eq!(find(&mut searcher, [20, 120], Subframe::One)?, 25);
    Ok(())
}

#[test]
fn a_players_number_3_comes_after_2_and_before_4() {
    let find = |given, lags: [u16; 2], subframe| {
        let [first, second] = lags;
        let excitation = [0; EXCITATION_SAMPLES];
        let found = entries::pitch_search(
            given,
            &excitation,
            &SILENCE,
            &SILENCE,
            first,
            second,
            subframe,
        );
        assert!(found.number == 0 || found.state() == given);
        (found.number, found.magnitude)
    };
    let fresh = entries::fresh_player();
    assert_eq!(find(fresh, [19, 121], 1), (3, 19));
    assert_eq!(find(fresh, [121, 19], 1), (3, 121));
    assert_eq!(find(fresh, [144, 121], 1), (3, 144));
    assert_eq!(find(fresh, [120, u16::MAX], 1), (3, u16::MAX.into()));
    assert_eq!(find(fresh, [121, 80], 0), (2, 0));
    let unknown = entries::PitchState { next: 5, ..fresh };
    assert_eq!(find(unknown, [121, 80], 1), (2, 5));
    assert_eq!(find(fresh, [121, 80], 2), (3, 121));
    assert_eq!(find(fresh, [120, 80], 2), (4, 1));
    assert_eq!(find(fresh, [120, 120], 1), (0, 0));
    assert_eq!(find(entries::fresh_pitch(), [121, 143], 1), (0, 0));
}

#[test]
fn subframes_out_of_turn_are_refused_by_4() {
    let lags = [80, 80].map(|lag| OpenLoopLag::try_new(lag).expect("a lag"));
    let mut searcher = Search::default();
    let mut find = |subframe| {
        let excitation = [0; EXCITATION_SAMPLES];
        let found = searcher.search(&excitation, &SILENCE, &SILENCE, lags, subframe);
        (found.map(|pitch| pitch.index), searcher.next)
    };
    assert_eq!(find(Subframe::Two), (Err(refusal(4, 1)), Subframe::One));
    assert_eq!(find(Subframe::One), (Ok(189), Subframe::Two));
    assert_eq!(find(Subframe::Two), (Ok(27), Subframe::Three));
    assert_eq!(find(Subframe::Two), (Err(refusal(4, 3)), Subframe::Three));
    assert_eq!(searcher.start, 77);
    let mut reader = LagReader::default();
    assert_eq!(reader.read(Subframe::Four, 0), Err(refusal(4, 1)));
    assert_eq!(reader, LagReader::default());
}

#[test]
fn relative_indexes_are_refused_by_5() {
    let previous = PitchLag::from_absolute(189);
    assert_eq!(PitchLag::from_relative(32, previous), Err(refusal(5, 32)));
    assert!(PitchLag::from_relative(31, previous).is_ok());
}

#[test]
fn pulse_lags_are_refused_by_6() {
    let find = |samples| {
        let fraction = Fraction::Zero;
        let lag = PitchLag { samples, fraction };
        search(&SILENCE, &SILENCE, lag, SharpeningGain(0)).map(|found| found.pulse_positions)
    };
    for lag in [18, 145] {
        assert_eq!(find(lag), Err(refusal(6, lag.into())));
    }
    for lag in [19, 40, 144] {
        assert_eq!(find(lag), Ok(6));
    }
}

#[test]
fn exponents_are_refused_by_7_and_then_fractions_by_14() {
    assert_eq!(pow2(31, 32767), Err(refusal(7, 31)));
    assert_eq!(pow2(31, 32768), Err(refusal(7, 31)));
    assert_eq!(pow2(30, 32768), Err(refusal(14, 32768)));
    assert_eq!(pow2(0, u16::MAX), Err(refusal(14, 65535)));
    assert_eq!(pow2(30, 32767), Ok(2147373248));
    assert_eq!(pow2(14, 0), Ok(16384));
    let choose = |exponent, fraction| {
        let prediction = Prediction { exponent, fraction };
        let limit = GainLimit::Unrestricted;
        quantize(&SILENCE, &SILENCE, &SILENCE, prediction, limit).map(|row| row.index)
    };
    for fraction in [0, 32767, 32768, u16::MAX] {
        assert_eq!(choose(-129, fraction), Err(refusal(7, -129)));
        assert_eq!(choose(128, fraction), Err(refusal(7, 128)));
    }
    for exponent in [-128, 0, 127] {
        assert_eq!(choose(exponent, 32768), Err(refusal(14, 32768)));
        assert!(choose(exponent, 32767).is_ok());
    }
    assert_eq!(choose(0, 0), Ok(103));
}

#[test]
fn a_step_tells_a_bad_exponent_from_a_bad_fraction() {
    let step = |exponent: i16, fraction: u16, limit: u8| {
        let mut feed = vec![4];
        feed.extend([0; 240]);
        feed.extend(exponent.to_be_bytes());
        feed.extend(fraction.to_be_bytes());
        feed.push(limit);
        let fresh = entries::fresh_pitch();
        let answer = entries::step(&feed, 0, fresh, fresh, &mut [0; 143], &mut [0; 160]);
        (answer.number, answer.negative, answer.magnitude)
    };
    assert_eq!(step(0, 0, 0), (0, 0, 0));
    assert_eq!(step(-129, 32768, 2), (2, 0, 2));
    assert_eq!(step(-129, 32768, 0), (7, 1, 129));
    assert_eq!(step(-128, 32768, 0), (14, 0, 32768));
    assert_eq!(step(-128, 32767, 1), (0, 0, 0));
}

#[test]
fn pulse_words_are_refused_by_8() {
    assert_eq!(Codebook::try_new(8192, 16), Err(refusal(8, 8192)));
    assert_eq!(Codebook::try_new(8191, 16), Err(refusal(8, 16)));
    assert!(Codebook::try_new(8191, 15).is_ok());
}

#[test]
fn feeds_are_refused_by_9_and_10() {
    let kind = |feed: &[u8]| record(feed, 0).map(|record| record.map(|record| record.kind));
    let step = |feed: &[u8]| {
        let fresh = entries::fresh_pitch();
        let answer = entries::step(feed, 0, fresh, fresh, &mut [0; 143], &mut [0; 160]);
        (answer.number, answer.magnitude, answer.line)
    };
    assert_eq!(kind(&[7]), Err(refusal(9, 7)));
    assert_eq!(step(&[7]), (9, 7, 0));
    assert_eq!(kind(&[1, 0, 0]), Err(refusal(10, 2)));
    assert_eq!(step(&[1, 0, 0]), (10, 2, 0));
    assert_eq!(kind(&[6, 1, 189]), Ok(Some(6)));
    assert_eq!(step(&[6, 1, 189]), (0, 0, 6));
    assert_eq!(kind(&[]), Ok(None));
    assert_eq!(step(&[]), (0, 0, entries::END));
}

#[test]
fn refusals_say_what_is_wrong() {
    for (number, detail, words) in [
        (
            1,
            39,
            "a list of length 39 is not as long as its stage needs",
        ),
        (
            3,
            121,
            "open-loop lag 121 is outside 20 to 143, or above 120 for a player",
        ),
        (4, 3, "subframe 3 is expected next"),
        (
            7,
            -129,
            "exponent -129 is outside 0 to 30 (a power) or -128 to 127 (a prediction)",
        ),
        (10, 2, "the feed ends after 2 bytes of a record's body"),
        (14, 32768, "fraction 32768 is above 32767"),
        (15, 25, "a list of 25 channels is not one of 1 to 24"),
        (
            16,
            usize::MAX as i128,
            "channel 18446744073709551615 is not in the list",
        ),
        (17, 0, "no channel waits"),
    ] {
        let said = refusal(number, detail).to_string();
        assert_eq!(said, format!("MR74 refusal {number}: {words}"));
    }
}
