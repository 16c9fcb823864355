//! The numbers of a step's line, as `select` prints them, and the starts of the windows and the
//! upper lags after it.

use mr74::entries::{self, PitchState, StepAnswer};

fn step(feed: &[u8], state: PitchState) -> StepAnswer {
    entries::step(feed, 0, state, state, &mut [0; 143], &mut [0; 160])
}

fn fields(answer: &StepAnswer) -> [i32; 4] {
    assert_eq!(answer.number, 0);
    [answer.first, answer.second, answer.third, answer.fourth]
}

/// The searcher and the reader after a step.
fn states(answer: &StepAnswer) -> [PitchState; 2] {
    [answer.searcher(), answer.reader()]
}

/// A pitch record in which every sample is 0 and both open-loop lags are 80.
fn silent_search(subframe: u8) -> Vec<u8> {
    silent_search_at(subframe, [80, 80])
}

fn silent_search_at(subframe: u8, lags: [u8; 2]) -> Vec<u8> {
    [&[2, subframe][..], &[0; 548], &lags].concat()
}

#[test]
fn hertz_of_a_reading_counts_the_thirds() {
    for (index, lag, thirds, hertz) in [
        (0, 19, 1, 413),
        (1, 20, -1, 406),
        (2, 20, 0, 400),
        (189, 82, 1, 97),
        (196, 85, -1, 94),
        (197, 85, 0, 94),
        (255, 143, 0, 55),
    ] {
        let answer = step(&[6, 1, index], entries::fresh_pitch());
        assert_eq!(fields(&answer), [lag, thirds, hertz, 0]);
    }
}

#[test]
fn hertz_of_a_search_counts_the_thirds() {
    let one = step(&silent_search(1), entries::fresh_pitch());
    assert_eq!(fields(&one), [189, 82, 1, 97]);
    let [after, _] = states(&one);
    let two = step(&silent_search(2), after);
    assert_eq!(fields(&two), [27, 85, 1, 93]);
}

#[test]
fn a_start_changes_by_its_own_record_and_by_a_reset() {
    let half_frame = [&[1][..], &[0; 160]].concat();
    let given = |samples, next| PitchState {
        samples,
        fraction: 0,
        next,
        upper: 143,
        start: 7,
    };
    let starts = |feed: &[u8], state| {
        let answer = step(feed, state);
        (answer.number, answer.searcher_start, answer.reader_start)
    };
    assert_eq!(starts(&silent_search(1), given(40, 1)), (0, 77, 7));
    assert_eq!(starts(&silent_search(2), given(60, 2)), (0, 55, 7));
    assert_eq!(starts(&[6, 1, 189], given(40, 1)), (0, 7, 0));
    assert_eq!(starts(&[6, 2, 5], given(60, 2)), (0, 7, 55));
    for feed in [&[][..], &half_frame] {
        assert_eq!(starts(feed, given(40, 1)), (0, 7, 7));
    }
    assert_eq!(starts(&[0], given(40, 1)), (0, 0, 0));
    // Refused.
    assert_eq!(starts(&silent_search(2), given(40, 1)), (4, 7, 7));
    assert_eq!(starts(&[6, 2, 189], given(40, 1)), (4, 7, 7));
    assert_eq!(starts(&[6, 2, 32], given(40, 2)), (5, 7, 7));
    assert_eq!(starts(&[7], given(40, 1)), (9, 7, 7));
}

#[test]
fn starts_go_from_step_to_step() {
    let mut kept = [entries::fresh_pitch(); 2];
    let mut starts = |feed: &[u8]| {
        let [searcher, reader] = kept;
        let answer = entries::step(feed, 0, searcher, reader, &mut [0; 143], &mut [0; 160]);
        kept = states(&answer);
        kept.map(|state| state.start)
    };
    assert_eq!(starts(&silent_search(1)), [77, 0]);
    assert_eq!(starts(&[6, 1, 189]), [77, 0]);
    assert_eq!(starts(&silent_search(2)), [77, 0]);
    assert_eq!(starts(&[6, 2, 27]), [77, 77]);
    // Refused: three is expected.
    assert_eq!(starts(&silent_search(2)), [77, 77]);
    assert_eq!(starts(&[0]), [0, 0]);
    assert_eq!(kept, [entries::fresh_pitch(); 2]);
}

#[test]
fn a_reset_keeps_each_upper_lag() {
    let given = |upper| PitchState {
        samples: 82,
        fraction: 1,
        next: 3,
        upper,
        start: 77,
    };
    let (player, handset) = (entries::fresh_player(), entries::fresh_pitch());
    for (searcher, reader, fresh) in [
        (120, 120, [player, player]),
        (120, 143, [player, handset]),
        (143, 120, [handset, player]),
        // Every other number is taken as the handset.
        (0, 119, [handset, handset]),
        (121, 255, [handset, handset]),
    ] {
        let (searcher, reader) = (given(searcher), given(reader));
        let answer = entries::step(&[0], 0, searcher, reader, &mut [0; 143], &mut [0; 160]);
        assert_eq!((answer.number, states(&answer)), (0, fresh));
    }
}

#[test]
fn an_upper_lag_changes_by_its_own_record_alone() {
    let half_frame = [&[1][..], &[0; 160]].concat();
    let uppers = |feed: &[u8], next| {
        let state = PitchState {
            next,
            upper: 7,
            ..entries::fresh_pitch()
        };
        let answer = step(feed, state);
        (answer.number, answer.searcher_upper, answer.reader_upper)
    };
    assert_eq!(uppers(&silent_search(1), 1), (0, 143, 7));
    assert_eq!(uppers(&[6, 1, 189], 1), (0, 7, 143));
    assert_eq!(uppers(&[0], 1), (0, 143, 143));
    assert_eq!(uppers(&half_frame, 1), (0, 7, 7));
    assert_eq!(uppers(&[], 1), (0, 7, 7));
    // Refused.
    assert_eq!(uppers(&silent_search(2), 1), (4, 7, 7));
    assert_eq!(uppers(&[6, 2, 32], 2), (5, 7, 7));
    assert_eq!(uppers(&[0], 9), (0, 143, 143));
}

#[test]
fn a_players_feed_is_read_back() {
    let mut kept = [entries::fresh_player(); 2];
    let mut next = |feed: &[u8]| {
        let [searcher, reader] = kept;
        let answer = entries::step(feed, 0, searcher, reader, &mut [0; 143], &mut [0; 160]);
        kept = states(&answer);
        let starts = kept.map(|state| state.start);
        assert_eq!(kept.map(|state| state.upper), [120, 120]);
        (answer.number, answer.magnitude, answer.first, starts)
    };
    for _ in 0..2 {
        assert_eq!(
            next(&silent_search_at(1, [120, 120])),
            (0, 0, 232, [114, 0])
        );
        assert_eq!(next(&[6, 1, 232]), (0, 0, 120, [114, 0]));
        assert_eq!(next(&silent_search_at(2, [120, 120])), (0, 0, 27, [111, 0]));
        assert_eq!(next(&[6, 2, 27]), (0, 0, 119, [111, 111]));
        // Refused, the first of the two lags.
        assert_eq!(
            next(&silent_search_at(3, [121, 143])),
            (3, 121, 0, [111, 111])
        );
        assert_eq!(
            next(&silent_search_at(3, [120, 143])),
            (3, 143, 0, [111, 111])
        );
        assert_eq!(next(&[0]), (0, 0, 0, [0, 0]));
    }
    assert_eq!(kept, [entries::fresh_player(); 2]);
}
