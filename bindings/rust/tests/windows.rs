//! The start of the last window, and the upper lag, which searcher and reader keep.

mod inputs;
mod words;

use inputs::{Drawn, SILENCE, SILENT_EXCITATION, SUBFRAMES, on_silence};
use mr74::{
    Refusal,
    entries::{self, PitchAnswer, PitchState},
    pitch::{
        LagReader, PitchLag, UpperLag,
        search::{OpenLoopLag, Search, SearchedPitch, Subframe},
    },
};

fn open_loop(lags: [u16; 2]) -> [OpenLoopLag; 2] {
    lags.map(|lag| OpenLoopLag::try_new(lag).expect("a lag"))
}

/// A search in which every word is 0, with the lags 80 and 100.
fn silent(searcher: &mut Search, subframe: Subframe) -> Result<SearchedPitch, Refusal> {
    let lags = open_loop([80, 100]);
    searcher.search(&SILENT_EXCITATION, &SILENCE, &SILENCE, lags, subframe)
}

fn silent_answer(searcher: PitchState, lags: [u16; 2], subframe: u8) -> PitchAnswer {
    on_silence(entries::pitch_search, searcher, lags, subframe)
}

fn state(samples: u16, next: u8, start: u16) -> PitchState {
    PitchState {
        samples,
        fraction: 0,
        next,
        upper: 143,
        start,
    }
}

fn player_state(samples: u16, next: u8, start: u16) -> PitchState {
    let upper = 120;
    PitchState {
        upper,
        ..state(samples, next, start)
    }
}

/// Index, whole lag and thirds.
fn numbers(pitch: SearchedPitch) -> (u8, u16, i16) {
    let SearchedPitch { lag, index } = pitch;
    (index, lag.samples(), lag.fraction().thirds())
}

fn lag_numbers(lag: PitchLag) -> (u16, i16) {
    (lag.samples(), lag.fraction().thirds())
}

#[test]
fn fresh_and_reset_have_start_0() -> Result<(), Refusal> {
    assert_eq!(entries::fresh_pitch(), state(40, 1, 0));
    let mut searcher = Search::default();
    assert_eq!(searcher.start, 0);
    silent(&mut searcher, Subframe::One)?;
    assert_eq!(searcher.start, 77);
    searcher.reset();
    assert_eq!(searcher.start, 0);
    let mut reader = LagReader::default();
    assert_eq!(reader.start, 0);
    reader.read(Subframe::One, 189)?;
    reader.read(Subframe::Two, 5)?;
    assert_eq!(reader.start, 77);
    reader.reset();
    assert_eq!(reader.start, 0);
    Ok(())
}

#[test]
fn a_search_keeps_the_start_of_its_window() -> Result<(), Refusal> {
    let mut searcher = Search::default();
    let mut find = |subframe| {
        let found = silent(&mut searcher, subframe)?;
        Ok((numbers(found), searcher.start))
    };
    assert_eq!(find(Subframe::One)?, ((189, 82, 1), 77));
    assert_eq!(find(Subframe::Two)?, ((27, 85, 1), 77));
    // Around the second open-loop lag.
    assert_eq!(find(Subframe::Three)?, ((215, 103, 0), 97));
    assert_eq!(find(Subframe::Four)?, ((27, 106, 1), 98));
    assert_eq!(find(Subframe::One)?, ((189, 82, 1), 77));
    Ok(())
}

#[test]
fn a_reading_keeps_the_start_that_it_used() -> Result<(), Refusal> {
    let mut reader = LagReader::default();
    let mut read = |subframe, index| {
        let lag = reader.read(subframe, index)?;
        Ok((lag_numbers(lag), reader.start))
    };
    assert_eq!(read(Subframe::One, 189)?, ((82, 1), 0));
    assert_eq!(read(Subframe::Two, 27)?, ((85, 1), 77));
    assert_eq!(read(Subframe::Three, 215)?, ((103, 0), 0));
    assert_eq!(read(Subframe::Four, 0)?, ((97, 1), 98));
    assert_eq!(read(Subframe::One, 2)?, ((20, 0), 0));
    Ok(())
}

#[test]
fn starts_are_held() {
    for (lag, start) in [
        (20, 20),
        (23, 20),
        (24, 21),
        (57, 54),
        (139, 136),
        (140, 137),
        (141, 137),
        (143, 137),
    ] {
        assert_eq!(silent_answer(state(40, 1, 0), [lag, 80], 1).start, start);
        assert_eq!(silent_answer(state(40, 3, 0), [80, lag], 3).start, start);
    }
    for (previous, start) in [
        (0, 20),
        (4, 20),
        (19, 20),
        (25, 20),
        (26, 21),
        (82, 77),
        (138, 133),
        (139, 134),
        (140, 134),
        (144, 134),
        (u16::MAX, 134),
    ] {
        for subframe in [2, 4] {
            let kept = state(previous, subframe, 0);
            assert_eq!(silent_answer(kept, [80, 80], subframe).start, start);
            for index in [0, 5, 31] {
                assert_eq!(entries::read_lag(kept, subframe, index).start, start);
            }
        }
    }
}

#[test]
fn a_players_starts_are_held_lower() {
    for (lag, start) in [
        (20, 20),
        (23, 20),
        (24, 21),
        (57, 54),
        (116, 113),
        (117, 114),
        (118, 114),
        (120, 114),
    ] {
        let one = silent_answer(player_state(40, 1, 0), [lag, 80], 1);
        let three = silent_answer(player_state(40, 3, 0), [80, lag], 3);
        assert_eq!([one.start, three.start], [start; 2]);
        assert_eq!([one.upper, three.upper], [120; 2]);
    }
    for (previous, start) in [
        (0, 20),
        (19, 20),
        (25, 20),
        (26, 21),
        (82, 77),
        (115, 110),
        (116, 111),
        (117, 111),
        (121, 111),
        (143, 111),
        (u16::MAX, 111),
    ] {
        for subframe in [2, 4] {
            let kept = player_state(previous, subframe, 0);
            let found = silent_answer(kept, [80, 80], subframe);
            assert_eq!((found.start, found.upper), (start, 120));
            for index in [0, 5, 31] {
                let read = entries::read_lag(kept, subframe, index);
                assert_eq!((read.start, read.upper), (start, 120));
            }
        }
    }
}

#[test]
fn every_upper_lag_but_120_is_taken_as_the_handset() {
    for upper in [0, 1, 119, 121, 142, 143, 144, 255] {
        let given = PitchState {
            upper,
            ..state(130, 1, 0)
        };
        let found = silent_answer(given, [143, 80], 1);
        assert_eq!((found.number, found.start, found.upper), (0, 137, 143));
        let refused = silent_answer(given, [144, 80], 1);
        assert_eq!((refused.number, refused.state()), (3, given));
        let two = PitchState { next: 2, ..given };
        let found = silent_answer(two, [80, 80], 2);
        assert_eq!((found.number, found.start, found.upper), (0, 125, 143));
        let read = entries::read_lag(two, 2, 0);
        assert_eq!((read.number, read.start, read.upper), (0, 125, 143));
    }
}

#[test]
fn fresh_and_reset_keep_the_upper_lag() -> Result<(), Refusal> {
    assert_eq!(entries::fresh_player(), player_state(40, 1, 0));
    assert_eq!(UpperLag::Player.samples(), 120);
    assert_eq!(UpperLag::Handset.samples(), 143);
    for (mut searcher, mut reader, upper) in [
        (Search::player(), LagReader::player(), UpperLag::Player),
        (Search::default(), LagReader::default(), UpperLag::Handset),
    ] {
        assert_eq!([searcher.upper, reader.upper], [upper; 2]);
        assert_eq!(
            [searcher.previous, reader.previous],
            [PitchLag::from_absolute(62); 2]
        );
        assert_eq!([searcher.next, reader.next], [Subframe::One; 2]);
        assert_eq!([searcher.start, reader.start], [0; 2]);
        let fresh = (searcher.clone(), reader.clone());
        for subframe in [Subframe::One, Subframe::Two] {
            let sent = silent(&mut searcher, subframe)?;
            reader.read(subframe, sent.index)?;
            assert_eq!([searcher.upper, reader.upper], [upper; 2]);
        }
        assert_ne!((&searcher, &reader), (&fresh.0, &fresh.1));
        searcher.reset();
        reader.reset();
        assert_eq!((searcher, reader), fresh);
    }
    Ok(())
}

#[test]
fn a_player_is_read_back() -> Result<(), Refusal> {
    let (mut searcher, mut reader) = (Search::player(), LagReader::player());
    let mut find = |subframe, lags| {
        let excitation = &SILENT_EXCITATION;
        let sent = searcher.search(excitation, &SILENCE, &SILENCE, open_loop(lags), subframe)?;
        assert_eq!(reader.read(subframe, sent.index)?, sent.lag);
        assert_eq!(searcher.previous, reader.previous);
        Ok((numbers(sent), searcher.start, reader.start))
    };
    let lags = [120, 118];
    assert_eq!(find(Subframe::One, lags)?, ((232, 120, 0), 114, 0));
    assert_eq!(find(Subframe::Two, lags)?, ((27, 119, 1), 111, 111));
    assert_eq!(find(Subframe::Three, lags)?, ((232, 120, 0), 114, 0));
    assert_eq!(find(Subframe::Four, lags)?, ((27, 119, 1), 111, 111));
    let lags = [80, 100];
    assert_eq!(find(Subframe::One, lags)?, ((189, 82, 1), 77, 0));
    assert_eq!(find(Subframe::Two, lags)?, ((27, 85, 1), 77, 77));
    assert_eq!(find(Subframe::Three, lags)?, ((215, 103, 0), 97, 0));
    assert_eq!(find(Subframe::Four, lags)?, ((27, 106, 1), 98, 98));
    Ok(())
}

#[test]
fn a_players_reader_takes_every_absolute_index() -> Result<(), Refusal> {
    for index in 0..=255 {
        for subframe in [Subframe::One, Subframe::Three] {
            let mut reader = LagReader::player();
            reader.next = subframe;
            let lag = reader.read(subframe, index)?;
            assert_eq!(lag, PitchLag::from_absolute(index));
            assert_eq!((reader.previous, reader.start), (lag, 0));
        }
    }
    let mut reader = LagReader::player();
    let mut read = |subframe, index| {
        let lag = reader.read(subframe, index)?;
        Ok((lag_numbers(lag), reader.start))
    };
    assert_eq!(read(Subframe::One, 255)?, ((143, 0), 0));
    assert_eq!(read(Subframe::Two, 31)?, ((121, -1), 111));
    assert_eq!(read(Subframe::Three, 233)?, ((121, 0), 0));
    assert_eq!(read(Subframe::Four, 0)?, ((110, 1), 111));
    Ok(())
}

#[test]
fn a_relative_index_by_itself_is_read_as_a_handset_reads_it() -> Result<(), Refusal> {
    let previous = PitchLag::from_absolute(255);
    assert_eq!(lag_numbers(previous), (143, 0));
    // From 134.
    let lag = PitchLag::from_relative(0, previous)?;
    assert_eq!(lag_numbers(lag), (133, 1));
    let lag = PitchLag::from_relative(31, previous)?;
    assert_eq!(lag_numbers(lag), (144, -1));
    Ok(())
}

#[test]
fn a_reader_of_another_upper_lag_reads_another_lag() -> Result<(), Refusal> {
    let (mut searcher, mut handset) = (Search::player(), LagReader::default());
    let mut find = |subframe| {
        let lags = open_loop([120, 120]);
        let sent = searcher.search(&SILENT_EXCITATION, &SILENCE, &SILENCE, lags, subframe)?;
        let read = handset.read(subframe, sent.index)?;
        Ok((lag_numbers(sent.lag), lag_numbers(read)))
    };
    assert_eq!(find(Subframe::One)?, ((120, 0), (120, 0)));
    // From 111, and from 115.
    assert_eq!(find(Subframe::Two)?, ((119, 1), (123, 1)));
    Ok(())
}

#[test]
fn a_damaged_index_behind_an_intact_one_leaves_the_reader_the_start() -> Result<(), Refusal> {
    let (mut searcher, mut reader) = (Search::default(), LagReader::default());
    let sent = silent(&mut searcher, Subframe::One)?;
    assert_eq!((sent.index, searcher.start), (189, 77));
    reader.read(Subframe::One, sent.index)?;
    assert_eq!(reader.start, 0);
    let sent = silent(&mut searcher, Subframe::Two)?;
    assert_eq!((sent.index, searcher.start), (27, 77));
    let lag = reader.read(Subframe::Two, 5)?;
    assert_eq!((lag_numbers(lag), reader.start), ((78, 0), 77));
    Ok(())
}

#[test]
fn an_index_behind_a_damaged_one_is_read_from_another_start() -> Result<(), Refusal> {
    let (mut searcher, mut reader) = (Search::default(), LagReader::default());
    silent(&mut searcher, Subframe::One)?;
    let lag = reader.read(Subframe::One, 0)?;
    assert_eq!((lag_numbers(lag), reader.start), ((19, 1), 0));
    let sent = silent(&mut searcher, Subframe::Two)?;
    reader.read(Subframe::Two, sent.index)?;
    assert_eq!([searcher.start, reader.start], [77, 20]);
    Ok(())
}

#[test]
fn a_refusal_keeps_the_start() -> Result<(), Refusal> {
    let (mut searcher, mut reader) = (Search::default(), LagReader::default());
    for subframe in [Subframe::One, Subframe::Two] {
        let sent = silent(&mut searcher, subframe)?;
        reader.read(subframe, sent.index)?;
    }
    for subframe in [Subframe::One, Subframe::Two, Subframe::Four] {
        let refused = silent(&mut searcher, subframe).map_err(|refusal| refusal.number);
        assert_eq!((refused, searcher.start), (Err(4), 77));
        let refused = reader.read(subframe, 0).map_err(|refusal| refusal.number);
        assert_eq!((refused, reader.start), (Err(4), 77));
    }
    reader.next = Subframe::Four;
    reader.start = 7;
    let refused = reader
        .read(Subframe::Four, 32)
        .map_err(|refusal| refusal.number);
    assert_eq!((refused, reader.start), (Err(5), 7));
    Ok(())
}

#[test]
fn a_start_that_is_handed_in_changes_no_answer() {
    for start in [0, 7, 77, u16::MAX] {
        let given = state(82, 1, start);
        for (lags, subframe, number) in [([80, 80], 5, 2), ([80, 19], 1, 3), ([80, 80], 2, 4)] {
            let refused = silent_answer(given, lags, subframe);
            assert_eq!((refused.number, refused.state()), (number, given));
        }
        let refused = entries::pitch_search(given, &[], &SILENCE, &SILENCE, 80, 80, 1);
        assert_eq!((refused.number, refused.state()), (1, given));
        let refused = entries::read_lag(given, 2, 0);
        assert_eq!((refused.number, refused.state()), (4, given));
        let relative = state(82, 2, start);
        let refused = entries::read_lag(relative, 2, 32);
        assert_eq!((refused.number, refused.state()), (5, relative));

        let found = silent_answer(given, [80, 80], 1);
        assert_eq!((found.number, found.index, found.start), (0, 189, 77));
        let found = silent_answer(relative, [80, 80], 2);
        assert_eq!((found.number, found.index, found.start), (0, 27, 77));
        let read = entries::read_lag(given, 1, 0);
        assert_eq!((read.number, read.samples, read.start), (0, 19, 0));
        let read = entries::read_lag(relative, 2, 0);
        assert_eq!((read.number, read.samples, read.start), (0, 76, 77));
    }
}

#[test]
fn a_lag_lies_in_its_window() -> Result<(), Refusal> {
    lags_lie_in_their_windows(Search::default(), LagReader::default(), 1)?;
    lags_lie_in_their_windows(Search::player(), LagReader::player(), 2)
}

/// In subframes one and three the sent index arrives at the reader, in two and four any: there both
/// have the same start.
fn lags_lie_in_their_windows(
    mut searcher: Search,
    mut reader: LagReader,
    seed: u32,
) -> Result<(), Refusal> {
    const FRAMES: usize = 500;
    let upper = searcher.upper.samples();
    let mut drawn = Drawn(seed);
    let mut met = [false; 12];
    for _ in 0..FRAMES {
        let lags = [(); 2].map(|()| 20 + drawn.below(u32::from(upper) - 19) as u16);
        for subframe in SUBFRAMES {
            let previous = searcher.previous.samples();
            let (excitation, target) = (drawn.words(), drawn.words());
            let impulse = drawn.words();
            let sent =
                searcher.search(&excitation, &target, &impulse, open_loop(lags), subframe)?;
            let start = match subframe {
                Subframe::One => (lags[0] - 3).clamp(20, upper - 6),
                Subframe::Three => (lags[1] - 3).clamp(20, upper - 6),
                Subframe::Two | Subframe::Four => (previous - 5).clamp(20, upper - 9),
            };
            assert_eq!(searcher.start, start);
            let lag = sent.lag.samples();
            assert!((start - 1..=start + 10).contains(&lag), "{lag} of {start}");
            met[usize::from(lag + 1 - start)] = true;
            match subframe {
                Subframe::One | Subframe::Three => {
                    reader.read(subframe, sent.index)?;
                    assert_eq!(reader.start, 0);
                }
                Subframe::Two | Subframe::Four => {
                    let lag = reader.read(subframe, drawn.below(32) as u8)?.samples();
                    assert_eq!(reader.start, start);
                    assert!((start - 1..=start + 10).contains(&lag), "{lag} of {start}");
                }
            }
        }
    }
    // Every lag of a window was answered, and one more on either side.
    assert_eq!(met, [true; 12]);
    Ok(())
}
