//! A preview answers as the search on a copy does, refusals too, and the searcher stays as it is.

mod inputs;
mod searches;
mod states;
mod words;

use inputs::{Drawn, SILENCE, SILENT_EXCITATION, SUBFRAMES, on_silence};
use mr74::{
    Refusal,
    entries::{self, PitchAnswer, PitchState},
    pitch::{
        UpperLag,
        search::{Search, SearchedPitch, Subframe},
    },
};
use searches::Inputs;
use states::odd;

fn preview(inputs: &Inputs, searcher: &Search) -> Result<SearchedPitch, Refusal> {
    let (excitation, target, impulse) = (&inputs.excitation, &inputs.target, &inputs.impulse);
    searcher.preview(excitation, target, impulse, inputs.lags, inputs.subframe)
}

#[test]
fn a_preview_answers_as_the_search_on_a_copy() {
    // Accepted, refused by 3, refused by 4.
    let [accepted, by_3, by_4] = previews(Search::default(), 1);
    assert!(accepted > 1000 && by_3 == 0 && by_4 > 200);
    let [accepted, by_3, by_4] = previews(Search::player(), 2);
    assert!(accepted > 700 && by_3 > 500 && by_4 > 100);
}

/// Previews of a chain of searches, with others between them, counted by what they answer.
fn previews(mut searcher: Search, seed: u32) -> [usize; 3] {
    const CALLS: usize = 2000;
    let mut drawn = Drawn(seed);
    let mut met = [0; 3];
    for _ in 0..CALLS {
        let before = searcher.clone();
        let inputs = Inputs::drawn(&mut drawn, before.next);
        let shown = preview(&inputs, &searcher);
        assert_eq!(searcher, before);

        let mut copy = before.clone();
        assert_eq!(shown, inputs.search(&mut copy));
        met[match shown {
            Ok(_) => 0,
            Err(Refusal { number: 3, .. }) => 1,
            Err(Refusal { number, detail }) => {
                assert_eq!((number, detail), (4, before.next.number().into()));
                2
            }
        }] += 1;

        // Another preview, and the same one once more, change nothing for the search.
        let others = Inputs::drawn(&mut drawn, before.next);
        assert_eq!(
            preview(&others, &searcher),
            others.search(&mut before.clone())
        );
        assert_eq!(preview(&inputs, &searcher), shown);
        assert_eq!(searcher, before);
        assert_eq!(inputs.search(&mut searcher), shown);
        assert_eq!(searcher, copy);
    }
    met
}

#[test]
fn an_index_is_shown_and_then_sent() -> Result<(), Refusal> {
    let mut searcher = Search::default();
    let mut start = 0;
    for (subframe, index, after) in [
        (Subframe::One, 189, 77),
        (Subframe::Two, 27, 77),
        (Subframe::Three, 215, 97),
        (Subframe::Four, 27, 98),
    ] {
        let inputs = Inputs::silent([80, 100], subframe);
        assert_eq!(preview(&inputs, &searcher)?.index, index);
        // Of the window before, until the search.
        assert_eq!(searcher.start, start);
        assert_eq!(inputs.search(&mut searcher)?.index, index);
        assert_eq!(searcher.start, after);
        start = after;
    }
    Ok(())
}

#[test]
fn previews_are_refused_by_3_and_4() {
    let refusal = |number, detail| Err(Refusal { number, detail });
    for mut searcher in [Search::default(), Search::player()] {
        for next in SUBFRAMES {
            searcher.next = next;
            for subframe in SUBFRAMES {
                let before = searcher.clone();
                let shown = preview(&Inputs::silent([120, 20], subframe), &searcher);
                match subframe == next {
                    true => assert!(shown.is_ok()),
                    false => assert_eq!(shown, refusal(4, next.number().into())),
                }
                // A player's, before the subframe is looked at.
                let shown = preview(&Inputs::silent([20, 121], subframe), &searcher);
                match (searcher.upper, subframe == next) {
                    (UpperLag::Player, _) => assert_eq!(shown, refusal(3, 121)),
                    (UpperLag::Handset, true) => assert!(shown.is_ok()),
                    (UpperLag::Handset, false) => {
                        assert_eq!(shown, refusal(4, next.number().into()));
                    }
                }
                assert_eq!(searcher, before);
            }
        }
    }
}

/// The preview of silence and the search of it.
fn both(given: PitchState, lags: [u16; 2], subframe: u8) -> [PitchAnswer; 2] {
    [entries::preview, entries::pitch_search].map(|entry| on_silence(entry, given, lags, subframe))
}

/// All but the state.
fn answer(of: PitchAnswer) -> (u8, u64, u8, u16, i16) {
    (of.number, of.magnitude, of.index, of.samples, of.fraction)
}

#[test]
fn a_shown_state_is_handed_back_whatever_its_numbers_are() {
    for upper in [0, 7, 120, 143, 255] {
        for next in 0..=6 {
            let given = odd(next, upper);
            let mut accepted = 0;
            for lags in [[80, 100], [120, 121], [19, 144]] {
                for subframe in 0..=6 {
                    let [shown, found] = both(given, lags, subframe);
                    assert_eq!(answer(shown), answer(found));
                    assert_eq!(shown.state(), given);
                    // An accepted search keeps none of these numbers as they were given.
                    assert_eq!(found.number == 0, found.state() != given);
                    accepted += usize::from(shown.number == 0);
                }
            }
            let known = (1..=4).contains(&next);
            let takes = if upper == 120 { 1 } else { 2 };
            assert_eq!(accepted, if known { takes } else { 0 });
        }
    }
}

#[test]
fn previews_are_refused_by_1_and_2_first() {
    let given = PitchState {
        samples: 7,
        fraction: 5,
        next: 5,
        upper: 120,
        start: u16::MAX,
    };
    let lengths = |excitation: &[i16], target: &[i16], impulse: &[i16]| {
        let shown = entries::preview(given, excitation, target, impulse, 121, 19, 6);
        assert_eq!(shown.state(), given);
        (shown.number, shown.magnitude)
    };
    let (excitation, words) = (&SILENT_EXCITATION, &SILENCE);
    assert_eq!(lengths(&excitation[1..], &[], &[]), (1, 193));
    assert_eq!(lengths(excitation, &words[2..], &[]), (1, 38));
    assert_eq!(lengths(excitation, words, &[]), (1, 0));
    assert_eq!(lengths(excitation, words, words), (2, 6));
    for (next, subframe, number, detail) in [(5, 1, 2, 5), (1, 2, 3, 121), (2, 2, 3, 121)] {
        let [shown, found] = both(PitchState { next, ..given }, [121, 19], subframe);
        assert_eq!((shown.number, shown.magnitude), (number, detail));
        assert_eq!(shown, found);
    }
    let [shown, found] = both(PitchState { next: 3, ..given }, [120, 20], 2);
    assert_eq!((shown.number, shown.magnitude), (4, 3));
    assert_eq!(shown, found);
}
