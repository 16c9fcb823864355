//! The closed-loop search, a handset's and a player's: chains of calls, where each side goes on from
//! its own state. Before each step the library makes previews, which the published Rust never sees.

use crate::{
    calls::{Call, Lists, Step, step},
    cases::{Case, Searched},
    chains::Chain,
    codec::mr74::pitch::{
        Fraction, PitchLag,
        search::{OpenLoopLag, Search, SearchedPitch, Subframe},
    },
    compare::{Function, Line, in_threads},
    counts::Cases,
    feed,
    previews::{Others, Previews},
    project::{Answer, PitchAnswer, PitchState, Searching, pitch_search},
    subframes::{Refusal, answer, number, pitch_state, searched_start, subframe},
    upper::Upper,
};
use std::fmt;

const CHAINS: u64 = 24_000;

/// The published search of an upper lag, and the start of its last window, which it does not keep.
#[derive(Debug, Clone, Default, PartialEq, Eq)]
pub struct Searcher {
    pub search: Search,
    pub upper: Upper,
    pub start: u16,
}

impl Searcher {
    pub fn fresh(upper: Upper) -> Self {
        let mut searcher = Self {
            upper,
            ..Self::default()
        };
        searcher.reset();
        searcher
    }

    /// The searcher in a state, unless its expected subframe is none.
    pub fn of(given: PitchState) -> Result<Self, Refusal> {
        Ok(Self {
            search: Search {
                previous: previous(given),
                next: subframe(given.next)?,
            },
            upper: Upper::of(given.upper),
            start: given.start,
        })
    }

    /// A reset keeps the upper lag.
    pub fn reset(&mut self) {
        self.upper.reset(&mut self.search);
        self.start = 0;
    }

    pub fn state(&self) -> PitchState {
        let Search { previous, next } = self.search;
        pitch_state(self.upper, previous, number(next), self.start)
    }

    /// The published answer. A refusal keeps the start.
    pub fn searched(&mut self, call: &Call) -> Result<SearchedPitch, Refusal> {
        let before = self.clone();
        Ok(published(&before, self, call)?.answer)
    }

    /// The published answer on lists and to numbers that were checked. A refusal keeps the start.
    pub fn found(
        &mut self,
        lists: Lists<'_>,
        open_loop: [OpenLoopLag; 2],
        subframe: Subframe,
    ) -> Result<SearchedPitch, Refusal> {
        let before = self.clone();
        let upper = self.upper;
        let answer = upper.search(&mut self.search, lists, open_loop, subframe)?;
        self.start = searched_start(&before, open_loop, subframe, answer);
        Ok(answer)
    }
}

/// No answer depends on the fraction.
pub fn previous(state: PitchState) -> PitchLag {
    PitchLag {
        samples: state.samples,
        fraction: Fraction::Zero,
    }
}

pub fn functions() -> [Function; 1] {
    [Function {
        name: "search",
        compare: || compare_chains(Upper::Handset),
    }]
}

/// What was compared, and which cases were met.
struct Tally {
    answers: Line,
    states: Line,
    lags: Line,
    /// What a player answers where the handset's copy must answer the same.
    unchanged: Line,
    cases: Cases<Case>,
    previews: Previews,
}

impl Tally {
    fn new() -> Self {
        Self {
            answers: Line::new("pitch/search.rs, answers"),
            states: Line::new("pitch/search.rs, states after"),
            lags: Line::new("rule of 02, lag from start - 1 to start + 10"),
            unchanged: Line::new("unchanged pitch/search.rs, where 120 lowers no window"),
            cases: Cases::new(),
            previews: Previews::new(),
        }
    }

    fn add(&mut self, part: Tally) {
        self.answers.add(part.answers);
        self.states.add(part.states);
        self.lags.add(part.lags);
        self.unchanged.add(part.unchanged);
        self.cases.add(part.cases);
        self.previews.add(part.previews);
    }

    /// Compares the answer and then the state after the step, which it gives. Where the states
    /// differ the library goes on from the published one, so that one difference brings no others.
    fn compare_step(
        &mut self,
        place: &Place<'_>,
        mut ours: PitchState,
        searcher: &mut Searcher,
    ) -> PitchState {
        match place.step {
            Step::Reset => {
                self.cases.count(Case::Reset);
                if searcher.start != 0 {
                    self.cases.count(Case::ResetStart);
                }
                searcher.reset();
                ours = searcher.upper.fresh();
            }
            Step::Search(call) => {
                let library = called(pitch_search, ours, call);
                if let Some(unchanged) = unchanged(searcher, call) {
                    self.compare_unchanged(place, &library, &unchanged);
                }
                let expected = expected(&mut self.cases, place.case, searcher, call);
                let answers = (Answer::from(library), Answer::from(expected));
                self.answers.compared += 1;
                if answers.0 != answers.1 {
                    self.answers
                        .difference(place.chain, place, &answers.0, &answers.1);
                }
                if library.number == 0 {
                    self.compare_lag(place, &library);
                }
                ours = library.state();
            }
        }
        let after = searcher.state();
        self.states.compared += 1;
        if ours != after {
            self.states.difference(place.chain, place, &ours, &after);
        }
        after
    }

    fn compare_unchanged(
        &mut self,
        place: &Place<'_>,
        library: &PitchAnswer,
        unchanged: &PitchAnswer,
    ) {
        self.unchanged.compared += 1;
        if library != unchanged {
            self.unchanged
                .difference(place.chain, place, library, unchanged);
        }
    }

    /// Compares an accepted lag with the start that is kept with it.
    fn compare_lag(&mut self, place: &Place<'_>, library: &PitchAnswer) {
        let start = i32::from(library.start);
        let lags = start - 1..=start + 10;
        self.lags.compared += 1;
        if !lags.contains(&library.samples.into()) {
            self.lags
                .difference(place.chain, place, &library.samples, &lags);
        }
    }
}

/// Compares the searcher of this upper lag.
pub fn compare_chains(upper: Upper) -> Vec<Line> {
    let feed = feed::steps("searches", step, |step| matches!(step, Step::Search(_)));
    let mut tally = Tally::new();
    let parts = in_threads(CHAINS, Tally::new, |tally, chains| {
        for index in chains {
            compare_chain(tally, upper, index, &feed);
        }
    });
    for part in parts {
        tally.add(part);
    }
    let asked = |case: Case| case.is_of(upper) && (!feed.is_empty() || !case.needs_feed());
    let cases = Line::of_cases(tally.cases.counts(asked));
    let mut lines = vec![tally.answers, tally.states, tally.lags];
    if upper == Upper::Player {
        lines.push(tally.unchanged);
    }
    lines.push(cases);
    lines.extend(tally.previews.lines(upper));
    lines
}

/// A step of a chain, as a report shows it.
pub struct Place<'a> {
    pub chain: u64,
    pub number: usize,
    /// What an accepted search counts as.
    case: Case,
    before: PitchState,
    pub step: &'a Step,
}

impl fmt::Debug for Place<'_> {
    fn fmt(&self, f: &mut fmt::Formatter<'_>) -> fmt::Result {
        let Self { chain, number, .. } = self;
        write!(f, "chain {chain} step {number} {:?}", self.before)?;
        match self.step {
            Step::Reset => write!(f, " reset"),
            Step::Search(call) => write!(f, " {call:?}"),
        }
    }
}

fn compare_chain(tally: &mut Tally, upper: Upper, index: u64, feed: &[Step]) {
    let mut chain = Chain::at(index, feed);
    let mut others = Others::beside(index, CHAINS, feed);
    let mut searcher = Searcher::fresh(upper);
    let mut ours = upper.fresh();
    let mut number = 0;
    while let Some(step) = chain.next(&searcher) {
        number += 1;
        let place = Place {
            chain: index,
            number,
            case: chain.case(),
            before: searcher.state(),
            step: &step,
        };
        ours = tally.previews.compare(&place, ours, &searcher, &mut others);
        ours = tally.compare_step(&place, ours, &mut searcher);
    }
}

/// What the library's search, or its preview, answers to a call.
pub fn called(searching: Searching, state: PitchState, call: &Call) -> PitchAnswer {
    searching(
        state,
        &call.excitation,
        &call.target,
        &call.impulse,
        call.open_loop,
        call.subframe,
    )
}

/// The published answer in the form of the library's. Its cases are counted, `case` with them if
/// the call is accepted.
fn expected(
    cases: &mut Cases<Case>,
    case: Case,
    searcher: &mut Searcher,
    call: &Call,
) -> PitchAnswer {
    let before = searcher.clone();
    let searched = published(&before, searcher, call);
    match &searched {
        Ok(searched) => {
            cases.count(case);
            cases.count_found(&searched.cases());
        }
        Err(refusal) => {
            cases.count(Case::of_refusal(*refusal));
            cases.count(Case::of_kept(searcher.start));
            if let Some(case) = Case::of_refused_lag(*refusal, call) {
                cases.count(case);
            }
            assert_eq!(
                before, *searcher,
                "a refusal leaves the published search alone"
            );
        }
    }
    answered(searched.map(|searched| searched.answer), searcher)
}

/// The answer in the form of the library's, and the searcher after it.
pub fn answered(found: Result<SearchedPitch, Refusal>, after: &Searcher) -> PitchAnswer {
    answer(found.map(|found| (found.index, found.lag)), after.state())
}

/// What the handset's copy answers, but for the upper lag, where the player's limit makes no
/// difference: neither lag of the call is above 120, and no window is lowered, because its centre is
/// at most 117 in subframes 1 and 3, and at most 116 in 2 and 4.
fn unchanged(player: &Searcher, call: &Call) -> Option<PitchAnswer> {
    let [first, second] = call.open_loop;
    let unlowered = match call.subframe {
        1 => first <= 117,
        3 => second <= 117,
        _ => player.search.previous.samples() <= 116,
    };
    if player.upper == Upper::Handset || first > 120 || second > 120 || !unlowered {
        return None;
    }
    let mut handset = Searcher {
        upper: Upper::Handset,
        ..player.clone()
    };
    let found = handset.searched(call);
    Some(PitchAnswer {
        upper: player.upper.number(),
        ..answered(found, &handset)
    })
}

/// The published search, with the checks of 01 that its types make needless.
pub fn published<'a>(
    before: &'a Searcher,
    searcher: &mut Searcher,
    call: &'a Call,
) -> Result<Searched<'a>, Refusal> {
    let lists = call.lists()?;
    let subframe = subframe(call.subframe)?;
    let open_loop = before.upper.open_loop(call.open_loop)?;
    let answer = searcher.found(lists, open_loop, subframe)?;
    Ok(Searched {
        before,
        lists,
        open_loop,
        subframe,
        answer,
    })
}
