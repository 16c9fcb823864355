//! Previews in the chains of the search, a handset's and a player's. The library's answer is compared
//! with that of the search which a copy of the published searcher makes, and the state that it hands
//! back with the one that it was given.

use crate::{
    calls::{Call, Step},
    chains::Chain,
    compare::Line,
    counts::{Cases, Found, cases},
    inputs::Random,
    project::{self, Answer, PitchState},
    search::{Place, Searcher, answered, called},
    subframes::{Refusal, number, subframe},
    upper::Upper,
};
use std::fmt;

/// Before one of so many steps there are previews of other calls, at most so many.
const OTHERS_OF: u64 = 4;
const OTHERS: u64 = 3;

cases! {
    Subframe1 => "preview accepted in subframe 1",
    Subframe2 => "preview accepted in subframe 2",
    Subframe3 => "preview accepted in subframe 3",
    Subframe4 => "preview accepted in subframe 4",
    Refusal1 => "preview refused by 1",
    Refusal2 => "preview refused by 2",
    Refusal3 => "preview refused by 3",
    Refusal4 => "preview refused by 4",
    LagAndOrder => "preview refused by 3 in a subframe that is not the expected one",
    From121 => "preview refused by 3 of a lag of 121 to 143",
    Fresh => "preview of a fresh searcher",
    Row => "preview directly after another",
    Again => "preview directly after one of the same call",
    OtherCall => "preview of another call directly before a search",
    OtherSubframe => "preview of another subframe directly before a search",
    BeforeReset => "preview directly before a reset",
}

impl Case {
    /// Whether searches of this upper lag meet the case.
    fn is_of(self, upper: Upper) -> bool {
        upper == Upper::Player || !matches!(self, Self::From121)
    }

    fn of_subframe(number: u8) -> Self {
        match number {
            1 => Self::Subframe1,
            2 => Self::Subframe2,
            3 => Self::Subframe3,
            _ => Self::Subframe4,
        }
    }

    fn of_refusal(refusal: Refusal) -> Self {
        match refusal.number {
            1 => Self::Refusal1,
            2 => Self::Refusal2,
            3 => Self::Refusal3,
            _ => Self::Refusal4,
        }
    }
}

/// Calls that are previewed beside a chain. They are drawn by themselves, so the chain has the same
/// steps with them and without.
pub struct Others<'a> {
    random: Random,
    chain: Chain<'a>,
}

impl<'a> Others<'a> {
    /// Those beside the chain of this index, of so many chains.
    pub fn beside(index: u64, chains: u64, feed: &'a [Step]) -> Self {
        let index = chains + index;
        Self {
            random: Random::at(!index),
            chain: Chain::at(index, feed),
        }
    }

    /// The calls to preview before this step, often none. The step's own call is added at any place.
    fn with_own(&mut self, searcher: &Searcher, step: &Step) -> Vec<Call> {
        let mut calls = self.calls(searcher, step);
        if let Step::Search(own) = step {
            let place = self.random.below(calls.len() as u64 + 1);
            calls.insert(place as usize, own.clone());
        }
        calls
    }

    /// The calls to preview before this step, often none.
    pub fn calls(&mut self, searcher: &Searcher, step: &Step) -> Vec<Call> {
        let calls = match self.random.below(OTHERS_OF) {
            0 => 1 + self.random.below(OTHERS),
            _ => 0,
        };
        (0..calls).map(|_| self.call(searcher, step)).collect()
    }

    /// The call of this step or another, as it is or with faults.
    fn call(&mut self, searcher: &Searcher, step: &Step) -> Call {
        let mut call = match step {
            Step::Search(own) if self.random.below(2) == 0 => own.clone(),
            _ => self.chain.call(searcher),
        };
        if self.random.below(2) == 0 {
            let expected = number(searcher.search.next);
            call.add_faults(&mut self.random, expected, searcher.upper);
        }
        call
    }
}

/// What was compared, and which cases were met.
pub struct Previews {
    answers: Line,
    states: Line,
    cases: Cases<Case>,
}

impl Previews {
    pub fn new() -> Self {
        Self {
            answers: Line::new("pitch/search.rs on a copy, answers of previews"),
            states: Line::new("the state given, states after previews"),
            cases: Cases::new(),
        }
    }

    pub fn add(&mut self, part: Self) {
        self.answers.add(part.answers);
        self.states.add(part.states);
        self.cases.add(part.cases);
    }

    pub fn lines(self, upper: Upper) -> [Line; 3] {
        let cases = Line::of_cases(self.cases.counts(|case| case.is_of(upper)));
        [self.answers, self.states, cases]
    }

    /// Compares the previews before a step, each on the state that the one before it hands back,
    /// and gives the state that the last hands back.
    pub fn compare(
        &mut self,
        place: &Place<'_>,
        mut ours: PitchState,
        searcher: &Searcher,
        others: &mut Others<'_>,
    ) -> PitchState {
        let calls = others.with_own(searcher, place.step);
        for (before, call) in calls.iter().enumerate() {
            let preview = Preview {
                place,
                given: ours,
                call,
                before: calls[..before].last(),
            };
            ours = self.compare_preview(&preview, searcher);
        }
        if let Some(last) = calls.last() {
            self.cases.count_found(&cases_of_last(last, place.step));
        }
        ours
    }

    fn compare_preview(&mut self, preview: &Preview<'_>, searcher: &Searcher) -> PitchState {
        let found = searcher.clone().searched(preview.call);
        self.cases.count_found(&preview.cases(&found, searcher));
        let library = called(project::preview, preview.given, preview.call);
        let answers = [library, answered(found, searcher)].map(Answer::from);
        self.answers.compared += 1;
        if answers[0] != answers[1] {
            self.answers
                .difference(preview.place.chain, preview, &answers[0], &answers[1]);
        }
        let after = library.state();
        self.states.compared += 1;
        if after != preview.given {
            self.states
                .difference(preview.place.chain, preview, &after, &preview.given);
        }
        after
    }
}

/// A preview of a chain, as a report shows it.
struct Preview<'a> {
    /// The step that it comes before.
    place: &'a Place<'a>,
    given: PitchState,
    call: &'a Call,
    /// The call of the preview directly before it.
    before: Option<&'a Call>,
}

impl fmt::Debug for Preview<'_> {
    fn fmt(&self, f: &mut fmt::Formatter<'_>) -> fmt::Result {
        let Place { chain, number, .. } = self.place;
        write!(f, "chain {chain} before step {number} {:?}", self.given)?;
        write!(f, " preview {:?}", self.call)
    }
}

impl Preview<'_> {
    fn cases<T>(&self, found: &Result<T, Refusal>, searcher: &Searcher) -> Found<Case> {
        let mut met = Found::new();
        match found {
            Ok(_) => met.case(Case::of_subframe(self.call.subframe), true),
            Err(refusal) => self.find_refusal_cases(&mut met, *refusal, searcher),
        }
        met.case(Case::Fresh, *searcher == Searcher::fresh(searcher.upper));
        met.case(Case::Row, self.before.is_some());
        met.case(Case::Again, self.before == Some(self.call));
        met
    }

    fn find_refusal_cases(&self, met: &mut Found<Case>, refusal: Refusal, searcher: &Searcher) {
        met.case(Case::of_refusal(refusal), true);
        if refusal.number == 3 {
            let expected = self.call.subframe == number(searcher.search.next);
            met.case(Case::LagAndOrder, !expected);
            met.case(Case::From121, (121..=143).contains(&refusal.detail));
        }
    }
}

/// The cases of the last preview before a step.
fn cases_of_last(call: &Call, step: &Step) -> Found<Case> {
    let mut met = Found::new();
    match step {
        Step::Reset => met.case(Case::BeforeReset, true),
        Step::Search(own) => {
            let other = subframe(call.subframe).is_ok() && call.subframe != own.subframe;
            met.case(Case::OtherCall, call != own);
            met.case(Case::OtherSubframe, other);
        }
    }
    met
}
