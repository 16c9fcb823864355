//! The cases that the comparison of frames must meet.

use super::frame::{Frame, LISTS, Parts, States};
use crate::{
    cases::Case as Searches,
    compare::Line,
    counts::{Cases, Found, cases},
    open_loop::Case as Pushes,
    project::PitchState,
    refusals::{Refusals, refused},
    subframes::{Refusal, subframe},
    upper::Upper,
};

#[rustfmt::skip]
const REFUSALS: [[&str; 2]; LISTS] = refused!(
    "samples",
    "excitation of subframe 1", "target of subframe 1", "impulse response of subframe 1",
    "excitation of subframe 2", "target of subframe 2", "impulse response of subframe 2",
    "excitation of subframe 3", "target of subframe 3", "impulse response of subframe 3",
    "excitation of subframe 4", "target of subframe 4", "impulse response of subframe 4",
    "history"
);

/// Where the words of a frame come from: its samples as those of a push, its sets as those of a
/// search.
pub type Sources = (Pushes, Searches);

cases! {
    Reset => "reset",
    Accepted => "frame accepted",
    Fresh => "frame accepted, fresh detector and searcher",
    InRow => "frame accepted directly after another",
    AfterRefused => "frame accepted directly after a refused one",
    EqualLags => "frame accepted, open-loop lags equal",
    FarLags => "frame accepted, open-loop lags more than 12 apart, their windows apart too",
    First20 => "frame accepted, first open-loop lag 20",
    Second20 => "frame accepted, second open-loop lag 20",
    First120 => "frame accepted, first open-loop lag 120",
    Second120 => "frame accepted, second open-loop lag 120",
    First143 => "frame accepted, first open-loop lag 143",
    Second143 => "frame accepted, second open-loop lag 143",
    AcceptedSamples => "frame accepted, searcher's lag outside 19 to 144",
    AcceptedFraction => "frame accepted, searcher's fraction outside -1 to 1",
    AcceptedStart => "frame accepted, searcher's start outside 20 to 137 and not 0",
    AcceptedUpper => "frame accepted, searcher's upper number not 120 or 143",
    KeptFresh => "frame refused, fresh detector and searcher",
    KeptUsed => "frame refused, detector and searcher of frames before",
    KeptSamples => "frame refused, searcher's lag outside 19 to 144",
    KeptFraction => "frame refused, searcher's fraction outside -1 to 1",
    KeptStart => "frame refused, searcher's start outside 20 to 137 and not 0",
    KeptUpper => "frame refused, searcher's upper number not 120 or 143",
    LengthAndNumber => "frame refused by 1, expected number that is no subframe",
    LengthAndOrder => "frame refused by 1, subframe 2, 3 or 4 expected",
    LengthAndLag => "frame refused by 1, open-loop lag above 120",
    Number0 => "frame refused by 2, expected number 0",
    Number5 => "frame refused by 2, expected number 5",
    NumberAbove5 => "frame refused by 2, expected number above 5",
    NumberAndLag => "frame refused by 2, open-loop lag above 120",
    FirstLag => "frame refused by 3, first open-loop lag alone above 120",
    SecondLag => "frame refused by 3, second open-loop lag alone above 120",
    BothLags => "frame refused by 3, both open-loop lags above 120, and not equal",
    Lag121 => "frame refused by 3, open-loop lag 121",
    Lag143 => "frame refused by 3, open-loop lag 143",
    Order2 => "frame refused by 4, subframe 2 expected",
    Order3 => "frame refused by 4, subframe 3 expected",
    Order4 => "frame refused by 4, subframe 4 expected",
    OrderAndLag => "frame refused by 4, open-loop lag above 120",
}

/// The cases that frames met, the lists for which they were refused, and the sources of those that
/// were accepted.
pub struct Met {
    cases: Cases<Case>,
    refusals: Refusals<LISTS>,
    pushes: Cases<Pushes>,
    searches: Cases<Searches>,
}

impl Met {
    pub fn new() -> Self {
        Self {
            cases: Cases::new(),
            refusals: Refusals::new(REFUSALS),
            pushes: Cases::new(),
            searches: Cases::new(),
        }
    }

    pub fn add(&mut self, part: Self) {
        self.cases.add(part.cases);
        self.refusals.add(part.refusals);
        self.pushes.add(part.pushes);
        self.searches.add(part.searches);
    }

    pub fn line(self, upper: Upper, with_feed: bool) -> Line {
        let mut cases = self.cases.counts(|case| case.is_of(upper));
        cases.extend(self.refusals.counts());
        cases.extend(self.refusals.rarest_alone());
        let pushes = |case: Pushes| case.is_source() && (with_feed || !case.needs_feed());
        let searches = |case: Searches| case.is_source() && (with_feed || !case.needs_feed());
        cases.extend(self.pushes.counts(pushes));
        cases.extend(self.searches.counts(searches));
        Line::of_cases(cases)
    }

    pub fn count_reset(&mut self) {
        self.cases.count(Case::Reset);
    }

    /// Counts what a frame met of which this was found.
    pub fn count(
        &mut self,
        asked: &Asked<'_>,
        found: &Result<Parts, Refusal>,
        (pushes, searches): Sources,
    ) {
        self.cases.count_found(&asked.cases(found));
        match found {
            Ok(_) => {
                self.pushes.count(pushes);
                self.searches.count(searches);
            }
            Err(Refusal { number: 1, .. }) => self.refusals.count(&asked.frame.lengths()),
            Err(_) => {}
        }
    }
}

impl Case {
    /// Whether frames of this upper lag meet the case.
    pub fn is_of(self, upper: Upper) -> bool {
        match self {
            Self::First143 | Self::Second143 | Self::AcceptedUpper | Self::KeptUpper => {
                upper == Upper::Handset
            }
            Self::First120
            | Self::Second120
            | Self::LengthAndLag
            | Self::NumberAndLag
            | Self::FirstLag
            | Self::SecondLag
            | Self::BothLags
            | Self::Lag121
            | Self::Lag143
            | Self::OrderAndLag => upper == Upper::Player,
            _ => true,
        }
    }
}

/// What came before a frame in its chain.
#[derive(Clone, Copy, PartialEq, Eq)]
pub enum Last {
    Reset,
    Accepted,
    Refused,
}

/// A frame, and what it meets.
pub struct Asked<'a> {
    pub frame: &'a Frame,
    pub given: PitchState,
    pub before: &'a States,
    pub last: Last,
}

impl Asked<'_> {
    fn cases(&self, found: &Result<Parts, Refusal>) -> Found<Case> {
        let mut met = Found::new();
        match found {
            Ok(parts) => self.find_accepted_cases(&mut met, parts.lags),
            Err(refusal) => self.find_refused_cases(&mut met, *refusal),
        }
        met
    }

    fn find_accepted_cases(&self, met: &mut Found<Case>, [first, second]: [u16; 2]) {
        met.case(Case::Accepted, true);
        met.case(Case::Fresh, self.is_fresh());
        met.case(Case::InRow, self.last == Last::Accepted);
        met.case(Case::AfterRefused, self.last == Last::Refused);
        met.case(Case::EqualLags, first == second);
        met.case(Case::FarLags, first.abs_diff(second) > 12);
        met.case(Case::First20, first == 20);
        met.case(Case::Second20, second == 20);
        met.case(Case::First120, first == 120);
        met.case(Case::Second120, second == 120);
        met.case(Case::First143, first == 143);
        met.case(Case::Second143, second == 143);
        let [samples, fraction, start, upper] = self.outside();
        met.case(Case::AcceptedSamples, samples);
        met.case(Case::AcceptedFraction, fraction);
        met.case(Case::AcceptedStart, start);
        met.case(Case::AcceptedUpper, upper);
    }

    fn find_refused_cases(&self, met: &mut Found<Case>, Refusal { number, detail }: Refusal) {
        met.case(Case::KeptFresh, self.is_fresh());
        met.case(Case::KeptUsed, self.before.searcher.start != 0);
        let [samples, fraction, start, upper] = self.outside();
        met.case(Case::KeptSamples, samples);
        met.case(Case::KeptFraction, fraction);
        met.case(Case::KeptStart, start);
        met.case(Case::KeptUpper, upper);
        let expected = self.given.next;
        let [length, next, lag, order] = [1, 2, 3, 4].map(|refused| number == refused);
        met.case(Case::LengthAndNumber, length && subframe(expected).is_err());
        met.case(Case::LengthAndOrder, length && (2..=4).contains(&expected));
        met.case(Case::Number0, next && expected == 0);
        met.case(Case::Number5, next && expected == 5);
        met.case(Case::NumberAbove5, next && expected > 5);
        met.case(Case::Order2, order && expected == 2);
        met.case(Case::Order3, order && expected == 3);
        met.case(Case::Order4, order && expected == 4);
        // What the detector would answer, were it asked.
        let mut detector = self.before.detector.clone();
        let [first, second] = self.frame.pushed(&mut detector).unwrap_or_default();
        let above = [first, second].map(|lag| lag > Upper::Player.samples());
        let any = above != [false; 2];
        met.case(Case::LengthAndLag, length && any);
        met.case(Case::NumberAndLag, next && any);
        met.case(Case::OrderAndLag, order && any);
        met.case(Case::FirstLag, lag && above == [true, false]);
        met.case(Case::SecondLag, lag && above == [false, true]);
        met.case(Case::BothLags, lag && above == [true; 2] && first != second);
        met.case(Case::Lag121, lag && detail == 121);
        met.case(Case::Lag143, lag && detail == 143);
    }

    fn is_fresh(&self) -> bool {
        let fresh = States::fresh(self.before.searcher.upper);
        self.before.detector == fresh.detector && self.given == fresh.searcher.state()
    }

    /// Whether the given lag, fraction, start and upper number are none that a call hands out.
    fn outside(&self) -> [bool; 4] {
        let PitchState {
            samples,
            fraction,
            upper,
            start,
            ..
        } = self.given;
        [
            !(19..=144).contains(&samples),
            !(-1..=1).contains(&fraction),
            !matches!(start, 0 | 20..=137),
            ![120, 143].contains(&upper),
        ]
    }
}
