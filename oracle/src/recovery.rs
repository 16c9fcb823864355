//! Demand 3's list with the library's searcher and lag reader, a handset's and a player's: searches,
//! whose indexes may be damaged on the way to the reader, resets and stray readings. Compared are
//! the lags where demand 3 says that they are recovered, the starts that both keep, and whether each
//! reading is refused. Previews anywhere between change none of it. Frames stand between too: an
//! accepted one sends what four single searches send, and a refused one sends nothing.

use crate::{
    calls::{Call, Step},
    chains::Chain,
    codec::mr74::pitch::open_loop::Detector,
    compare::{Function, Line, in_threads},
    counts::{Cases, cases},
    frames::{self, Feed, Frame, States},
    inputs::Random,
    previews::Others,
    project::{PitchAnswer, PitchState, pitch_search, preview, read_lag},
    search::{Searcher, called},
    upper::Upper,
};
use std::fmt;

const CHAINS: u64 = 8_000;

/// Of so many indexes one is drawn anew, before one of so many steps there is a stray reading, and
/// before one of so many a frame. Of so many frames one has a list of another length, or two.
const DRAWN_OF: u64 = 3;
const STRAY_OF: u64 = 4;
const FRAME_OF: u64 = 4;
const LENGTH_OF: u64 = 4;

/// The greatest index of subframes 2 and 4.
const MAX_RELATIVE: u8 = 31;

cases! {
    Reset => "reset",
    StraySubframe => "stray reading, not of the subframe that is due",
    StrayIndex => "stray reading of an index above 31",
    Intact => "after an intact index, the own one intact",
    Damaged => "after an intact index, the own one damaged",
    AfterSearch => "after an intact index, a refused search between",
    AfterStray => "after an intact index, a stray reading between",
    AfterPreview => "after an intact index, a preview between",
    AfterFrame => "after an intact index, a refused frame between",
    FrameIntact => "frame whose four indexes are intact",
    FrameDamaged => "frame with a damaged index",
    FrameLength => "frame refused by 1 where subframe 1 is expected",
    Unequal => "after a damaged index, starts that differ",
    Above120 => "damaged index of subframe 1 or 3 read as a lag of 121 to 143",
    AfterAbove120 => "reading of subframe 2 or 4 after such a lag",
}

pub fn functions() -> [Function; 1] {
    [Function {
        name: "recovery",
        compare: || compare_chains(Upper::Handset),
    }]
}

/// Compares a searcher and a reader of this upper lag.
pub fn compare_chains(upper: Upper) -> Vec<Line> {
    let mut tally = Tally::new();
    let parts = in_threads(CHAINS, Tally::new, |tally, chains| {
        for index in chains {
            tally.compare_chain(upper, index);
        }
    });
    for part in parts {
        tally.add(part);
    }
    let cases = Line::of_cases(tally.cases.counts(|case| case.is_of(upper)));
    vec![
        tally.lags,
        tally.starts,
        tally.readings,
        tally.frames,
        cases,
    ]
}

/// A step of a chain, as a report shows it.
#[derive(Clone, Copy)]
struct Place {
    chain: u64,
    step: usize,
}

impl fmt::Debug for Place {
    fn fmt(&self, f: &mut fmt::Formatter<'_>) -> fmt::Result {
        let Self { chain, step } = self;
        write!(f, "chain {chain} step {step}")
    }
}

/// Searcher and reader, the detector beside them, and the last place with no reset after it.
struct Pair {
    searcher: PitchState,
    reader: PitchState,
    detector: Detector,
    last: Option<Last>,
}

/// The subframe of a place, whether its index was intact, and what was refused or previewed since.
#[derive(Clone, Copy)]
struct Last {
    subframe: u8,
    intact: bool,
    search_refused: bool,
    strayed: bool,
    previewed: bool,
    frame_refused: bool,
}

impl Case {
    /// Whether a searcher and a reader of this upper lag meet the case.
    fn is_of(self, upper: Upper) -> bool {
        upper == Upper::Player || !matches!(self, Self::Above120 | Self::AfterAbove120)
    }
}

impl Pair {
    fn fresh(upper: Upper) -> Self {
        Self {
            searcher: upper.fresh(),
            reader: upper.fresh(),
            detector: Detector::default(),
            last: None,
        }
    }

    /// The published detector and searcher in the same states.
    fn states(&self) -> States {
        States {
            detector: self.detector.clone(),
            searcher: Searcher::of(self.searcher).expect("a subframe that is expected"),
        }
    }

    /// The subframe that is due.
    fn due(&self) -> u8 {
        self.last.map_or(1, |last| last.subframe % 4 + 1)
    }

    fn preview(&mut self, call: &Call) {
        self.searcher = called(preview, self.searcher, call).state();
        if let Some(last) = &mut self.last {
            last.previewed = true;
        }
    }
}

/// What was compared, and which cases were met.
struct Tally {
    lags: Line,
    starts: Line,
    readings: Line,
    frames: Line,
    cases: Cases<Case>,
}

impl Tally {
    fn new() -> Self {
        Self {
            lags: Line::new("demand 3 of 01, the reader's lag where it is recovered"),
            starts: Line::new("rule of 02, reader's start after an intact index"),
            readings: Line::new("rule of 01, readings refused or not"),
            frames: Line::new("four single searches, pitches of frames and searchers after"),
            cases: Cases::new(),
        }
    }

    fn add(&mut self, part: Tally) {
        self.lags.add(part.lags);
        self.starts.add(part.starts);
        self.readings.add(part.readings);
        self.frames.add(part.frames);
        self.cases.add(part.cases);
    }

    fn compare_chain(&mut self, upper: Upper, index: u64) {
        let random = &mut Random::at(!index);
        let mut chain = Chain::at(index, &[]);
        let mut others = Others::beside(index, CHAINS, &[]);
        let feed = Feed::default();
        let mut frames = frames::Chain::at(index, &feed);
        let mut pair = Pair::fresh(upper);
        for number in 1.. {
            let place = Place {
                chain: index,
                step: number,
            };
            if random.below(FRAME_OF) == 0 {
                let mut frame = frames.frame(&pair.states());
                if random.below(LENGTH_OF) == 0 {
                    frame.change_lengths(random);
                }
                self.compare_frame(place, &mut pair, random, &frame);
            }
            let searcher = pair.states().searcher;
            let Some(step) = chain.next(&searcher) else {
                break;
            };
            if random.below(STRAY_OF) == 0 {
                self.compare_stray(place, &mut pair, random);
            }
            for call in others.calls(&searcher, &step) {
                pair.preview(&call);
            }
            match step {
                Step::Reset => {
                    self.cases.count(Case::Reset);
                    pair = Pair::fresh(upper);
                }
                Step::Search(call) => self.compare_search(place, &mut pair, random, &call),
            }
        }
    }

    fn compare_stray(&mut self, place: Place, pair: &mut Pair, random: &mut Random) {
        let due = pair.due();
        let [subframe, index] = stray(random, due);
        self.cases.count(match subframe == due {
            true => Case::StrayIndex,
            false => Case::StraySubframe,
        });
        self.compare_reading(place, pair, [subframe, index], true);
        if let Some(last) = &mut pair.last {
            last.strayed = true;
        }
    }

    fn compare_search(&mut self, place: Place, pair: &mut Pair, random: &mut Random, call: &Call) {
        let sent = called(pitch_search, pair.searcher, call);
        pair.searcher = sent.state();
        if sent.number != 0 {
            if let Some(last) = &mut pair.last {
                last.search_refused = true;
            }
            return;
        }
        self.compare_sent(place, pair, random, (call.subframe, &sent));
    }

    /// The pitches of an accepted frame are sent, each beside that of a single search.
    fn compare_frame(&mut self, place: Place, pair: &mut Pair, random: &mut Random, frame: &Frame) {
        let mut history = frame.history(&pair.detector);
        let framed = frame.called(pair.searcher, &mut history);
        if framed.number != 0 {
            pair.searcher = framed.searcher;
            if framed.number == 1 && pair.due() == 1 {
                self.cases.count(Case::FrameLength);
            }
            if let Some(last) = &mut pair.last {
                last.frame_refused = true;
            }
            return;
        }
        pair.detector.history_q0.copy_from_slice(&history);
        let mut intact = true;
        for (call, pitch) in frame.searches.iter().zip(framed.pitches) {
            let single = called(pitch_search, pair.searcher, call);
            let sent = PitchAnswer {
                index: pitch.index,
                samples: pitch.samples,
                fraction: pitch.fraction,
                ..single
            };
            self.compare_single(place, sent, single);
            pair.searcher = single.state();
            intact &= self.compare_sent(place, pair, random, (call.subframe, &sent));
        }
        self.compare_single(place, framed.searcher, pair.searcher);
        self.cases.count(match intact {
            true => Case::FrameIntact,
            false => Case::FrameDamaged,
        });
    }

    fn compare_single<T: fmt::Debug + PartialEq>(&mut self, place: Place, framed: T, single: T) {
        self.frames.compared += 1;
        if framed != single {
            self.frames
                .difference(place.chain, &place, &framed, &single);
        }
    }

    /// Compares what the reader makes of an index that was sent. Tells whether it arrived intact.
    fn compare_sent(
        &mut self,
        place: Place,
        pair: &mut Pair,
        random: &mut Random,
        (subframe, sent): (u8, &PitchAnswer),
    ) -> bool {
        let arrived = arriving(random, subframe, sent.index);
        let before = pair.reader.samples;
        let read = self.compare_reading(place, pair, [subframe, arrived], false);
        let intact = arrived == sent.index;
        if subframe.is_multiple_of(2) {
            if before > 120 {
                self.cases.count(Case::AfterAbove120);
            }
        } else if read.samples > 120 {
            self.cases.count(Case::Above120);
        }
        let recovered = !subframe.is_multiple_of(2) || pair.last.is_some_and(|last| last.intact);
        if intact && recovered {
            self.compare_lags(place, sent, &read);
        }
        if let Some(last) = pair.last
            && subframe.is_multiple_of(2)
        {
            self.compare_starts(place, pair, last, intact);
        }
        pair.last = Some(Last {
            subframe,
            intact,
            search_refused: false,
            strayed: false,
            previewed: false,
            frame_refused: false,
        });
        intact
    }

    fn compare_reading(
        &mut self,
        place: Place,
        pair: &mut Pair,
        [subframe, index]: [u8; 2],
        refused: bool,
    ) -> PitchAnswer {
        let read = read_lag(pair.reader, subframe, index);
        pair.reader = read.state();
        self.readings.compared += 1;
        if (read.number != 0) != refused {
            self.readings
                .difference(place.chain, &place, &read, &("refused", refused));
        }
        read
    }

    /// Compares the lag that is read with the one that was sent.
    fn compare_lags(&mut self, place: Place, sent: &PitchAnswer, read: &PitchAnswer) {
        let [sent, read] = [sent, read].map(|answer| (answer.samples, answer.fraction));
        self.lags.compared += 1;
        if read != sent {
            self.lags.difference(place.chain, &place, &read, &sent);
        }
    }

    /// Compares the starts kept in subframe 2 or 4, whether its own index is intact or damaged.
    fn compare_starts(&mut self, place: Place, pair: &Pair, last: Last, intact: bool) {
        let (reader, searcher) = (pair.reader.start, pair.searcher.start);
        if !last.intact {
            if reader != searcher {
                self.cases.count(Case::Unequal);
            }
            return;
        }
        self.starts.compared += 1;
        if reader != searcher {
            self.starts
                .difference(place.chain, &place, &reader, &searcher);
        }
        self.cases.count(match intact {
            true => Case::Intact,
            false => Case::Damaged,
        });
        for (case, met) in [
            (Case::AfterSearch, last.search_refused),
            (Case::AfterStray, last.strayed),
            (Case::AfterPreview, last.previewed),
            (Case::AfterFrame, last.frame_refused),
        ] {
            if met {
                self.cases.count(case);
            }
        }
    }
}

/// The index as it arrives: the sent one, or any of those that are as wide.
fn arriving(random: &mut Random, subframe: u8, sent: u8) -> u8 {
    if random.below(DRAWN_OF) != 0 {
        return sent;
    }
    match subframe {
        2 | 4 => random.below(u64::from(MAX_RELATIVE) + 1) as u8,
        _ => random.word() as u8,
    }
}

/// A subframe that is not due, with any index, or the due one with an index that it does not have.
fn stray(random: &mut Random, due: u8) -> [u8; 2] {
    let index = random.word() as u8;
    match random.below(3) {
        0 if due.is_multiple_of(2) => [due, index.max(MAX_RELATIVE + 1)],
        1 => [due.wrapping_add(1 + random.below(255) as u8), index],
        _ => [(due + random.below(3) as u8) % 4 + 1, index],
    }
}
