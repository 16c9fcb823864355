//! The comparison of `watched_gain`: chains of stages with spectra between them. The stage's row is
//! compared with `quantize` within the limit that was used too.

use super::{
    FRESH_GAINS, GAINS, Gains, Staged, Watch, limit_answer,
    limits::Watched,
    observed::Runs,
    spectra::{Spectrum, spectrum_that},
    spectrum_answer,
    stage_cases::{Case, Ran},
};
use crate::{
    codec::mr74::gain::quantization::GainLimit,
    compare::{Line, in_threads},
    counts::Cases,
    feed,
    gain::{
        self, Call, Drawn, LISTS, PAIRS, Pair, RESONANCE_ROWS, ROWS, SignedRefusal, choice,
        tone_call,
    },
    inputs::Random,
    lent::Lent,
    project::{WatchedGainAnswer, observe_spectrum, quantize, watch_limit, watched_gain},
    refusals::{Lengths, add_counts},
    subframes::check_lengths,
    turns::{Turn, Turns},
    words::SUBFRAME,
};
use std::fmt;

const CHAINS: u64 = 6_500;
/// The stages of a frame, and as many as a chain may have.
pub const SUBFRAMES: u64 = 4;
const STAGES: u64 = 256;

/// The lengths that a stage needs, its stored gains last.
pub const NEEDED: [usize; LISTS + 1] = [SUBFRAME, SUBFRAME, SUBFRAME, GAINS];

/// What was compared, and which cases were met.
struct Tally {
    spectra: Line,
    limits: Line,
    answers: Line,
    gains: Line,
    /// The same rows by the plain stage.
    plain: Line,
    refusals: Line,
    cases: Cases<Case>,
    /// How often each row was chosen without a limit, and within the resonance limit.
    rows: [u64; ROWS],
    resonance_rows: [u64; RESONANCE_ROWS],
}

impl Tally {
    fn new() -> Self {
        Self {
            spectra: Line::new("encoder_stability.rs, spectra between stages"),
            limits: Line::new("encoder_stability.rs, the limit told before a stage"),
            answers: Line::new("encoder_stability.rs and gain/quantization.rs, rows and limits"),
            gains: Line::new("encoder_stability.rs, gains after"),
            plain: Line::new("quantize with the limit that was used"),
            refusals: Line::new("rule of 02, refusals between stages and the gains after"),
            cases: Cases::new(),
            rows: [0; _],
            resonance_rows: [0; _],
        }
    }

    fn add(&mut self, part: Self) {
        self.spectra.add(part.spectra);
        self.limits.add(part.limits);
        self.answers.add(part.answers);
        self.gains.add(part.gains);
        self.plain.add(part.plain);
        self.refusals.add(part.refusals);
        self.cases.add(part.cases);
        add_counts(&mut self.rows, &part.rows);
        add_counts(&mut self.resonance_rows, &part.resonance_rows);
    }

    /// Each row must occur within its limit, so the least frequent is a case too.
    fn lines(self) -> Vec<Line> {
        let least = |counts: &[u64]| *counts.iter().min().expect("a count");
        let mut cases = self.cases.counts(|_| true);
        cases.extend([
            (
                "row that is chosen least often of all 128, unrestricted",
                least(&self.rows),
            ),
            (
                "row that is chosen least often of the first 96, within the resonance limit",
                least(&self.resonance_rows),
            ),
        ]);
        vec![
            self.spectra,
            self.limits,
            self.answers,
            self.gains,
            self.plain,
            self.refusals,
            Line::of_cases(cases),
        ]
    }
}

pub fn compare_chains() -> Vec<Line> {
    let feed = feed::steps("gain records", gain::call, |_| true);
    let mut tally = Tally::new();
    let parts = in_threads(CHAINS, Tally::new, |tally, chains| {
        chains.for_each(|index| compare_chain(tally, index, &feed));
    });
    parts.into_iter().for_each(|part| tally.add(part));
    tally.lines()
}

/// The stages of a chain.
#[derive(Clone, Copy, PartialEq)]
enum Source {
    /// Those of a steady tone, with its spectra.
    Tone,
    /// Any calls, the first chains' being the feed's, with any spectra and their own pitch gains.
    Calls,
    /// Any calls, before which the watch and the pitch gain are any.
    Given,
}

/// The spectra and the calls of a chain, as they are drawn.
pub struct Drawing<'a> {
    index: u64,
    source: Source,
    feed: &'a [Call],
    random: Random,
    turns: Turns,
    runs: Runs,
    /// The stages of the chain.
    stage: u64,
}

/// A call and its pitch gain, and the watch if one is given before it.
pub struct Stage {
    pub call: Call,
    pub pitch_gain: i16,
    pub given: Option<Watched>,
}

impl<'a> Drawing<'a> {
    pub fn at(index: u64, feed: &'a [Call]) -> Self {
        let mut random = Random::at(index);
        let runs = Runs::drawn(&mut random);
        Self {
            index,
            source: match index % 4 {
                0 => Source::Calls,
                1 | 2 => Source::Tone,
                _ => Source::Given,
            },
            feed,
            random,
            turns: Turns::default(),
            runs,
            stage: 0,
        }
    }

    pub fn turn(&mut self) -> Option<Turn> {
        self.turns.next(&mut self.random)
    }

    pub fn spectrum(&mut self) -> Spectrum {
        const WIDE_OF: u64 = 32;
        let random = &mut self.random;
        let (_, lsp) = match self.source {
            Source::Tone => {
                let is_close = random.below(WIDE_OF) != 0;
                spectrum_that(random, is_close)
            }
            Source::Calls | Source::Given => self.runs.next(random),
        };
        lsp
    }

    /// The next stage.
    pub fn stage(&mut self) -> Stage {
        let call = match self.source {
            Source::Tone => tone_call(&mut self.random),
            Source::Calls | Source::Given => {
                let place = self.index / 4 * STAGES + self.stage;
                Drawn::at(place, self.feed).call
            }
        };
        self.stage += 1;
        if self.source == Source::Given && self.random.below(2) == 0 {
            let watched = Watched::any(&mut self.random);
            return Stage {
                call,
                pitch_gain: watched.pitch_gain,
                given: (self.random.below(2) == 0).then_some(watched),
            };
        }
        Stage {
            pitch_gain: call.pitch_gain().gain_q14,
            call,
            given: None,
        }
    }

    /// A pair that may be refused.
    pub fn pair(&mut self) -> Pair {
        PAIRS[self.random.below(PAIRS.len() as u64) as usize]
    }
}

/// Where a chain stands, both sides.
struct Chain<'a> {
    index: u64,
    drawing: Drawing<'a>,
    watch: Watch,
    count: u8,
    gains: Gains,
    /// The stages since the watch was made, and those directly before that had the same limit.
    stages: usize,
    alike: usize,
    last: Option<GainLimit>,
}

fn compare_chain(tally: &mut Tally, index: u64, feed: &[Call]) {
    let mut chain = Chain {
        index,
        drawing: Drawing::at(index, feed),
        watch: Watch::default(),
        count: 0,
        gains: FRESH_GAINS,
        stages: 0,
        alike: 0,
        last: None,
    };
    while let Some(turn) = chain.drawing.turn() {
        match turn {
            Turn::Reset => chain.reset(tally),
            Turn::Accepted => {
                chain.compare_spectrum(tally);
                for _ in 0..SUBFRAMES {
                    let (call, pitch_gain) = chain.next_call();
                    chain.compare_stage(tally, &call, pitch_gain);
                }
            }
            Turn::Refused => chain.compare_refusal(tally),
        }
    }
}

impl Chain<'_> {
    fn reset(&mut self, tally: &mut Tally) {
        tally.cases.count(Case::Reset);
        if self.count != 0 {
            tally.cases.count(Case::ResetCount);
        }
        if self.gains != FRESH_GAINS {
            tally.cases.count(Case::ResetGains);
        }
        self.give(Watch::default());
    }

    /// Both sides go on from this watch.
    fn give(&mut self, watch: Watch) {
        (self.count, self.gains) = (watch.count(), watch.gains());
        self.watch = watch;
        (self.stages, self.alike, self.last) = (0, 0, None);
    }

    fn compare_spectrum(&mut self, tally: &mut Tally) {
        let lsp = self.drawing.spectrum();
        let ours = observe_spectrum(&lsp, self.count);
        let resonant = self.watch.observe(&lsp);
        let count = self.watch.count();
        tally.cases.count(match count {
            0 => Case::Wide,
            _ => Case::Close,
        });
        if resonant {
            tally.cases.count(Case::Resonant);
        }
        let expected = spectrum_answer(Ok(resonant), count);
        let input = (self.index, self.drawing.stage, self.count, lsp);
        tally.spectra.compare(self.index, &input, &ours, &expected);
        self.count = count;
    }

    /// The next call and its pitch gain. The watch before it may be given anew.
    fn next_call(&mut self) -> (Call, i16) {
        let Stage {
            call,
            pitch_gain,
            given,
        } = self.drawing.stage();
        if let Some(watched) = given {
            self.give(watched.watch());
        }
        (call, pitch_gain)
    }

    fn compare_stage(&mut self, tally: &mut Tally, call: &Call, pitch_gain: i16) {
        let before = self.watch.clone();
        let told = watch_limit(pitch_gain, self.count, &self.gains);
        let mut lent = Lent::new(&self.gains);
        let ours = watched_gain(
            call.lists(),
            call.exponent,
            call.fraction,
            pitch_gain,
            self.count,
            lent.words(),
        );
        let plain = quantize(call.lists(), call.exponent, call.fraction, ours.limit);

        let Staged { limit, nearest } = self.watch.stage(call, pitch_gain);
        let expected = WatchedGainAnswer {
            gain: gain::answer(Ok((nearest.index, call.clips()))),
            limit: choice(limit),
        };
        let place = Place {
            chain: self.index,
            stage: self.drawing.stage,
            before: &before,
            pitch_gain,
            call,
        };
        let index = self.index;
        tally
            .limits
            .compare(index, &place, &told, &limit_answer(Ok(limit)));
        tally.answers.compare(index, &place, &ours, &expected);
        compare_gains(&mut tally.gains, index, &place, &lent, &self.watch.gains());
        tally.plain.compare(index, &place, &ours.gain, &plain);
        self.gains = self.watch.gains();
        self.count_stage(tally, &before, &place, Staged { limit, nearest });
    }

    fn count_stage(&mut self, tally: &mut Tally, before: &Watch, place: &Place<'_>, ran: Staged) {
        let Staged { limit, nearest } = ran;
        let row = usize::from(nearest.index);
        let unrestricted = match limit {
            GainLimit::Unrestricted => nearest,
            GainLimit::Resonance => place.call.nearest_within(GainLimit::Unrestricted),
        };
        let ran = Ran {
            before,
            pitch_gain: place.pitch_gain,
            limit,
            row,
            unrestricted: unrestricted.index.into(),
            after: &self.watch,
            stages: self.stages,
            alike: self.alike,
            last: self.last,
        };
        tally.cases.count_found(&ran.cases());
        match limit {
            GainLimit::Unrestricted => tally.rows[row] += 1,
            GainLimit::Resonance => tally.resonance_rows[row] += 1,
        }
        self.stages += 1;
        self.alike = match self.last == Some(limit) {
            true => self.alike + 1,
            false => 1,
        };
        self.last = Some(limit);
    }

    /// A stage with lists of wrong lengths or a bad pair, or with both.
    fn compare_refusal(&mut self, tally: &mut Tally) {
        let (call, pitch_gain) = self.next_call();
        let random = &mut self.drawing.random;
        let lengths = match random.below(2) {
            0 => NEEDED,
            _ => Lengths::one_or_two(random, NEEDED).lengths,
        };
        let pair = self.drawing.pair();
        let Err(refusal) = checked(lengths, pair) else {
            return;
        };
        if self.watch == Watch::default() {
            tally.cases.count(Case::FreshRefused);
        }
        if self.gains != FRESH_GAINS {
            tally.cases.count(match refusal.number {
                1 => Case::Refused1,
                7 => Case::Refused7,
                _ => Case::Refused14,
            });
        }
        let [target, adaptive, filtered, gains] = lengths;
        let lists = [
            (target, call.target),
            (adaptive, call.adaptive),
            (filtered, call.filtered),
        ];
        let lists = lists.map(|(length, words)| of_length(&words, length));
        let refused = Refused {
            lists: lists.each_ref().map(Vec::as_slice),
            pair,
            pitch_gain,
            count: self.count,
            gains: &of_length(&self.gains, gains),
        };
        let index = self.index;
        refused.compare(&mut tally.refusals, index, refusal);
    }
}

/// Refuses a list's length, then the exponent, then the fraction.
pub fn checked(
    lengths: [usize; LISTS + 1],
    (exponent, fraction): Pair,
) -> Result<(), SignedRefusal> {
    check_lengths(lengths, NEEDED)?;
    gain::checked([SUBFRAME; LISTS], exponent, fraction, 0).map(|_| ())
}

/// These words over and over, so many in all.
fn of_length(words: &[i16], length: usize) -> Vec<i16> {
    words.iter().cycle().take(length).copied().collect()
}

/// A stage that is refused.
pub struct Refused<'a> {
    pub lists: [&'a [i16]; LISTS],
    pub pair: Pair,
    pub pitch_gain: i16,
    pub count: u8,
    pub gains: &'a [i16],
}

impl Refused<'_> {
    /// Compares the answer, and the words that were lent, which must be as they were.
    pub fn compare(&self, line: &mut Line, index: u64, refusal: SignedRefusal) {
        let (exponent, fraction) = self.pair;
        let mut lent = Lent::new(self.gains);
        let ours = watched_gain(
            self.lists,
            exponent,
            fraction,
            self.pitch_gain,
            self.count,
            lent.words(),
        );
        let expected = WatchedGainAnswer {
            gain: gain::answer(Err(refusal)),
            limit: 0,
        };
        line.compare(index, self, &ours, &expected);
        compare_gains(line, index, self, &lent, self.gains);
    }
}

impl fmt::Debug for Refused<'_> {
    fn fmt(&self, f: &mut fmt::Formatter<'_>) -> fmt::Result {
        let lengths = self.lists.map(<[i16]>::len);
        let Self {
            pair,
            pitch_gain,
            count,
            gains,
            ..
        } = self;
        write!(f, "lengths {lengths:?} and {} pair {pair:?} ", gains.len())?;
        write!(f, "pitch gain {pitch_gain} count {count}")
    }
}

/// Compares the words that were lent, and those beside them.
pub fn compare_gains(
    line: &mut Line,
    index: u64,
    input: &dyn fmt::Debug,
    lent: &Lent,
    expected: &[i16],
) {
    line.compared += 1;
    if let Some([ours, other]) = lent.difference(expected) {
        line.difference(index, input, &ours, &other);
    }
}

/// A stage of a chain, as a report shows it.
struct Place<'a> {
    chain: u64,
    stage: u64,
    before: &'a Watch,
    pitch_gain: i16,
    call: &'a Call,
}

impl fmt::Debug for Place<'_> {
    fn fmt(&self, f: &mut fmt::Formatter<'_>) -> fmt::Result {
        let Self {
            chain,
            stage,
            before,
            pitch_gain,
            call,
        } = self;
        write!(f, "chain {chain} stage {stage} {before:?} ")?;
        write!(f, "pitch gain {pitch_gain} {call:?}")
    }
}
