//! The comparison of `observe_spectrum`: chains of spectra.

use super::{
    RESONANT, Watch,
    spectra::{self, BoundCounts, Gaps, Spectrum, spectrum, spectrum_that},
    spectrum_answer,
};
use crate::{
    compare::{Line, in_threads},
    counts::{Cases, cases},
    inputs::Random,
    project::{SpectrumAnswer, observe_spectrum},
    refusals::Lengths,
    turns::{Turn, Turns},
    words::shortened,
};
use std::fmt;

const CHAINS: u64 = 240_000;

cases! {
    Fresh => "first spectrum of a fresh watch",
    Close => "close spectrum",
    Wide => "spectrum that is not close",
    Count11 => "count 11, not resonant",
    Count12 => "count 12, from 11: resonant",
    Held => "count 12, held",
    Fall11 => "count 0 after a run of 11 close spectra",
    Fall12 => "count 0 after a run of 12 close spectra",
    Fall13 => "count 0 after a run of 13 close spectra",
    FallLater => "count 0 after a longer run",
    Again => "resonant again, after a spectrum that is not close",
    Reset => "reset",
    ResetCount => "reset of a count that is not 0",
    Refused => "refusal that keeps count 0",
    RefusedCount => "refusal that keeps a count of 1 to 11",
    RefusedResonant => "refusal that keeps count 12",
}

/// What was compared, and which cases were met.
struct Tally {
    answers: Line,
    counts: Line,
    cases: Cases<Case>,
    spectra: Cases<spectra::Case>,
    bounds: BoundCounts,
}

impl Tally {
    fn new() -> Self {
        Self {
            answers: Line::new("encoder_stability.rs, answers"),
            counts: Line::new("encoder_stability.rs, counts after"),
            cases: Cases::new(),
            spectra: Cases::new(),
            bounds: BoundCounts::default(),
        }
    }

    fn add(&mut self, part: Self) {
        self.answers.add(part.answers);
        self.counts.add(part.counts);
        self.cases.add(part.cases);
        self.spectra.add(part.spectra);
        self.bounds.add(&part.bounds);
    }
}

/// Where a chain stands: both sides, and the close spectra since one that was not close.
struct Chain {
    watch: Watch,
    count: u8,
    run: u64,
    /// Whether a spectrum was resonant since the reset, and one not close after it.
    resonant_before: bool,
    first: bool,
}

pub fn compare_chains() -> Vec<Line> {
    let mut tally = Tally::new();
    let parts = in_threads(CHAINS, Tally::new, |tally, chains| {
        chains.for_each(|index| compare_chain(tally, index));
    });
    parts.into_iter().for_each(|part| tally.add(part));
    let mut cases = tally.cases.counts(|_| true);
    cases.extend(tally.spectra.counts(|_| true));
    cases.extend(tally.bounds.counts());
    vec![tally.answers, tally.counts, Line::of_cases(cases)]
}

fn compare_chain(tally: &mut Tally, index: u64) {
    let random = &mut Random::at(index);
    let mut turns = Turns::default();
    let mut runs = Runs::drawn(random);
    let mut chain = Chain::fresh();
    let mut number = 0;
    while let Some(turn) = turns.next(random) {
        number += 1;
        let (lsp, length) = match turn {
            Turn::Reset => {
                tally.cases.count(Case::Reset);
                if chain.count != 0 {
                    tally.cases.count(Case::ResetCount);
                }
                chain = Chain::fresh();
                runs = Runs::drawn(random);
                continue;
            }
            Turn::Accepted => {
                let (case, lsp) = runs.next(random);
                tally.spectra.count(case);
                (lsp.to_vec(), None)
            }
            Turn::Refused => {
                let lengths = Lengths::one_or_two(random, NEEDED);
                let (_, lsp) = spectrum(random);
                let words = lsp.iter().cycle().take(lengths.lengths[0]);
                (words.copied().collect(), Some(lengths))
            }
        };
        let place = Place {
            chain: index,
            number,
            count: chain.count,
            lsp: &lsp,
        };
        match length {
            None => chain.compare_spectrum(tally, &place),
            Some(lengths) => chain.compare_refusal(tally, &place, &lengths),
        }
    }
}

/// The length of a spectrum.
pub const NEEDED: [usize; 1] = [super::LPC_ORDER];

impl Chain {
    fn fresh() -> Self {
        Self {
            watch: Watch::default(),
            count: 0,
            run: 0,
            resonant_before: false,
            first: true,
        }
    }

    fn compare_spectrum(&mut self, tally: &mut Tally, place: &Place<'_>) {
        let answer = observe_spectrum(place.lsp, self.count);
        let lsp: &Spectrum = place.lsp.try_into().expect("ten words");
        let resonant = self.watch.observe(lsp);
        let gaps = Gaps::of(lsp);
        let is_close = gaps.is_close();
        assert_eq!(self.watch.count() != 0, is_close, "the gaps found here");
        tally.spectra.count_found(&gaps.cases(lsp));
        tally.bounds.count(&gaps);
        self.count_run(tally, is_close);
        self.compare(
            tally,
            place,
            answer,
            spectrum_answer(Ok(resonant), self.watch.count()),
        );
    }

    fn compare_refusal(&mut self, tally: &mut Tally, place: &Place<'_>, lengths: &Lengths<1>) {
        let answer = observe_spectrum(place.lsp, self.count);
        let refused = lengths
            .checked()
            .map(|()| unreachable!("a call that is refused"));
        tally.cases.count(match self.count {
            0 => Case::Refused,
            RESONANT => Case::RefusedResonant,
            _ => Case::RefusedCount,
        });
        self.compare(
            tally,
            place,
            answer,
            spectrum_answer(refused, self.watch.count()),
        );
    }

    /// Compares the answer and then the count after it. The library goes on from the published
    /// count, so that one difference brings no others.
    fn compare(
        &mut self,
        tally: &mut Tally,
        place: &Place<'_>,
        answer: SpectrumAnswer,
        expected: SpectrumAnswer,
    ) {
        tally
            .counts
            .compare(place.chain, place, &answer.count, &expected.count);
        let [ours, other] = [answer, expected].map(|answer| SpectrumAnswer { count: 0, ..answer });
        tally.answers.compare(place.chain, place, &ours, &other);
        self.count = expected.count;
    }

    fn count_run(&mut self, tally: &mut Tally, is_close: bool) {
        let cases = &mut tally.cases;
        if std::mem::take(&mut self.first) {
            cases.count(Case::Fresh);
        }
        if is_close {
            self.run += 1;
            cases.count(Case::Close);
            match self.run {
                11 => cases.count(Case::Count11),
                12 => cases.count(Case::Count12),
                13.. => cases.count(Case::Held),
                _ => {}
            }
            if self.run == 12 && self.resonant_before {
                cases.count(Case::Again);
            }
            return;
        }
        cases.count(Case::Wide);
        match self.run {
            11 => cases.count(Case::Fall11),
            12 => cases.count(Case::Fall12),
            13 => cases.count(Case::Fall13),
            14.. => cases.count(Case::FallLater),
            _ => {}
        }
        self.resonant_before |= self.run >= RESONANT.into();
        self.run = 0;
    }
}

/// The spectra of a chain: any, or runs of close ones with one or a few others between them.
pub struct Runs {
    is_drawn: bool,
    close: u64,
    wide: u64,
}

impl Runs {
    pub fn drawn(random: &mut Random) -> Self {
        Self {
            is_drawn: random.below(2) == 0,
            close: 0,
            wide: 0,
        }
    }

    pub fn next(&mut self, random: &mut Random) -> (spectra::Case, Spectrum) {
        if self.is_drawn {
            return spectrum(random);
        }
        if self.close + self.wide == 0 {
            self.close = match random.below(4) {
                0 => random.below(24),
                _ => 11 + random.below(3),
            };
            self.wide = 1 + random.below(2);
        }
        let is_close = self.close > 0;
        let left = if is_close {
            &mut self.close
        } else {
            &mut self.wide
        };
        *left -= 1;
        spectrum_that(random, is_close)
    }
}

/// A step of a chain, as a report shows it.
struct Place<'a> {
    chain: u64,
    number: usize,
    count: u8,
    lsp: &'a [i16],
}

impl fmt::Debug for Place<'_> {
    fn fmt(&self, f: &mut fmt::Formatter<'_>) -> fmt::Result {
        let Self {
            chain,
            number,
            count,
            lsp,
        } = self;
        write!(f, "chain {chain} step {number} count {count} spectrum ")?;
        match lsp.len() {
            super::LPC_ORDER => write!(f, "{lsp:?}"),
            _ => shortened(lsp, f),
        }
    }
}
